//! `lamp`: lamp.txt, a day that ends dark and one of hashed keys as a golden file, the middle of a day, and what is turned
//! down.

mod common;

use common::{demo, piped, text, turned_down, written};

fn lamp(day: &str, writer: &str) -> String {
    let output = demo(&[day, "lamp", writer]);
    assert!(output.status.success(), "{}", text(&output.stderr));
    text(&output.stdout)
}

#[test]
fn the_golden_file() {
    let asked = [
        ("lamp.txt", "plotter-1/c1"),
        ("lamp.txt", "plotter-2/c1"),
        ("day.txt", "plotter-1/c1"),
        ("serials.txt", "plotter-2/c1"),
    ];
    let all = asked.map(|(day, writer)| lamp(day, writer)).join("\n");
    assert_eq!(all, include_str!("lamp.out"));
}

#[test]
fn the_readme_shows_its_beginning() {
    let moves = include_str!("lamp.out").split_once("\n\n").map_or("", |(_, moves)| moves);
    let shown = moves.split_once("\n\n  line 24 ").map_or(moves, |(shown, _)| shown);
    let indented = |l: &str| if l.is_empty() { "\n".to_owned() } else { format!("    {l}\n") };
    let block: String = shown.lines().map(indented).collect();
    assert!(include_str!("../README.md").contains(&block), "{block}");
}

/// What the first lines of lamp.txt say of the lamp of plotter-1/c1, in the last line.
fn after(lines: usize) -> String {
    let day: String =
        include_str!("../lamp.txt").lines().take(lines).map(|l| format!("{l}\n")).collect();
    let output = piped(&["-", "lamp", "plotter-1/c1"], day.as_bytes());
    assert!(output.status.success(), "{}", text(&output.stderr));
    text(&output.stdout).lines().last().unwrap_or_default().to_owned()
}

/// Where the lamp stands after each line is what the whole day says.
#[test]
fn in_the_middle_of_a_day() {
    let whole = lamp("lamp.txt", "plotter-1/c1");
    let moves: Vec<(usize, String)> = whole
        .lines()
        .collect::<Vec<_>>()
        .windows(2)
        .filter_map(|pair| {
            let number = pair[0].strip_prefix("  line ")?.split(' ').next()?.parse().ok()?;
            let to = pair[1].split(" → ").nth(1)?.split([' ', ':', ',']).next()?;
            Some((number, to.to_owned()))
        })
        .collect();
    assert_eq!(moves.len(), 10, "{whole}");
    for lines in 4..=include_str!("../lamp.txt").lines().count() {
        let on = moves
            .iter()
            .rev()
            .find(|(line, _)| *line <= lines)
            .map_or("dark", |(_, on)| on.as_str());
        let said = after(lines);
        let expected =
            if on == "dark" { " is dark: ".to_owned() } else { format!(" is on {on}, ") };
        assert!(said.contains(&expected), "after line {lines}: {said}");
    }
}

/// A writer may be written in digits, and is shown by its name.
#[test]
fn by_digits() {
    let digits = "0x706c6f747465722d3100000063310000";
    assert_eq!(lamp("lamp.txt", digits), lamp("lamp.txt", "plotter-1/c1"));
}

#[test]
fn what_is_turned_down() {
    turned_down(&["lamp.txt", "lamp"], 2, "lamp needs a writer after it, for example plotter-1/c1");
    turned_down(&["lamp.txt", "lamp", "plotter-1/c1", "pen-01"], 2, "'pen-01' is not understood");
    turned_down(
        &["lamp.txt", "lamp", "plotter-9/c1"],
        1,
        "plotter-9/c1 does not appear in lamp.txt",
    );
    turned_down(&["lamp.txt", "lamp", "pen-01"], 1, "'pen-01' is not a writer: write PARTICIPANT/");
    let all = "'plotter-1/*' names all writers of a participant, and each has a lamp of its own: write PARTICIPANT/ENTITY";
    turned_down(&["lamp.txt", "lamp", "plotter-1/*"], 1, all);
    turned_down(&["none.txt", "lamp", "plotter-1/c1"], 1, "none.txt: ");
    let bad = written("lamp-bad.txt", b"admit pen from a/b at 1s\npart nobody\n");
    turned_down(&[&bad, "lamp", "a/b"], 1, "lamp-bad.txt:2: 'nobody' is not a writer");
    let output = piped(&["-", "lamp", "a/c"], b"admit pen from a/b at 1s\n");
    assert_eq!(output.status.code(), Some(1));
    assert!(text(&output.stderr).contains("a/c does not appear in standard input"));
}
