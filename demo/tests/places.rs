//! The number of places for instances: the day of a bench-top console as a golden file, what refusal 9 counts to, and
//! where the number may stand.

mod common;

use common::{demo, piped, text, turned_down, written};

/// Calls that register so many instances.
fn registered(instances: usize) -> String {
    (1..=instances).map(|n| format!("register pen-{n:03}\n")).collect()
}

/// The answers of a day, the last one last.
fn answers(day: &str) -> Vec<String> {
    let output = piped(&["-", "log"], day.as_bytes());
    assert!(output.status.success(), "{}", text(&output.stderr));
    text(&output.stdout).lines().skip(1).map(str::to_owned).collect()
}

#[test]
fn the_day_of_a_bench_top_console() {
    let output = demo(&["bench_top.txt"]);
    assert!(output.status.success(), "{}", text(&output.stderr));
    assert_eq!(text(&output.stdout), include_str!("bench_top.out"));
    assert_eq!(
        text(&output.stderr),
        "bench_top.txt:44: warning: all 32 places are taken, so pen-33 is not tracked: \
         purge abandoned instances before it (autopurge)\n"
    );
}

/// Without the line there are 128.
#[test]
fn refusal_9_counts_to_the_places() {
    for (line, places) in [("", 128), ("places 32\n", 32), ("places 128\n", 128)] {
        let answers = answers(&format!("{line}{}", registered(places + 1)));
        let (last, others) = answers.split_last().expect("a call");
        assert!(last.contains(" refused as 9: new instance"), "{last}");
        assert!(others.iter().all(|answer| !answer.contains("refused")), "{others:?}");
        assert!(others.last().is_some_and(|a| a.ends_with(&format!("handle {places}"))));
    }
}

/// The number of places is told where it is not the usual one.
#[test]
fn the_tables_tell_the_places() {
    for (line, told) in [("", "1"), ("places 128\n", "1"), ("places 32\n", "1 of 32 places")] {
        let output = piped(&["-"], format!("{line}register pen\n").as_bytes());
        let shown = text(&output.stdout);
        assert!(shown.contains(&format!("\nInstances: {told}\n")), "{shown}");
    }
}

/// What was refused is in no table; the page and the JSON tell of it among the warnings.
#[test]
fn the_warning_stands_in_the_page() {
    for form in ["--json", "--html"] {
        let shown = text(&demo(&["bench_top.txt", "why", form]).stdout);
        assert!(shown.contains("all 32 places are taken, so pen-33 is not tracked"), "{form}");
    }
}

#[test]
fn the_places_are_stated_once_and_above_the_first_call() {
    let twice = written("places-twice.txt", b"places 32\nplaces 32\n");
    turned_down(&[&twice], 1, "places-twice.txt:2: 'places' is there twice: remove one of them");
    for call in ["expire at 1s", "register pen", "take_lost"] {
        let below = written("places-below.txt", format!("{call}\nplaces 128\n").as_bytes());
        let says = "places-below.txt:2: 'places' comes after a call: write it above the first call";
        turned_down(&[&below], 1, says);
    }
    let good = "# a console\n\nkeys largest 64\nplaces 32 # a small one\nregister pen\n";
    assert_eq!(answers(good).len(), 1);
}

#[test]
fn another_number_is_a_bad_line() {
    for number in ["0", "31", "33", "64", "127", "256", "65536", "many"] {
        let day = written("places.txt", format!("# a console\nplaces {number}\n").as_bytes());
        let says = format!("places.txt:2: '{number}' is not a number of places: write 32 or 128");
        turned_down(&[&day], 1, &says);
        turned_down(&[&day, "why", "--html"], 1, "nothing was played");
    }
}
