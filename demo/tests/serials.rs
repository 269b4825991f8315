//! Names longer than a KeyHash: the day of serials.txt as a golden file, the largest size as it is stated or found, and
//! what is refused.

mod common;

use common::{demo, piped, shell, text, turned_down, written};

/// Strings of RFC 1321, A.5, with their MD5 from there.
const ABC: [&str; 2] = ["abc", "0x900150983cd24fb0d6963f7d28e17f72"];
const LETTERS: [&str; 2] = [
    "ABCDEFGHIJKLMNOPQRSTUVWXYZabcdefghijklmnopqrstuvwxyz0123456789",
    "0xd174ab98d277d9f5a5611c2c9f419d9f",
];
const PADDED: [&str; 2] = ["abc", "0x61626300000000000000000000000000"];

fn shown(arguments: &[&str], day: &str) -> String {
    let output = piped(arguments, day.as_bytes());
    assert!(output.status.success(), "{}", text(&output.stderr));
    text(&output.stdout)
}

/// Whether a KeyHash is that of an instance; if so, it is shown by its name.
fn goes_by([name, digits]: [&str; 2], day: &str) -> bool {
    let output = piped(&["-", "explain", digits], day.as_bytes());
    let known = output.status.success();
    assert_eq!(known, text(&output.stdout).starts_with(&format!("{name}: 1 call changed")));
    assert_eq!(!known, text(&output.stderr).contains(&format!("{digits} does not appear in")));
    known
}

#[test]
fn the_day_of_serials() {
    let outputs = [&["serials.txt"][..], &["serials.txt", "why"]].map(demo);
    for output in &outputs {
        assert!(output.status.success(), "{}", text(&output.stderr));
    }
    let [tables, why] = outputs.map(|output| text(&output.stdout));
    assert_eq!(format!("{tables}\n{why}"), include_str!("serials.out"));
}

#[test]
fn the_size_is_16_where_all_names_fit() {
    let day = "register abc\nregister sixteen-letters!\n";
    assert!(goes_by(PADDED, day) && !goes_by(ABC, day));
    for size in [3, 16] {
        let day = format!("keys largest {size}\nregister abc\n");
        assert!(goes_by(PADDED, &day) && !goes_by(ABC, &day), "{size}");
    }
}

/// One long name, wherever it stands, and all are hashed.
#[test]
fn the_size_is_4096_where_one_name_does_not_fit() {
    for day in ["register abc\nregister LONG\n", "register LONG\nregister abc\n"] {
        let day = day.replace("LONG", LETTERS[0]);
        assert!(goes_by(LETTERS, &day));
        assert!(goes_by(ABC, &day) && !goes_by(PADDED, &day));
    }
    let longest = "a".repeat(4_096);
    let tables = shown(&["-"], &format!("register {longest}\n"));
    assert!(tables.contains(&format!("\n  {longest}  1 ")), "{tables}");
}

#[test]
fn a_stated_size_holds_for_short_names_too() {
    for size in [17, 64, 4_096] {
        let day = format!("keys largest {size}\nregister abc\n");
        assert!(goes_by(ABC, &day) && !goes_by(PADDED, &day), "{size}");
    }
    let day = format!("keys largest 62\nregister {}\n", LETTERS[0]);
    assert!(goes_by(LETTERS, &day));
}

/// Whether 64 is stated or 4,096 is found: the KeyHashes are the same, and so is all that is shown.
#[test]
fn the_size_is_not_shown() {
    let stated = include_str!("../serials.txt");
    let found = stated.replace("keys largest 64", "");
    assert_ne!(stated, found);
    for arguments in [&["-"][..], &["-", "log"], &["-", "why", "--json"]] {
        assert_eq!(shown(arguments, stated), shown(arguments, &found));
    }
}

#[test]
fn longer_than_stated_is_refused_as_14() {
    let long = LETTERS[0];
    let day = written("14.txt", format!("keys largest 61\n\nregister {long}\n").as_bytes());
    let says = "14.txt:3: 'ABCDEFGHIJKLMNOPQRSTUVWXYZabcdefghijklmn…' has 62 bytes, and the largest size of the day's \
                keys is 61: refused as 14: ";
    for mode in [&[][..], &["log"], &["explain", "abc"], &["why", "--html"]] {
        turned_down(&[&[day.as_str()], mode].concat(), 1, says);
    }
    turned_down(&[&day], 1, ": write keys largest 62 above the first key, or a shorter one\n");
    turned_down(&[&day], 1, "nothing was played");
    let day = format!("register {}\n", "a".repeat(4_097));
    let day = written("14-found.txt", day.as_bytes());
    turned_down(&[&day], 1, "has 4097 bytes, and the largest size of the day's keys is 4096: ");
    turned_down(&[&day], 1, ": write a shorter one\n");
}

#[test]
fn a_size_above_4096_is_refused_as_15() {
    for size in ["4097", "18446744073709551615"] {
        let day = format!("# a size\nkeys largest {size}\nregister {}\n", LETTERS[0]);
        let day = written("15.txt", day.as_bytes());
        turned_down(&[&day], 1, "15.txt:2: refused as 15: ");
        // The rest of the day is read by the size that it would have without the line.
        let said = text(&demo(&[&day]).stderr);
        assert_eq!(said.lines().count(), 2, "{said}");
    }
}

#[test]
fn the_size_is_stated_once_and_above_the_first_key() {
    let twice = written("twice.txt", b"keys largest 64\nkeys largest 64\n");
    turned_down(&[&twice], 1, "twice.txt:2: 'keys' appears twice: remove one of them");
    let below = written("below.txt", b"expire at 1s\nregister abc\nkeys largest 64\n");
    turned_down(&[&below], 1, "below.txt:3: 'keys' comes after a key: put it before the first one");
    assert!(shown(&["-"], "expire at 1s\nkeys largest 64\nregister abc\n").contains("\n  abc "));
}

/// A name is explained where it stands in the day; one that is too long for the day does not.
#[test]
fn names_are_asked_for() {
    let asked = |name: &str| demo(&["serials.txt", "explain", name]);
    let serial = "pen-0.35mm/black/lot-2026-11/no-000417";
    assert!(text(&asked(serial).stdout).starts_with(&format!("{serial}: ")));
    for other in ["pen-0.35mm/black/lot-2026-11/no-000419".to_owned(), "a".repeat(65)] {
        let says = format!("{other} does not appear in serials.txt");
        turned_down(&["serials.txt", "explain", &other], 1, &says);
    }
    let said =
        text(&piped(&["-"], b"register serial-000000000417\ndispose serial-000000000471\n").stderr);
    assert!(said.contains("(did you mean serial-000000000417?)"), "{said}");
}

/// A name of the largest size stands whole in every form, and makes no row wide but its own.
#[test]
fn the_longest_name_in_every_form() {
    let long = "pen-".repeat(1_024);
    let day = format!(
        "match a/b kind automatic lease 5m at 08:00\nadmit {long} from a/b at 08:00\nadmit pen from a/b at 08:00\n\
         part a/b at 08:01\n"
    );
    for form in
        [&[][..], &["log"], &["why"], &["why", "--csv"], &["why", "--json"], &["why", "--html"]]
    {
        let shown = shown(&[&["-"], form].concat(), &day);
        assert!(shown.contains(&long), "{form:?}");
        let wide = shown
            .lines()
            .filter(|line| !line.contains("pen-pen-"))
            .map(|line| line.chars().count());
        assert!(form.contains(&"--html") || wide.max() < Some(400), "{form:?}");
    }
    let page = shown(&["-", "why", "--html"], &day);
    assert!(page.contains("overflow-wrap: anywhere"));
}

/// What cannot be read twice is kept meanwhile, and nothing is left of it.
#[test]
#[cfg(unix)]
fn a_day_that_is_read_once() {
    let day = format!("register abc\nregister {}\n", LETTERS[0]);
    let directory = std::path::Path::new(env!("CARGO_TARGET_TMPDIR")).join("kept");
    let _ = std::fs::remove_dir_all(&directory);
    std::fs::create_dir_all(&directory).expect("a directory");
    let kept = |directory: &str| {
        let line = format!("TMPDIR='{directory}' exec {} /dev/stdin", env!("CARGO_BIN_EXE_demo"));
        shell(&format!("cat | {line}"), day.as_bytes())
    };
    let output = kept(&directory.to_string_lossy());
    assert!(text(&output.stdout).contains("Instances: 2\n"), "{}", text(&output.stderr));
    assert_eq!(std::fs::read_dir(&directory).expect("a directory").count(), 0);
    let output = kept("/dev/null");
    assert_eq!(output.status.code(), Some(1));
    assert!(text(&output.stderr)
        .starts_with("/dev/stdin: cannot be kept in /dev/null to be read twice"));
}
