//! The program as it is run: the sample day, and files that it must turn down.

mod common;

use common::{demo, piped, text, turned_down, written};

#[test]
fn the_sample_day() {
    let output = demo(&["day.txt"]);
    assert!(output.status.success(), "{}", text(&output.stderr));
    assert_eq!(text(&output.stdout), include_str!("day.out"));
}

#[test]
fn the_sample_day_explained() {
    let keys = ["pen-01", "pen-02", "pen-03", "pen-04", "pen-05"];
    let all: String =
        keys.iter().map(|key| text(&demo(&["day.txt", "explain", key]).stdout)).collect();
    assert_eq!(all, include_str!("explain.out"));
}

#[test]
fn bad_files() {
    turned_down(&["none.txt"], 1, "none.txt: ");
    turned_down(&["src"], 1, "src: ");
    let bad = written("bad.txt", b"expire at 1s\n\npart nobody\nadmit pen from a/b\n");
    turned_down(&[&bad], 1, "bad.txt:3: 'nobody' is not a writer: write PARTICIPANT/ENTITY");
    turned_down(&[&bad, "log"], 1, "bad.txt:4: admit needs 'at'");
    for form in ["--csv", "--json", "--html"] {
        turned_down(&[&bad, "why", form], 1, "nothing was played");
    }
    let bytes: Vec<u8> = (0..=255).cycle().take(10_000).collect();
    turned_down(&[&written("bytes.txt", &bytes)], 1, "bytes.txt:1: ");
    let endless = vec![b'a'; 1 << 20];
    turned_down(&[&written("endless.txt", &endless)], 1, "endless.txt:1: longer than 8192 bytes");
    let many = "admitt\n".repeat(1_000);
    let many = written("many.txt", many.as_bytes());
    turned_down(&[&many], 1, "many.txt:1: 'admitt' is not a call (did you mean 'admit'?)");
    turned_down(&[&many], 1, "… and 980 more bad lines");
}

#[test]
fn bad_arguments() {
    turned_down(&[], 2, "usage: demo DAY");
    turned_down(&["day.txt", "explain"], 2, "explain needs a key after it");
    turned_down(&["day.txt", "explain", "pen-99"], 1, "pen-99 does not appear in day.txt");
    turned_down(&["day.txt", "explain", "a key with blanks"], 1, "is not a key");
    turned_down(&["day.txt", "wyh"], 2, "'wyh' is not understood here");
    turned_down(&["day.txt", "why", "--xml"], 2, "--xml is not an option: use --csv");
    turned_down(&["day.txt", "why", "--csv", "--html"], 2, "why takes one of --csv, --json");
    turned_down(&["day.txt", "log", "pen-01"], 2, "'pen-01' is not understood here");
    turned_down(&["--html"], 2, "--html is not a day: name the file of a day first");
}

#[test]
fn help_is_given() {
    for arguments in [&["--help"][..], &["day.txt", "why", "--help"], &["-h"]] {
        let output = demo(arguments);
        assert!(output.status.success());
        assert!(text(&output.stdout).starts_with("usage: demo DAY"));
    }
}

#[test]
fn an_empty_day() {
    let output = demo(&[&written("empty.txt", b"# nothing\n")]);
    assert!(output.status.success());
    assert!(text(&output.stdout).contains("0 calls, 0 refused"));
}

/// A byte order mark, Windows line ends, dates, a long key, no end of line at the end, by standard input.
#[test]
fn input_as_people_have_it() {
    let day = "\u{feff}match plotter-1/c1 kind automatic lease 5m at 2026-11-15 08:00\r\n\
               admit pen-serial-4711-0815-00 from plotter-1/c1 at 2026-11-15 08:15\r\n\
               lapse at 2026-11-15T08:16";
    let output = piped(&["-"], day.as_bytes());
    let shown = text(&output.stdout);
    assert!(output.status.success(), "{}", text(&output.stderr));
    assert!(shown.starts_with("standard input: 3 calls, 0 refused"), "{shown}");
    let row = "pen-serial-4711-0815-00  1       abandoned (no writers)  2026-11-15 08:16:00";
    assert!(shown.contains(row), "{shown}");
    let output = piped(&["-", "explain", "pen-serial-4711-0815-00"], day.as_bytes());
    assert!(text(&output.stdout).starts_with("pen-serial-4711-0815-00: 2 calls changed"));
}

#[test]
fn warnings_do_not_stop_the_day() {
    let day = b"match a/b kind automatic lease 5m at 08:00\nadmit pen-01 from a/b at 08:09\n\
                admit pen-01 from a/c at 08:08\ndispose pen-02\n";
    let output = piped(&["-"], day);
    assert!(output.status.success());
    let said = text(&output.stderr);
    for warning in [
        "standard input:2: warning: the lease of a/b is 5 min, and 9 min passed",
        "standard input:3: warning: a/c was not matched before",
        "standard input:3: warning: the time goes back from 08:09:00 to 08:08:00",
        "standard input:4: warning: no call has named pen-02 before, so this call changes nothing (did you mean pen-01?)",
    ] {
        assert!(said.contains(warning), "{said}");
    }
    assert_eq!(said.lines().count(), 4);
}

/// What is kept does not grow with the calls: 30 MB of them are played in less room than they take.
#[test]
#[cfg(target_os = "linux")]
fn a_long_day_takes_little_room() {
    use std::fmt::Write;
    let mut day = String::from("match a/b kind automatic lease 5m at 0s\n");
    for n in 0..40_000 {
        let _ = writeln!(day, "admit pen-{:02} from a/b at {n}s # {:700}", n % 40, "a sample");
    }
    assert!(day.len() > 28 << 20);
    let calls = "40001 calls";
    for (mode, said) in
        [("", calls), (" why", calls), (" why --html", calls), (" lamp a/b", "1 call ")]
    {
        let limited = format!("ulimit -v 24000; exec {} -{mode}", env!("CARGO_BIN_EXE_demo"));
        let output = common::shell(&limited, day.as_bytes());
        assert!(output.status.success(), "{mode}: {}", text(&output.stderr));
        assert!(text(&output.stdout).contains(said), "{mode}");
    }
}
