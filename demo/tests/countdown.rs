//! A day before second 0 and across it: as a golden file, and the same day at other times.

mod common;

use common::{demo, piped, text};

const DAY: &str = include_str!("../countdown.txt");
const SHOWN: &str = include_str!("countdown.out");

fn played(words: &[&str]) -> String {
    let output = demo(&[&["countdown.txt"], words].concat());
    assert!(output.status.success());
    assert_eq!(text(&output.stderr), "", "a good day has no warnings");
    text(&output.stdout)
}

#[test]
fn the_golden_file() {
    assert_eq!(format!("{}\n{}", played(&["log"]), played(&[])), SHOWN);
}

#[test]
fn the_readme_shows_its_log() {
    let (log, _) = SHOWN.split_once("\n\n").expect("the log, then the tables");
    let block: String = log.lines().map(|line| format!("    {line}\n")).collect();
    assert!(include_str!("../README.md").contains(&block), "{block}");
}

/// The day with all its times so much later; the clocks of `match` stay.
fn later(nanos: i64) -> String {
    let mut day = String::new();
    for line in DAY.lines() {
        let mut before = "";
        for word in line.split(' ') {
            let number = word.strip_suffix('s').and_then(|seconds| seconds.parse::<f64>().ok());
            match number.filter(|_| matches!(before, "at" | "now") && !line.starts_with("match")) {
                Some(seconds) => day += &format!(" {}ns", (seconds * 1e9).round() as i64 + nanos),
                None => day += &format!(" {word}"),
            }
            before = word;
        }
        day += "\n";
    }
    day
}

/// The answer of each call.
fn answers(day: &str) -> Vec<String> {
    let output = piped(&["-", "log"], day.as_bytes());
    assert!(output.status.success(), "{}", text(&output.stderr));
    let answer = |line: &str| line.rsplit_once("  ").map_or("", |(_, answer)| answer).to_owned();
    text(&output.stdout).lines().skip(1).map(answer).collect()
}

/// What becomes of samples and instances does not go by where second 0 is.
#[test]
fn the_same_at_any_time() {
    const SECOND: i64 = 1_000_000_000;
    let here = answers(DAY);
    for said in ["too close", "not later", "admitted", "0 purged", "1 purged"] {
        assert!(here.iter().any(|answer| answer.contains(said)), "{said}: {here:?}");
    }
    for nanos in [0, 1, -1, SECOND / 4, 2 * SECOND, 4 * SECOND, 8 * 3_600 * SECOND, -1_000 * SECOND]
    {
        assert_eq!(answers(&later(nanos)), here, "{nanos} ns later");
    }
}

/// Times are those of the stamps, and not of the clocks, which count from elsewhere: from the first sample to the last one.
#[test]
fn a_lapse_before_second_0() {
    let day = "match a/b kind automatic lease 5s at 40s\nadmit pen from a/b at -9s\n\
               lapse at 45s stamp -3s\nadmit pen from a/b at -1s\nassert a/c at 50s\npart a/b\n\
               admit ink from a/c at 2s\n";
    let output = piped(&["-", "why", "--csv"], day.as_bytes());
    let shown = text(&output.stdout);
    let rows: Vec<_> = shown.lines().skip(1).collect();
    assert!(
        rows[0].starts_with("pen,-00:00:03,-00:00:01,2.000,no writers,lease ran out,"),
        "{shown}"
    );
    assert!(rows[1].starts_with("pen,-00:00:01,,3.000,no writers,parted,"), "{shown}");
    let output = piped(&["-", "why"], day.as_bytes());
    assert!(text(&output.stdout).contains(" from -00:00:09 to 00:00:02; "), "{output:?}");
}

/// Without a negative time a lapse counts at its clock.
#[test]
fn a_lapse_after_second_0() {
    let day = "match a/b kind automatic lease 5s at 1s\nadmit pen from a/b at 2s\n\
               lapse at 9s stamp 4s\nadmit pen from a/b at 10s\n";
    let output = piped(&["-", "why", "--csv"], day.as_bytes());
    let shown = text(&output.stdout);
    let says = "\npen,00:00:09,00:00:10,1.000,no writers,lease ran out,";
    assert!(shown.contains(says), "{shown}");
}

/// A clock has no place on the axis of a picture that goes by times.
#[test]
fn its_picture_has_no_clocks() {
    let page = |[first, lapse, last]: [&str; 3]| {
        let day = format!(
            "match a/b kind automatic lease 5s at 40s\nadmit pen from a/b at {first}\n\
             assert a/b at 44s\nlapse at 50s stamp {lapse}\nadmit pen from a/b at {last}\n"
        );
        text(&piped(&["-", "why", "--html"], day.as_bytes()).stdout)
    };
    let (before, after) = (page(["-9s", "-3s", "-1s"]), page(["41s", "50s", "51s"]));
    for class in ["rect class=\"lease\"", "rect class=\"assertion\"", "key lease", "key assertion"]
    {
        assert!(!before.contains(class), "{class}: {before}");
        assert!(after.contains(class), "{class}: {after}");
    }
    assert!(before.contains("rect class=\"drawn\"") && before.contains("key away"), "{before}");
}

/// How long ago samples came is told by times alone, and an `expire` has none.
#[test]
fn a_lease_that_runs_out_before_second_0() {
    let told = |stamp: &str| {
        let day = format!(
            "match a/b kind automatic lease 5s at 40s\nadmit pen from a/b at -9s\n\
             admit pen from a/b at -8s\nexpire at 50s\nassert a/b at 51s\n\
             lapse at 60s stamp {stamp}\nadmit pen from a/b at -3s\n"
        );
        text(&piped(&["-", "why"], day.as_bytes()).stdout)
    };
    let drawing = "but nothing asserts it";
    assert!(told("-4s").contains(drawing), "{}", told("-4s"));
    assert!(!told("-3s").contains(drawing), "{}", told("-3s"));
}

/// What came before the first time has clocks alone, and counts as of that time.
#[test]
fn abandoned_before_the_first_time() {
    let day = "match a/b kind automatic at 40s\nregister pen\ndispose pen\n\
               admit pen from a/b at -9s\n";
    let output = piped(&["-", "why", "--csv"], day.as_bytes());
    let shown = text(&output.stdout);
    assert!(shown.contains("\npen,-00:00:09,-00:00:09,0.000,disposed,"), "{shown}");
}

/// The reports of a day that begins before second 0 have its times.
#[test]
fn its_reports() {
    for (form, says) in [
        ("", "from -00:00:04 to 00:00:00.5"),
        ("--csv", "pen-02,-00:00:03.5,-00:00:00.5,3.000,disposed,"),
        ("--json", "\"-00:00:04\""),
        ("--html", "-00:00:03"),
    ] {
        let words = ["why", form];
        let shown = played(&words[..if form.is_empty() { 1 } else { 2 }]);
        assert!(shown.contains(says), "{form}: {shown}");
    }
}
