//! A large day: its answer, its page and its print.

mod common;

use common::large::{day, CALLS, PENS, WRITERS};
use common::{browser, piped, printed, text, well_formed, written};

const SEED: u64 = 1;

fn why(day: &str, form: &str) -> String {
    let arguments: Vec<&str> = ["-", "why", form].into_iter().filter(|a| !a.is_empty()).collect();
    let output = piped(&arguments, day.as_bytes());
    assert!(output.status.success(), "{}", text(&output.stderr));
    text(&output.stdout)
}

/// A number of the JSON at its outermost level.
fn number(json: &str, name: &str) -> u64 {
    let start = format!("\n  \"{name}\": ");
    let value = json.split(&start).nth(1).and_then(|rest| rest.split(',').next());
    value.and_then(|value| value.parse().ok()).expect(name)
}

/// The number before a word of the first line.
fn before(answer: &str, word: &str) -> u64 {
    let number = answer.split(word).next().and_then(|front| front.split(' ').next_back());
    number.and_then(|number| number.parse().ok()).expect(answer)
}

#[test]
fn its_first_line_answers() {
    let day = day(SEED);
    let why_text = why(&day, "");
    let answer = why_text.lines().next().unwrap_or_default();
    let json = why(&day, "--json");
    let (all, needless) = (number(&json, "order_lines"), number(&json, "false_order_lines"));
    let all = all + number(&json, "order_lines_unwritten");
    let start =
        format!("{needless} of {all} orders were needless. Most: plotter-01/c1's lease is 5 min, ");
    assert!(answer.starts_with(&start), "{answer}");
    assert!(answer.contains(" Maker: set it to "), "{answer}");
    assert_eq!(number(&json, "calls"), CALLS as u64);
    assert_eq!(json.matches("\n      \"instance\": ").count(), PENS as usize);
    assert_eq!(json.matches("\n      \"writer\": ").count(), WRITERS as usize);
    for who in ["Maker", "Buyer", "Operator"] {
        assert!(why_text.contains(&format!("\n     {who}: ")), "{who}: {why_text}");
    }
    assert!(why_text.contains("\n     No action needed: "), "{why_text}");
}

/// What the first line says would be saved is saved, where the file has the setting.
#[test]
fn its_saving_comes_true() {
    let day = day(SEED);
    let orders = |json: &str| number(json, "order_lines") + number(json, "order_lines_unwritten");
    let json = why(&day, "--json");
    let answer = json.split("\"answer\": \"").nth(1).and_then(|a| a.split('"').next());
    let answer = answer.expect("an answer");
    let (lease, saved) = (before(answer, " min: "), before(answer, " orders fewer."));
    let set = day.replace("kind automatic lease 5m", &format!("kind automatic lease {lease}m"));
    assert_ne!(set, day);
    assert_eq!(orders(&why(&set, "--json")), orders(&json) - saved);
}

/// Trouble stands first, and what is quiet is folded away with its number.
#[test]
fn its_page_is_short() {
    let day = day(SEED);
    let (page, json) = (why(&day, "--html"), why(&day, "--json"));
    well_formed(&page);
    assert!(page.len() < 1_500_000, "{}", page.len());
    let instances =
        json.split("\n  \"instances\": ").nth(1).and_then(|j| j.split("\n  \"writers\"").next());
    let instances = instances.unwrap_or_default().split("\n      \"instance\": ").skip(1);
    let quiet = instances
        .filter(|i| i.contains("\"abandoned\": 0,") && i.contains("\"order_lines_unwritten\": 0,"))
        .count();
    assert!(quiet > 60, "{quiet}");
    let folded = format!("<summary>{quiet} instances (pens) never shown abandoned</summary>");
    assert!(page.contains(&folded), "{quiet}");
    let open: String = page
        .split("<details>")
        .map(|part| part.rsplit("</details>").next().unwrap_or_default())
        .collect();
    assert!(open.matches("<g class=\"instance\">").count() <= 24);
    assert!(open.contains("<g class=\"instance\">\n<text class=\"name\" x=\"0\" y=\"55.0\">pen-0"));
}

#[test]
fn its_print_has_no_blank_sheet() {
    let Some(browser) = browser() else {
        return;
    };
    let page = written("large.html", why(&day(SEED), "--html").as_bytes());
    let sheets = printed(browser, &page);
    assert!((3..=9).contains(&sheets.len()) && sheets.iter().all(|full| *full), "{sheets:?}");
}
