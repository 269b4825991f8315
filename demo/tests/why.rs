//! `why` in its four forms: the day of often.txt as golden files, and the page's structure.

mod common;

use common::{browsed, browser, demo, piped, printed, text, well_formed, written};

fn why(form: &[&str]) -> String {
    let output = demo(&[&["often.txt", "why"], form].concat());
    assert!(output.status.success(), "{}", text(&output.stderr));
    text(&output.stdout)
}

/// The answer for a day that is piped in.
fn why_of(day: &str, form: &str) -> String {
    let arguments: Vec<&str> = ["-", "why", form].into_iter().filter(|a| !a.is_empty()).collect();
    let output = piped(&arguments, day.as_bytes());
    assert!(output.status.success(), "{}", text(&output.stderr));
    text(&output.stdout)
}

#[test]
fn the_golden_files() {
    assert_eq!(why(&[]), include_str!("often.out"));
    assert_eq!(why(&["--csv"]), include_str!("often.csv"));
    assert_eq!(why(&["--json"]), include_str!("often.json"));
    assert_eq!(why(&["--html"]), include_str!("often.html"));
}

#[test]
fn readme_shows_it() {
    let readme = concat!(include_str!("../../README.md"), include_str!("../README.md"));
    let block = |text: &str| {
        text.lines()
            .map(|l| if l.is_empty() { "\n".into() } else { format!("    {l}\n") })
            .collect()
    };
    let why: String = block(include_str!("often.out").split("\nEach").next().unwrap_or_default());
    assert!(readme.contains(&why), "a README.md has the answer for often.txt up to its tables");
    let answer: String = block(include_str!("often.out").lines().next().unwrap_or_default());
    assert!(include_str!("../README.md").contains(&answer), "demo/README.md has the first line");
    let tables: String = block(include_str!("day.out"));
    assert!(readme.contains(&tables), "a README.md has the tables of day.txt");
    let explained = include_str!("explain.out");
    let (from, to) = (explained.find("pen-03: ").unwrap_or(0), explained.find("pen-04: "));
    let explained: String = block(&explained[from..to.unwrap_or(from)]);
    assert!(readme.contains(&explained), "a README.md has the history of pen-03");
}

/// Each reason in the first line, with who has to act and what it saves.
#[test]
fn first_lines() {
    let start =
        "match a/b kind automatic lease 5m at 08:00\nadmit pen from a/b at 08:00 strength 3\n\
                 note_taken pen samples 1\n";
    let first = |rest: &str| {
        let why = why_of(&(start.to_owned() + rest), "");
        why.lines().next().unwrap_or_default().to_owned()
    };
    assert_eq!(first(""), "No orders: no pen was shown abandoned. No action needed.");
    assert_eq!(first("part a/b at 08:01\n"), "The only order was not needless. No action needed.");
    let again = "admit pen from a/b at 08:03\nnote_taken pen samples 1\n";
    assert_eq!(
        first(&format!("part a/b at 08:01\n{again}part a/b at 08:05\n")),
        "1 of 2 orders was needless. Reason: a/b left and came back 2 min later. Buyer: wait 2 min before you order: 1 order fewer."
    );
    assert_eq!(
        first(&format!("dispose pen at 08:01\n{again}")),
        "No orders, though pens were shown abandoned once. Reason: pen was disposed and drawn again. Operator: dispose a pen only when no writer draws it any more."
    );
    assert_eq!(
        first(&format!("{again}lapse at 08:06\nadmit pen from a/b at 08:07\n")),
        "The only order was needless. Reason: a/b draws, but nothing asserts it within its lease of 5 min. Maker: assert a/b with each sample: 1 order fewer."
    );
    assert_eq!(
        first("admit pen from c/d at 08:05\nlapse at 08:06\n"),
        "The only order was needless. Reason: c/d was drawing, but its samples were turned away, and a/b was lost. Maker: call note_writer (code 6) for c/d when its sample is turned away: 1 order fewer."
    );
    assert!(first(
        "admit pen from c/d at 08:01\nunregister pen from a/b at 08:02\nadmit pen from c/d at 08:03\n"
    )
    .ends_with(" for c/d when its sample is turned away: 1 order fewer."));
    assert!(first("unregister pen from a/b at 08:01\nadmit pen from c/d at 08:03\n")
        .ends_with(" (alone it saves no order of this day)."));
    assert_eq!(
        first("part a/b at 08:01\nadmit pen from c/d at 08:03\n"),
        "The only order was not needless. Reason: a/b left, and somebody else drew 2 min later. Buyer: wait 2 min before you order: 1 order fewer."
    );
}

/// What the answer advises helps.
#[test]
fn the_remedies_work() {
    let day = include_str!("../often.txt").replace("lease 5m", "lease 18m");
    let mut mended = String::new();
    for line in day.lines() {
        mended += &format!("{line}\n");
        let words: Vec<_> = line.split(' ').collect();
        if let ["admit", pen, "from", "plotter-3/c1", ..] = words[..] {
            mended += &format!("note_writer {pen} from plotter-3/c1\n");
        }
    }
    let why = why_of(&mended, "");
    assert!(why.starts_with("The only order was not needless. No action needed.\n"), "{why}");
    assert!(why.contains("1 of 1 order: the writer is gone"), "{why}");
    let kept = "admit pen from a/b at 08:00\nunregister pen from a/b at 08:01\nadmit pen from c/d at 08:03\n";
    let told = "and release_owner_of (code 20) for a/b when it leaves";
    let folded = |text: String| text.split_whitespace().collect::<Vec<_>>().join(" ");
    assert!(folded(why_of(kept, "")).contains(told));
    let dropped = kept.replace("unregister pen from a/b", "drop_writer a/b");
    let told = "and clear_owner_for_writer (code 18) for a/b when it leaves";
    assert!(folded(why_of(&dropped, "")).contains(told));
}

/// Of two writers that expire together one was silent for longer than its lease, the other was not asserted.
#[test]
fn a_longer_lease_and_an_assertion() {
    let day =
        "match a/b kind automatic lease 1m at 08:00\nmatch c/d kind automatic lease 5m at 08:00\n\
         admit pen from a/b at 08:00\nnote_writer pen from c/d\nadmit other from c/d at 08:00\n\
         admit other from c/d at 08:04\nlapse at 08:06\nadmit pen from a/b at 08:06\n";
    let why = why_of(day, "");
    let told = " Maker: set that of a/b to 12 min, and assert c/d with each sample.";
    assert!(why.lines().next().is_some_and(|first| first.ends_with(told)), "{why}");
}

fn count(page: &str, what: &str) -> usize {
    page.matches(what).count()
}

#[test]
fn the_page_is_whole_and_alone() {
    let page = why(&["--html"]);
    let tags = well_formed(&page);
    for word in
        ["<script", "<link", "<img", "<iframe", "http:", "https:", "src=", "href=", "@import"]
    {
        assert!(!page.contains(word), "{word}");
    }
    assert_eq!(count(&page, "url("), count(&page, "url(#stripes)"));
    assert!(page.contains("prefers-color-scheme: dark") && page.contains("@media print"));
    let answer = include_str!("often.out").lines().next().unwrap_or_default();
    let first = page.split("<h1>").nth(1).and_then(|rest| rest.split("</h1>").next());
    let first = first.unwrap_or_default().replace("<span>", "").replace("</span>", "");
    assert_eq!(first.replace("&#39;", "'"), answer);
    assert_eq!(count(&page, "<div class=\"tile\">"), 2);
    assert_eq!(count(&page, "<g class=\"instance\">"), 5);
    assert_eq!(count(&page, "<g class=\"writer\">"), 4);
    assert_eq!(count(&page, "<rect class=\"falsely\""), 12);
    assert_eq!(count(&page, "<rect class=\"abandoned\""), 1);
    assert_eq!(count(&page, "<li class=\"cause-of\">"), 3);
    assert_eq!(count(&page, "<tr class=\"spell\">"), 13);
    // Every bar and mark says what it is.
    let told = tags.iter().filter(|tag| tag.starts_with("rect") && !tag.contains("stripe")).count();
    assert_eq!(count(&page, "</title></rect>"), told);
    for cause in ["lease ran out</text>", "departed</text>"] {
        assert!(page.contains(cause), "{cause}");
    }
}

#[test]
fn names_cannot_leave_the_page() {
    let day = "match a<b/\"c\" kind automatic lease 1s at 1s\n\
               admit <script>'&=\"x from a<b/\"c\" at 1s\nlapse at 9s\n";
    let page = why_of(day, "--html");
    well_formed(&page);
    assert!(!page.contains("<script") && page.contains("&lt;script&gt;&#39;&amp;=&quot;x"));
    let json = why_of(day, "--json");
    assert!(json.contains(r#""instance": "<script>'&=\"x""#), "{json}");
    let csv = why_of(&day.replace("<script>", "=1,2"), "--csv");
    assert!(csv.contains("\n\"'=1,2'&=\"\"x\","), "{csv}");
}

#[test]
fn verdicts() {
    let start = "match a/b kind automatic lease 5m at 08:00\nadmit pen from a/b at 08:00\n";
    let row = |rest: &str| {
        let csv = why_of(&(start.to_owned() + rest), "--csv");
        csv.lines().nth(1).unwrap_or_default().to_owned()
    };
    let parted = row("part a/b at 08:01\n");
    assert!(parted.contains(",no writers,parted,50,3,part a/b at 08:01,a/b,not again,no,"));
    let back = row("depart a/b at 08:01\nadmit pen from a/b at 08:03\n");
    assert!(back.starts_with("pen,08:01:00,08:03:00,120.000,no writers,departed,51,"), "{back}");
    assert!(back.contains(",came back,yes,a/b,,0,0"), "{back}");
    let (left, next) = ("unregister pen from a/b at 08:01\n", "admit pen from c/d at 08:03\n");
    let owned = row(&[left, next].concat());
    assert!(owned.contains(",unregistered,5,") && owned.contains(",turned away,yes,,c/d,1,0"));
    let over = row(&[left, "release_owner_of pen from a/b\n", next].concat());
    assert!(over.contains(",unregistered,5,") && over.contains(",taken over,no,c/d,"), "{over}");
    let disposed = row("dispose pen at 08:01\nadmit pen from a/b at 08:03\n");
    assert!(disposed.contains(",disposed,disposed,3,") && disposed.contains(",came back,yes,"));
    let away = row("admit pen from a/b at 08:02 strength 3\nadmit pen from c/d at 08:03\ndrop_writer a/b at 08:04\n");
    assert!(away.contains(",dropped,7,") && away.contains(",turned away,yes,,c/d,1,0"), "{away}");
    let both = row("admit pen from a/b at 08:02 strength 3\nadmit pen from c/d at 08:03\npart c/d\npart a/b at 08:04\n");
    assert!(both.contains(",parted,50,") && both.contains(",not again,no,,,0,0"), "{both}");
    let observed = row(
        "part a/b at 08:01\nobserve_admitted pen at 08:03\nnote_admitted pen from a/b at 08:03\n",
    );
    assert!(observed.contains(",came back,yes,a/b,"), "{observed}");
    let registered =
        row("part a/b at 08:01\nregister pen at 08:02\nnote_admitted pen from a/b at 08:03\n");
    assert!(registered.contains(",taken over,no,,,"), "{registered}");
    let last = row("unregister pen at 08:01\n");
    assert!(last.contains(",last registration,4,"), "{last}");
}

/// An order is made where a pen has no writer in its set and no sample left to take.
#[test]
fn order_lines() {
    let start = "match a/b kind automatic lease 5m at 08:00\nadmit pen from a/b at 08:00\n";
    let why = |rest: &str| why_of(&(start.to_owned() + rest), "");
    let untaken = why("part a/b at 08:01\n");
    assert!(untaken.starts_with("No orders, though pens were shown abandoned once."), "{untaken}");
    assert!(untaken.contains("No call of this day takes samples"), "{untaken}");
    assert!(untaken.contains("no order: 1 sample not yet taken"), "{untaken}");
    let taken = why("part a/b at 08:01\nnote_taken pen samples 1\n");
    assert!(taken.starts_with("The only order was not needless."), "{taken}");
    let registered = why_of("register pen\n", "");
    assert!(registered.contains("1 order for a pen that was registered"), "{registered}");
}

#[test]
fn a_day_without_instances() {
    let empty = written("without.txt", b"");
    for form in [&[][..], &["--csv"], &["--json"], &["--html"]] {
        let output = demo(&[&[empty.as_str(), "why"], form].concat());
        assert!(output.status.success());
    }
    assert!(why_of("", "").starts_with("No orders: no pen was shown abandoned."));
    well_formed(&why_of("", "--html"));
}

/// A busy day stays a page that a browser can show.
#[test]
fn a_busy_page_stays_small() {
    let mut day = String::from("match a/b kind automatic lease 5m at 0s\n");
    for n in 0..4_000 {
        let at = 10 * n;
        day += &format!("admit pen-{:02} from a/b at {at}s\npart a/b at {}s\n", n % 5, at + 5);
    }
    let page = why_of(&day, "--html");
    well_formed(&page);
    assert!(page.len() < 400_000, "{}", page.len());
    assert!(page.contains("parted ×"), "labels that would run into one another are one");
}

/// A browser draws and prints it, where there is one.
#[test]
fn a_browser_draws_it() {
    let Some(browser) = browser() else {
        return;
    };
    let page = written("often.html", why(&["--html"]).as_bytes());
    let picture = written("often.png", b"");
    let to = format!("--screenshot={picture}");
    browsed(browser, &page, &["--window-size=1180,1900", &to]);
    let drawn = std::fs::read(&picture).expect("the picture is there");
    assert!(drawn.starts_with(b"\x89PNG"));
    assert_eq!(drawn[16..24], [0, 0, 4, 156, 0, 0, 7, 108], "1180 times 1900 points");
    assert!(drawn.len() > 50_000, "an empty page has less: {}", drawn.len());
    let sheets = printed(browser, &page);
    assert!((2..=4).contains(&sheets.len()) && sheets.iter().all(|full| *full), "{sheets:?}");
}
