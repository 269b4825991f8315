//! The answer as one page, without script and without anything from elsewhere.

use super::chart::{self, escaped};
use super::{answer, tables, Report};
use crate::cause::Cause;
use crate::rank::Group;
use crate::tell::{counted, Told};
use dcps::KeyHash;
use std::fmt::Write;

/// More are folded away.
const CAUSES_SHOWN: usize = 5;
const INSTANCES_DRAWN: usize = 24;

/// More are left to the other forms.
const CAUSES_FOLDED: usize = 40;

/// A longer name leaves no room beside it, and is broken.
const LONG: usize = 48;
const LONG_NAMES: &str = "h1, p, li, td:first-child, .each td:nth-child(n+4) { overflow-wrap: anywhere; }\ntd:first-child { white-space: normal; }\n";

pub fn write(report: &Report<'_>) -> String {
    let name = escaped(report.name);
    let long = if report.names.longest() > LONG { LONG_NAMES } else { "" };
    let mut page = format!(
        "<!DOCTYPE html>\n<html lang=\"en\">\n<head>\n<meta charset=\"utf-8\"/>\n<meta name=\"viewport\" content=\"width=device-width, initial-scale=1\"/>\n<meta name=\"color-scheme\" content=\"light dark\"/>\n<meta http-equiv=\"Content-Security-Policy\" content=\"default-src 'none'; style-src 'unsafe-inline'\"/>\n<title>Why pens are ordered: {name}</title>\n<style>\n{}{long}</style>\n</head>\n<body>\n<main>\n",
        include_str!("page.css")
    );
    summary(&mut page, report);
    causes(&mut page, report);
    pictures(&mut page, report);
    tables::counts(&mut page, report);
    warnings(&mut page, report);
    tables::abandonments(&mut page, report);
    page.push_str("</main>\n</body>\n</html>\n");
    page
}

fn summary(page: &mut String, report: &Report<'_>) {
    let _ = writeln!(
        page,
        "<header>\n<h1>{} <span>{}</span></h1>",
        escaped(&answer::verdict(report)),
        escaped(&answer::reason(report))
    );
    if let Some(changed) = report.changed {
        page.push_str("<div class=\"tiles\">\n");
        let tiles = [("on this day", report.order_lines()), ("with every change below", changed)];
        for (name, number) in tiles {
            let orders = counted(number, "order");
            let (number, word) = orders.split_once(' ').unwrap_or((&orders, ""));
            let _ = writeln!(
                page,
                "<div class=\"tile\"><b>{number}</b> <span>{word} {name}</span></div>"
            );
        }
        page.push_str("</div>\n");
    }
    for note in answer::notes(report) {
        let _ = writeln!(page, "<p>{}</p>", escaped(&note));
    }
    let _ = writeln!(page, "<p class=\"day\">{}</p>\n</header>", escaped(&answer::day(report)));
}

/// What a summary line opens. It is not printed.
pub fn folded(page: &mut String, summary: &str, content: &str) {
    let _ = writeln!(page, "<details>\n<summary>{summary}</summary>\n{content}</details>");
}

fn causes(page: &mut String, report: &Report<'_>) {
    if report.causes.is_empty() {
        return;
    }
    page.push_str("<section>\n<h2>Reasons, the most orders first</h2>\n");
    let list = |causes: &[(Group, Told)]| {
        let mut list = String::from("<ol class=\"causes\">\n");
        causes.iter().for_each(|(group, told)| cause(&mut list, report, group, told));
        list + "</ol>\n"
    };
    let (first, more) = report.causes.split_at(report.causes.len().min(CAUSES_SHOWN));
    page.push_str(&list(first));
    if !more.is_empty() {
        let lines = more.iter().map(|(group, _)| group.counts.order_lines).sum();
        let reasons = counted(more.len() as u64, "more reason");
        let mut content = list(&more[..more.len().min(CAUSES_FOLDED)]);
        if more.len() > CAUSES_FOLDED {
            let left = more.len() - CAUSES_FOLDED;
            let _ = writeln!(content, "<p>… and {left} more: --json has them all.</p>");
        }
        folded(page, &format!("{reasons}, {} in all", counted(lines, "order")), &content);
    }
    page.push_str("</section>\n");
}

fn cause(page: &mut String, report: &Report<'_>, group: &Group, told: &Told) {
    let (number, all, what) = report.share(&group.counts);
    let part = 100.0 * number as f64 / all.max(1) as f64;
    let (class, tag) = match group.verdict.is_false() {
        true => ("falsely", "needless"),
        false if group.cause == Cause::Disposed => ("disposed", "disposed"),
        false => ("abandoned", "abandoned"),
    };
    let _ = writeln!(
        page,
        "<li class=\"cause-of\">\n<div class=\"share\"><span class=\"number\">{number}</span> of {}<div class=\"part\"><div class=\"fill {class}\" style=\"width:{part:.1}%\"></div></div></div>\n<div class=\"told\"><h3>{} <span class=\"tag {class}\">{tag}</span></h3>\n<p>{}</p>\n<p class=\"action\"><b>{}:</b> {}</p></div>\n</li>",
        counted(all, what),
        escaped(&answer::capital(told.title)),
        escaped(&told.what),
        told.who(),
        escaped(&told.advice())
    );
}

fn pictures(page: &mut String, report: &Report<'_>) {
    if report.history.instances.is_empty() {
        return;
    }
    page.push_str("<section>\n<h2>The day</h2>\n<figure>\n");
    page.push_str(chart::PATTERNS);
    legend(page, report);
    let trouble: Vec<KeyHash> = report.in_trouble().into_iter().map(|(key, _)| key).collect();
    let (first, more) = trouble.split_at(trouble.len().min(INSTANCES_DRAWN));
    if !first.is_empty() {
        page.push_str("<h3>Instances (pens) in trouble</h3>\n");
        page.push_str(&chart::in_trouble(report, first));
    }
    if !more.is_empty() {
        let summary = format!("{} in trouble", pens(more.len()).replacen(' ', " more ", 1));
        folded(page, &summary, &chart::in_trouble(report, more));
    }
    let quiet = report.quiet();
    if !quiet.is_empty() {
        let summary = format!("{} never shown abandoned", pens(quiet.len()));
        folded(page, &summary, &chart::quiet(report, &quiet));
    }
    let [trouble, quiet] = report.writers();
    if !trouble.is_empty() {
        page.push_str("<h3>Writers (carriages) that left them or were turned away</h3>\n");
        page.push_str(&chart::writers(report, &trouble));
    }
    if !quiet.is_empty() {
        let carriages = if quiet.len() == 1 { "writer (carriage)" } else { "writers (carriages)" };
        let summary = format!("{} {carriages} without trouble", quiet.len());
        folded(page, &summary, &chart::writers(report, &quiet));
    }
    page.push_str("</figure>\n</section>\n");
}

/// `1 instance (pen)`, `2 instances (pens)`.
pub fn pens(number: usize) -> String {
    match number {
        1 => "1 instance (pen)".to_owned(),
        _ => format!("{number} instances (pens)"),
    }
}

fn legend(page: &mut String, report: &Report<'_>) {
    let legend = [
        ("alive", "alive"),
        ("falsely", "abandoned needlessly"),
        ("abandoned", "abandoned (no writers)"),
        ("disposed", "abandoned (disposed)"),
        ("drawn", "sample"),
        ("away", "sample turned away"),
        ("lease", "lease running"),
        ("assertion", "assertion"),
    ];
    page.push_str("<figcaption class=\"legend\">");
    // The chart leaves the last two out where clocks count from elsewhere.
    let drawn = if report.history.apart() { legend.len() - 2 } else { legend.len() };
    for (class, name) in &legend[..drawn] {
        let _ = write!(page, "<span><i class=\"key {class}\"></i>{name}</span> ");
    }
    page.push_str("</figcaption>\n");
}

fn warnings(page: &mut String, report: &Report<'_>) {
    if report.warnings.all == 0 {
        return;
    }
    page.push_str("<section>\n<h2>Warnings</h2>\n<ul class=\"warnings\">\n");
    for (line, what) in &report.warnings.first {
        let _ = writeln!(page, "<li>line {line}: {}</li>", escaped(what));
    }
    let left = report.warnings.all - report.warnings.first.len();
    if left > 0 {
        let _ = writeln!(page, "<li>… and {left} more</li>");
    }
    page.push_str("</ul>\n</section>\n");
}
