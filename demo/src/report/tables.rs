//! The tables of the page. Long ones are folded away.

use super::chart::escaped;
use super::html::{folded, pens};
use super::text::{began, ended, lease};
use super::Report;
use crate::history::Spell;
use crate::rank::{lasted, Counts};
use crate::words::{show_guid, show_moment, spoken};
use dcps::KeyHash;
use std::fmt::Write;

/// More rows are folded away.
const ROWS_SHOWN: usize = 24;

/// A table of so few rows is not broken across printed pages.
const SHORT: usize = 10;

/// More rows are left to the other forms.
const SPELLS_SHOWN: usize = 400;

type Row = (Vec<String>, Counts);

/// What is counted, by instance, cause and writer.
pub fn counts(page: &mut String, report: &Report<'_>) {
    by_instance(page, report);
    by_cause(page, report);
    by_writer(page, report);
}

const COUNTS: [&str; 8] = [
    "orders",
    "needless",
    "abandoned",
    "came back",
    "turned away",
    "taken over",
    "not again",
    "time abandoned",
];

fn numbers(row: &mut String, counts: &Counts) {
    let all = [
        counts.order_lines,
        counts.false_lines,
        counts.abandoned,
        counts.came_back,
        counts.turned_away,
        counts.taken_over,
        counts.not_again,
    ];
    for number in all {
        let class = if number == 0 { "none" } else { "some" };
        let _ = write!(row, "<td class=\"{class}\">{number}</td>");
    }
    let time = if counts.abandoned == 0 { "–".to_owned() } else { spoken(counts.time) };
    let _ = write!(row, "<td class=\"some\">{time}</td>");
}

fn table(firsts: &[&str], rows: &[Row]) -> String {
    let short = if rows.len() <= SHORT { " short" } else { "" };
    let mut page = format!("<div class=\"scroll{short}\"><table>\n<thead><tr>");
    for head in firsts {
        let _ = write!(page, "<th class=\"first\">{head}</th>");
    }
    for head in COUNTS {
        let _ = write!(page, "<th>{head}</th>");
    }
    page.push_str("</tr></thead>\n<tbody>\n");
    for (cells, total) in rows {
        page.push_str("<tr>");
        for cell in cells {
            let _ = write!(page, "<td class=\"first\">{}</td>", escaped(cell));
        }
        numbers(&mut page, total);
        page.push_str("</tr>\n");
    }
    page + "</tbody>\n</table></div>\n"
}

/// The first rows, and the rest folded away.
fn tabled(page: &mut String, title: &str, firsts: &[&str], rows: &[Row], more: &str) {
    if rows.is_empty() {
        return;
    }
    let (shown, rest) = rows.split_at(rows.len().min(ROWS_SHOWN));
    let _ = writeln!(page, "<section>\n<h2>{title}</h2>\n{}", table(firsts, shown));
    if !rest.is_empty() {
        folded(page, &format!("{} more {more}", rest.len()), &table(firsts, rest));
    }
    page.push_str("</section>\n");
}

fn by_instance(page: &mut String, report: &Report<'_>) {
    let rows: Vec<Row> = report
        .in_trouble()
        .into_iter()
        .map(|(key, counts)| (vec![report.names.show(&key)], counts))
        .collect();
    let title = "By instance (pen), the most needless orders first";
    tabled(page, title, &["instance"], &rows, "instances (pens) in trouble");
    let quiet = report.quiet().len();
    if quiet > 0 && !rows.is_empty() {
        let _ = writeln!(page, "<p class=\"day\">Never shown abandoned: {}.</p>", pens(quiet));
    }
}

fn by_cause(page: &mut String, report: &Report<'_>) {
    let rows = report.by_cause.iter().map(|(cause, counts)| {
        (vec![format!("{} (code {})", cause.name(), cause.code())], *counts)
    });
    tabled(page, "By cause", &["cause"], &rows.collect::<Vec<_>>(), "causes");
}

fn by_writer(page: &mut String, report: &Report<'_>) {
    let firsts = ["writer", "lease", "longest gap"];
    let [trouble, quiet] = report.writers().map(|writers| {
        let rows = writers.into_iter().map(|(guid, writer, counts)| {
            let gap = writer.samples.ends.map_or("–".to_owned(), |(_, most)| spoken(most));
            (vec![show_guid(&guid), lease(writer, "–"), gap], counts)
        });
        rows.collect::<Vec<Row>>()
    });
    tabled(page, "By writer (carriage)", &firsts, &trouble, "writers (carriages)");
    if !quiet.is_empty() {
        let carriages = if quiet.len() == 1 { "writer (carriage)" } else { "writers (carriages)" };
        let summary = format!("{} {carriages} without trouble", quiet.len());
        folded(page, &summary, &table(&firsts, &quiet));
    }
}

pub fn abandonments(page: &mut String, report: &Report<'_>) {
    let all: Vec<(KeyHash, &Spell)> = report
        .in_trouble()
        .into_iter()
        .filter_map(|(key, _)| Some((key, report.history.instances.get(&key)?)))
        .flat_map(|(key, instance)| instance.spells.iter().map(move |spell| (key, spell)))
        .collect();
    if all.is_empty() {
        return;
    }
    let mut content = each(report, &all[..all.len().min(SPELLS_SHOWN)]);
    if all.len() > SPELLS_SHOWN {
        let left = all.len() - SPELLS_SHOWN;
        let _ = writeln!(content, "<p>… and {left} more: --csv has them all.</p>");
    }
    if all.len() > ROWS_SHOWN {
        folded(page, &format!("Each of {} abandonments", all.len()), &content);
    } else {
        let _ = writeln!(page, "<section>\n<h2>Each abandonment</h2>\n{content}</section>");
    }
}

fn each(report: &Report<'_>, all: &[(KeyHash, &Spell)]) -> String {
    let mut page = String::from("<div class=\"scroll\"><table class=\"each\">\n<thead><tr><th class=\"first\">instance</th><th class=\"first\">from</th><th class=\"first\">for</th><th class=\"first\">call and cause</th><th class=\"first\">then</th></tr></thead>\n<tbody>\n");
    for (key, spell) in all {
        let _ = writeln!(
            page,
            "<tr class=\"spell\"><td class=\"first\">{}</td><td class=\"first\">{}</td><td class=\"first\">{}</td><td class=\"first\">{}</td><td class=\"first\">{}</td></tr>",
            escaped(&report.names.show(key)),
            show_moment(spell.from.at),
            spoken(lasted(spell, report.day_ends())),
            escaped(&began(spell)),
            escaped(&ended(spell))
        );
    }
    page + "</tbody>\n</table></div>\n"
}
