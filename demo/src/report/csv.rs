//! The answer as comma-separated values (RFC 4180): a row for each abandonment.

use super::Report;
use crate::cause::Cause;
use crate::history::{End, Spell};
use crate::rank::{lasted, Verdict};
use crate::words::{show_guid, show_moment};

const TITLES: [&str; 16] = [
    "instance",
    "abandoned_from",
    "until",
    "seconds",
    "shown",
    "cause",
    "code",
    "line",
    "call",
    "writers",
    "verdict",
    "false",
    "drawn_again_by",
    "turned_away_writers",
    "turned_away_samples",
    "order_lines",
];

pub fn write(report: &Report<'_>) -> String {
    let mut text = TITLES.join(",") + "\n";
    for (key, instance) in report.instances() {
        let key = harmless(report.names.show(key));
        for spell in &instance.spells {
            let cells = row(&key, spell, report);
            text += &(cells.map(|cell| quoted(&cell)).join(",") + "\n");
        }
    }
    text
}

fn row(key: &str, spell: &Spell, report: &Report<'_>) -> [String; 16] {
    let verdict = Verdict::of(spell);
    let shown = if spell.cause == Cause::Disposed { "disposed" } else { "no writers" };
    let drawn = match &spell.end {
        Some((_, End::Drawn(Some(writer)))) => harmless(show_guid(writer)),
        _ => String::new(),
    };
    let guids = |guids: Vec<String>| harmless(guids.join(" "));
    [
        key.to_owned(),
        show_moment(spell.from.at),
        spell.end.as_ref().map_or(String::new(), |(by, _)| show_moment(by.at)),
        format!("{:.3}", lasted(spell, report.day_ends()) as f64 / 1e9),
        shown.to_owned(),
        spell.cause.name().to_owned(),
        spell.cause.code().to_string(),
        spell.from.line.to_string(),
        spell.from.text.to_string(),
        guids(spell.lost.iter().map(show_guid).collect()),
        verdict.name().to_owned(),
        if verdict.is_false() { "yes" } else { "no" }.to_owned(),
        drawn,
        guids(spell.turned.keys().map(show_guid).collect()),
        spell.turned.values().map(|t| t.count()).sum::<u64>().to_string(),
        spell.order_lines.to_string(),
    ]
}

/// A name that starts as a formula does: a spreadsheet shall take it for text.
fn harmless(name: String) -> String {
    if name.starts_with(['=', '+', '-', '@']) {
        format!("'{name}")
    } else {
        name
    }
}

fn quoted(cell: &str) -> String {
    if cell.contains([',', '"', '\n', '\r']) {
        format!("\"{}\"", cell.replace('"', "\"\""))
    } else {
        cell.to_owned()
    }
}

#[cfg(test)]
mod tests {
    use super::{harmless, quoted};

    #[test]
    fn cells_stay_cells() {
        assert_eq!(quoted("a b"), "a b");
        assert_eq!(quoted("a,\"b\""), "\"a,\"\"b\"\"\"");
        assert_eq!(harmless("=1+1".to_owned()), "'=1+1");
    }
}
