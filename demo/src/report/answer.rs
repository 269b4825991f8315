//! The answer in its first sentences: how many orders were needless, the main reason, and who has to do what.

use super::Report;
use crate::rank::Counts;
use crate::tell::{counted, how_often};
use crate::words::show_moment;

/// How many orders were needless.
pub fn verdict(report: &Report<'_>) -> String {
    let (all, needless) = (report.order_lines(), report.total.false_lines);
    match (all, needless) {
        (0, _) if report.total.abandoned == 0 => {
            "No orders: no pen was shown abandoned.".to_owned()
        }
        (0, _) => format!(
            "No orders, though pens were shown abandoned {}.",
            how_often(report.total.abandoned)
        ),
        (1, 0) => "The only order was not needless.".to_owned(),
        (1, _) => "The only order was needless.".to_owned(),
        (all, 0) => format!("None of {all} orders was needless."),
        (all, needless) if all == needless => format!("All {all} orders were needless."),
        (all, 1) => format!("1 of {all} orders was needless."),
        (all, needless) => format!("{needless} of {all} orders were needless."),
    }
}

/// The main reason, and what to do about it.
pub fn reason(report: &Report<'_>) -> String {
    let needless = || report.causes.iter().filter(|(group, _)| group.verdict.is_false());
    let acted = || report.causes.iter().filter(|(_, told)| told.action.is_some());
    let Some((_, told)) = needless().next().or(acted().next()) else {
        return "No action needed.".to_owned();
    };
    let word = if needless().count() > 1 { "Most" } else { "Reason" };
    let action = told.action.as_ref().map(|action| format!(" {}: {}", told.who(), action.brief()));
    format!("{word}: {}.{}", told.short, action.unwrap_or_default())
}

fn shown_abandoned(total: &Counts) -> String {
    let mut note = format!("Pens (instances) were shown abandoned {}.", how_often(total.abandoned));
    if total.came_back > 0 {
        let often = capital(&how_often(total.came_back));
        note += &format!(" {often} the same carriage (writer) drew again.");
    }
    if total.turned_away > 0 {
        let often = capital(&how_often(total.turned_away));
        note += &format!(" {often} another one was drawing and was turned away.");
    }
    if total.false_lines > 0 {
        note += " What was ordered then is needless.";
    }
    note
}

pub fn capital(text: &str) -> String {
    let mut letters = text.chars();
    letters.next().map_or(String::new(), |first| first.to_uppercase().chain(letters).collect())
}

/// What else has to be known of the count.
pub fn notes(report: &Report<'_>) -> Vec<String> {
    let total = &report.total;
    let mut notes = Vec::new();
    if total.abandoned > 0 {
        notes.push(shown_abandoned(total));
    }
    if report.unwritten > 0 {
        notes.push(format!(
            "{} for a pen that was registered and that nobody has drawn.",
            counted(report.unwritten, "order")
        ));
    }
    if !report.history.taken && total.abandoned > total.order_lines {
        notes.push("No call of this day takes samples (note_taken), so a pen that has samples is never ordered.".to_owned());
    }
    notes
}

/// How many orders there would be with every action taken.
pub fn changed(report: &Report<'_>) -> Option<String> {
    let orders = counted(report.changed?, "order");
    Some(format!("With every change below: {orders} instead of {}.", report.order_lines()))
}

/// The day that it is about.
pub fn day(report: &Report<'_>) -> String {
    let h = report.history;
    let span = h.ends().map_or(String::new(), |(first, last)| {
        format!(" from {} to {}", show_moment(first), show_moment(last))
    });
    format!(
        "{}: {}{span}; {} refused, {} turned away",
        report.name,
        counted(h.calls, "call"),
        h.refused,
        counted(h.turned_away, "sample")
    )
}
