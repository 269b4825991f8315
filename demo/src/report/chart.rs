//! The day as pictures: a row for each instance with what it was shown as, a row for each writer with its leases
//! and assertions.

use super::text::{began, ended};
use super::Report;
use crate::cause::Cause;
use crate::history::{Guid, Instance, Shown, Spell};
use crate::rank::{Counts, Verdict};
use crate::table::shown as in_words;
use crate::tell::counted;
use crate::words::{moment_of_clock, show_guid, show_moment, spoken, Moment};
use crate::writers::Writer;
use dcps::{InstanceStateKind, KeyHash};
use std::fmt::Write;

const WIDTH: f64 = 1000.0;
const LEFT: f64 = 140.0;
const RIGHT: f64 = 978.0;
const TOP: f64 = 30.0;

/// Rows of one kind: how high each is, and how many make a picture. A printed page has room for four, and breaks between
/// them.
struct Rows {
    height: f64,
    most: usize,
}

const TROUBLE: Rows = Rows { height: 42.0, most: 6 };
const QUIET: Rows = Rows { height: 26.0, most: 10 };
const WRITERS: Rows = Rows { height: 30.0, most: 8 };

/// Text between tags or in an attribute.
pub fn escaped(text: &str) -> String {
    let mut safe = String::with_capacity(text.len());
    for c in text.chars() {
        match c {
            '&' => safe.push_str("&amp;"),
            '<' => safe.push_str("&lt;"),
            '>' => safe.push_str("&gt;"),
            '"' => safe.push_str("&quot;"),
            '\'' => safe.push_str("&#39;"),
            c if c.is_control() && c != '\n' => safe.push('\u{fffd}'),
            c => safe.push(c),
        }
    }
    safe
}

struct Scale {
    first: Moment,
    last: Moment,
    /// Whether clocks have a place on it.
    clocks: bool,
}

impl Scale {
    fn x(&self, at: Moment) -> f64 {
        let span = (self.last as f64 - self.first as f64).max(1.0);
        let part = (at.clamp(self.first, self.last) as f64 - self.first as f64) / span;
        LEFT + part * (RIGHT - LEFT)
    }
}

impl Scale {
    fn of(report: &Report<'_>) -> Self {
        let (first, last) = report.history.ends().unwrap_or((0, 1));
        let last = last.max(first.saturating_add(1));
        Scale { first, last, clocks: !report.history.apart() }
    }
}

/// Pictures of instances that were in trouble.
pub fn in_trouble(report: &Report<'_>, keys: &[KeyHash]) -> String {
    let scale = Scale::of(report);
    pictures(&scale, &TROUBLE, "instances", keys, |svg, y, key| {
        if let Some(instance) = report.history.instances.get(key) {
            instance_row(svg, y, &scale, &report.names.show(key), instance);
        }
    })
}

/// Pictures of the other ones, whose rows need no labels.
pub fn quiet(report: &Report<'_>, keys: &[KeyHash]) -> String {
    let scale = Scale::of(report);
    pictures(&scale, &QUIET, "instances", keys, |svg, y, key| {
        if let Some(instance) = report.history.instances.get(key) {
            instance_row(svg, y - 14.0, &scale, &report.names.show(key), instance);
        }
    })
}

/// Pictures of writers.
pub fn writers(report: &Report<'_>, writers: &[(Guid, &Writer, Counts)]) -> String {
    let scale = Scale::of(report);
    pictures(&scale, &WRITERS, "writers", writers, |svg, y, (guid, writer, _)| {
        writer_row(svg, y, &scale, &show_guid(guid), writer);
    })
}

/// As many pictures as the rows take, each with its own hours.
fn pictures<T>(
    scale: &Scale,
    rows: &Rows,
    what: &str,
    all: &[T],
    mut draw: impl FnMut(&mut String, f64, &T),
) -> String {
    let mut pictures = String::new();
    for part in all.chunks(rows.most) {
        let bottom = TOP + rows.height * part.len() as f64;
        let _ = writeln!(
            pictures,
            "<svg viewBox=\"0 0 {WIDTH} {:.0}\" role=\"img\" aria-label=\"The day of {what}\">",
            bottom + 8.0
        );
        pictures.push_str(&axis(scale, bottom));
        for (place, row) in part.iter().enumerate() {
            draw(&mut pictures, TOP + rows.height * place as f64, row);
        }
        pictures.push_str("</svg>\n");
    }
    pictures
}

/// Stripes, so that needless abandonments are told apart on paper too; in a picture of their own, as one that is folded away
/// has none to lend.
pub const PATTERNS: &str = "<svg class=\"patterns\" width=\"0\" height=\"0\" aria-hidden=\"true\"><defs><pattern id=\"stripes\" width=\"6\" height=\"6\" patternUnits=\"userSpaceOnUse\" patternTransform=\"rotate(45)\"><rect class=\"stripe-ground\" width=\"6\" height=\"6\"/><rect class=\"stripe\" width=\"2.4\" height=\"6\"/></pattern></defs></svg>\n";

/// A long name without its middle: serial numbers differ at their ends.
fn short(name: &str) -> String {
    let letters: Vec<char> = name.chars().collect();
    if letters.len() <= 18 {
        return name.to_owned();
    }
    letters[..6].iter().chain(&['…']).chain(&letters[letters.len() - 10..]).collect()
}

fn label(svg: &mut String, y: f64, name: &str) {
    let _ = writeln!(
        svg,
        "<text class=\"name\" x=\"0\" y=\"{y:.1}\">{}<title>{}</title></text>",
        escaped(&short(name)),
        escaped(name)
    );
}

/// A bar of a row; `more` were too near to it to be told apart.
struct Bar {
    x: (f64, f64),
    class: &'static str,
    title: String,
    label: Option<&'static str>,
    more: u64,
}

fn instance_row(svg: &mut String, y: f64, scale: &Scale, key: &str, instance: &Instance) {
    let _ = writeln!(svg, "<g class=\"instance\">");
    label(svg, y + 25.0, key);
    let bars = bars(scale, key, instance);
    labels(svg, y + 10.0, &bars);
    // What is not alive is drawn last, so that nothing covers a short time.
    let (alive, other): (Vec<&Bar>, Vec<&Bar>) = bars.iter().partition(|b| b.class == "alive");
    for bar in alive.into_iter().chain(other) {
        let least = if bar.class == "alive" { 1.0 } else { 2.0 };
        let (x, width) = (bar.x.0, (bar.x.1 - bar.x.0).max(least));
        let narrow = if width < STRIPED && bar.class == "falsely" { " narrow" } else { "" };
        let more = if bar.more == 0 { String::new() } else { format!("\nand {} more", bar.more) };
        let _ = writeln!(
            svg,
            "<rect class=\"{}{narrow}\" x=\"{x:.1}\" y=\"{:.1}\" width=\"{width:.1}\" height=\"14\"><title>{}{more}</title></rect>",
            bar.class,
            y + 14.0,
            escaped(&bar.title)
        );
    }
    ticks(svg, scale, (y + 29.5, 5.0), "drawn", "sample admitted", instance.admitted.all());
    ticks(svg, scale, (y + 29.5, 8.0), "away", "sample turned away", instance.turned.all());
    let _ = writeln!(svg, "</g>");
}

/// On narrower bars stripes are not seen, and each costs a printer much.
const STRIPED: f64 = 8.0;

/// So many changes can be told apart in a row; of more, those side by side are drawn as one.
const DENSE: usize = 300;

fn bars(scale: &Scale, key: &str, instance: &Instance) -> Vec<Bar> {
    let dense = instance.spans.len() > DENSE;
    let mut bars: Vec<Bar> = Vec::new();
    if let (true, Some((from, _))) = (dense, instance.spans.first()) {
        bars.extend(bar(scale, key, (*from, scale.last), Shown::Alive, None));
    }
    let mut spells = instance.spells.iter();
    let mut spell: Option<&Spell> = None;
    let mut was = Shown::Absent;
    for (place, (from, is)) in instance.spans.iter().enumerate() {
        let to = instance.spans.get(place + 1).map_or(scale.last, |(to, _)| *to).max(*from);
        if was == Shown::Alive && matches!(is, Shown::NoWriters | Shown::Disposed) {
            spell = spells.next();
        }
        was = *is;
        if dense && was == Shown::Alive {
            continue;
        }
        match (bar(scale, key, (*from, to), *is, spell), bars.last_mut()) {
            (Some(bar), Some(last)) if dense && last.takes(&bar) => {
                last.x.1 = bar.x.1;
                last.more += 1;
            }
            (Some(bar), _) => bars.push(bar),
            (None, _) => {}
        }
    }
    bars
}

impl Bar {
    /// Whether the next one is so near that they are seen as one.
    fn takes(&self, next: &Bar) -> bool {
        self.class == next.class && next.x.0 - self.x.1 < 1.5 && self.x.1 - self.x.0 < 30.0
    }
}

fn bar(
    scale: &Scale,
    key: &str,
    (from, to): (Moment, Moment),
    is: Shown,
    spell: Option<&Spell>,
) -> Option<Bar> {
    let is_false = spell.is_some_and(|spell| Verdict::of(spell).is_false());
    let (class, kind) = match is {
        Shown::Absent => return None,
        Shown::Alive => ("alive", InstanceStateKind::Alive),
        Shown::Disposed => ("disposed", InstanceStateKind::NotAliveDisposed),
        Shown::NoWriters if is_false => ("falsely", InstanceStateKind::NotAliveNoWriters),
        Shown::NoWriters => ("abandoned", InstanceStateKind::NotAliveNoWriters),
    };
    let mut title = format!(
        "{key}: {}, {} to {}, {}",
        in_words(kind),
        show_moment(from),
        show_moment(to),
        spoken(to.saturating_sub(from))
    );
    let spell = spell.filter(|_| is != Shown::Alive);
    if let Some(spell) = spell {
        let _ = write!(title, "\n{}\n{}", began(spell), ended(spell));
    }
    // A dispose of what is abandoned already does not end the abandonment, and has its own bar.
    let label = spell.map(|spell| match is {
        Shown::Disposed => Cause::Disposed.name(),
        _ => spell.cause.name(),
    });
    Some(Bar { x: (scale.x(from), scale.x(to)), class, title, label, more: 0 })
}

/// Labels that stand as one: where they start, and the causes with their numbers.
struct Run {
    x: f64,
    causes: Vec<(&'static str, u64)>,
}

impl Run {
    /// Where it stands: not beyond the right edge.
    fn ends(&self) -> (f64, f64) {
        let width = width(&run_text(&self.causes));
        let x = self.x.min(RIGHT - width).max(LEFT);
        (x, x + width)
    }

    fn take(&mut self, other: Run) {
        for (cause, number) in other.causes {
            match self.causes.iter_mut().find(|(name, _)| *name == cause) {
                Some((_, count)) => *count += number,
                None => self.causes.push((cause, number)),
            }
        }
    }
}

/// More labels in a row stand as one.
const LABELS: usize = 12;

/// The causes over the bars; where they would run into one another they stand as one.
fn runs(bars: &[Bar]) -> Vec<Run> {
    let mut runs: Vec<Run> = Vec::new();
    let labelled = || bars.iter().filter_map(|bar| Some((bar, bar.label?)));
    let many = labelled().count() > LABELS;
    for (bar, cause) in labelled() {
        let mut run = Run { x: bar.x.0, causes: vec![(cause, 1 + bar.more)] };
        while let Some(mut last) = runs.pop() {
            if !many && last.ends().1 + 8.0 <= run.ends().0 {
                runs.push(last);
                break;
            }
            last.take(run);
            run = last;
        }
        runs.push(run);
    }
    runs
}

fn labels(svg: &mut String, y: f64, bars: &[Bar]) {
    for run in runs(bars) {
        let (x, text) = (run.ends().0, run_text(&run.causes));
        let _ = writeln!(svg, "<text class=\"cause\" x=\"{x:.1}\" y=\"{y:.1}\">{text}</text>");
    }
}

fn run_text(causes: &[(&str, u64)]) -> String {
    let texts = causes.iter().map(|(name, count)| match count {
        1 => (*name).to_owned(),
        _ => format!("{name} ×{count}"),
    });
    texts.collect::<Vec<_>>().join(", ")
}

/// About as wide as a label is where it is printed, which is wider than on a screen.
fn width(text: &str) -> f64 {
    7.0 * text.chars().count() as f64
}

/// Marks in a row: each with its time, or where they are many all as one.
fn ticks(svg: &mut String, scale: &Scale, at: (f64, f64), class: &str, what: &str, all: &[Moment]) {
    if all.len() > 80 {
        let _ = write!(svg, "<path class=\"{class}\" d=\"M{LEFT} {:.1}", at.0);
        let mut x = LEFT;
        for moment in all {
            let next = (10.0 * scale.x(*moment)).round() / 10.0;
            let _ = write!(svg, "m{:.1} 0v{}m0-{1}", next - x, at.1);
            x = next;
        }
        let _ = writeln!(svg, "\"><title>{what}, many times</title></path>");
        return;
    }
    for moment in all {
        let _ = writeln!(
            svg,
            "<rect class=\"{class}\" x=\"{:.1}\" y=\"{:.1}\" width=\"2\" height=\"{}\"><title>{what}, {}</title></rect>",
            scale.x(*moment) - 1.0,
            at.0,
            at.1,
            show_moment(*moment)
        );
    }
}

fn writer_row(svg: &mut String, y: f64, scale: &Scale, name: &str, writer: &Writer) {
    let _ = writeln!(svg, "<g class=\"writer\">");
    label(svg, y + 14.0, name);
    if scale.clocks {
        leases(svg, y, scale, name, writer);
    }
    ticks(svg, scale, (y + 18.0, 5.0), "drawn", "sample", writer.drawn.all());
    let _ = writeln!(svg, "</g>");
}

/// Its leases and assertions.
fn leases(svg: &mut String, y: f64, scale: &Scale, name: &str, writer: &Writer) {
    for (from, to) in &stretches(scale, writer) {
        let (x, end) = (scale.x(*from), scale.x(to.unwrap_or(scale.last)));
        let until = to.map_or("on".to_owned(), |to| format!("to {}", show_moment(to)));
        let _ = writeln!(
            svg,
            "<rect class=\"lease\" x=\"{x:.1}\" y=\"{:.1}\" width=\"{:.1}\" height=\"8\"><title>{}: alive from {} {until}{}</title></rect>",
            y + 6.0,
            (end - x).max(1.0),
            escaped(name),
            show_moment(*from),
            lease(writer)
        );
    }
    ticks(svg, scale, (y + 3.5, 13.0), "assertion", "asserted", writer.asserted.all());
}

/// When it was alive; of many stretches, those side by side as one.
fn stretches(scale: &Scale, writer: &Writer) -> Vec<(Moment, Option<Moment>)> {
    let dense = writer.alive.len() > DENSE;
    let mut stretches: Vec<(Moment, Option<Moment>)> = Vec::new();
    for (from, to) in &writer.alive {
        match stretches.last_mut() {
            Some((_, Some(end))) if dense && scale.x(*from) - scale.x(*end) < 1.5 => {
                *end = to.unwrap_or(scale.last);
            }
            _ => stretches.push((*from, *to)),
        }
    }
    stretches
}

fn lease(writer: &Writer) -> String {
    let gaps = writer.samples.ends.map_or(String::new(), |(_, most)| {
        format!(", {} up to {} apart", counted(writer.samples.count, "sample"), spoken(most))
    });
    match writer.lease {
        Some(lease) => format!(", lease {}{gaps}", spoken(moment_of_clock(lease))),
        None => format!(", lease endless{gaps}"),
    }
}

const SECOND: Moment = 1_000_000_000;

/// Between two lines of the axis, in seconds.
const STEPS: [Moment; 18] = [
    1, 2, 5, 10, 15, 30, 60, 120, 300, 600, 900, 1_800, 3_600, 7_200, 10_800, 21_600, 43_200,
    86_400,
];

fn axis(scale: &Scale, bottom: f64) -> String {
    let span = scale.last.saturating_sub(scale.first);
    let step = STEPS.iter().map(|s| s * SECOND).find(|step| span / step <= 10);
    let step = step.unwrap_or((span / 10 / (86_400 * SECOND) + 1) * 86_400 * SECOND);
    let mut svg = String::new();
    let mut at = scale.first.div_euclid(step) * step;
    while at <= scale.last {
        if at >= scale.first {
            let (x, hour) = (scale.x(at), hour(at, step));
            let middle = x.min(WIDTH - width(&hour) / 2.0);
            let _ = writeln!(
                svg,
                "<line class=\"grid\" x1=\"{x:.1}\" x2=\"{x:.1}\" y1=\"20\" y2=\"{bottom:.1}\"/><text class=\"hour\" x=\"{middle:.1}\" y=\"13\">{hour}</text>"
            );
        }
        at = match at.checked_add(step) {
            Some(next) => next,
            None => break,
        };
    }
    svg
}

/// The time without what the step makes needless.
fn hour(at: Moment, step: Moment) -> String {
    let shown = show_moment(at);
    let (date, time) = shown.split_once(' ').unwrap_or(("", &shown));
    if !date.is_empty() && step >= 86_400 * SECOND {
        return date.to_owned();
    }
    match time.rsplit_once(':') {
        Some((minutes, _)) if step >= 60 * SECOND => minutes.to_owned(),
        _ => time.to_owned(),
    }
}

#[cfg(test)]
mod tests {
    use super::*;

    fn bar(x: f64) -> Bar {
        let (label, title) = (Some("lease ran out"), String::new());
        Bar { x: (x, x + 1.0), class: "falsely", title, label, more: 0 }
    }

    /// Wherever the bars are, labels stand apart, within the picture, and count all bars.
    #[test]
    fn labels_do_not_overlap() {
        let far = [140.0, 300.0, 880.0, 905.0, 977.0];
        let near = (0..40).map(|n| RIGHT - 2.0 * f64::from(40 - n));
        for bars in [Vec::from(far), near.collect(), vec![RIGHT], vec![LEFT, RIGHT]] {
            let bars: Vec<Bar> = bars.into_iter().map(bar).collect();
            let runs = runs(&bars);
            assert!(runs.windows(2).all(|w| w[0].ends().1 + 8.0 <= w[1].ends().0));
            assert!(runs.iter().all(|run| run.ends().0 >= LEFT && run.ends().1 <= RIGHT));
            let labelled: u64 = runs.iter().flat_map(|run| &run.causes).map(|(_, n)| n).sum();
            assert_eq!(labelled, bars.len() as u64);
        }
    }
}
