//! Each ranked cause in a sentence, with the figures that prove it.

use crate::action::{self, Action};
use crate::cause::Cause;
use crate::history::{Guid, History};
use crate::names::Names;
use crate::rank::{Group, Verdict};
use crate::words::{moment_of_clock, show_guid, show_moment, spoken, Moment};
use crate::writers::Writer;
use std::time::Duration;

/// What a cause is called, what happened, and what to do.
pub struct Told {
    pub title: &'static str,
    pub what: String,
    /// What happened in a few words, for the first line of the answer.
    pub short: String,
    /// None where nobody has to act.
    pub action: Option<Action>,
    orders: u64,
}

impl Told {
    /// Who has to act.
    pub fn who(&self) -> &'static str {
        self.action.as_ref().map_or("No action needed", |action| action.who.name())
    }

    /// What to do, and what it saves.
    pub fn advice(&self) -> String {
        let right = match (&self.action, self.orders) {
            (Some(action), _) => return action.told(),
            (None, 0) => "nothing was ordered",
            (None, 1) => "the order is right",
            (None, _) => "the orders are right",
        };
        format!("as far as this day goes, {right}.")
    }
}

pub fn tell(group: &Group, history: &History, names: &Names) -> Told {
    let teller = Teller { group, history, names };
    let what = match (group.verdict, group.cause) {
        (Verdict::TurnedAway, _) => teller.turned_away(),
        (Verdict::CameBack, Cause::LeaseRanOut) => teller.lease(),
        (Verdict::CameBack, _) => teller.came_back(),
        (Verdict::TakenOver, _) => teller.taken_over(),
        (Verdict::NotAgain, _) => teller.not_again(),
    };
    Told {
        title: teller.title(),
        what,
        short: teller.short(),
        action: action::of(group, history),
        orders: group.counts.order_lines,
    }
}

/// `once`, `twice`, `5 times`.
pub fn how_often(number: u64) -> String {
    match number {
        1 => "once".to_owned(),
        2 => "twice".to_owned(),
        _ => format!("{number} times"),
    }
}

/// `1 order`, `2 orders`.
pub fn counted(number: u64, one: &str) -> String {
    let s = if number == 1 { "" } else { "s" };
    format!("{number} {one}{s}")
}

pub fn guids<'a>(guids: impl IntoIterator<Item = &'a Guid>) -> String {
    listed(&guids.into_iter().map(show_guid).collect::<Vec<_>>())
}

/// `a`, `a and b`, `a, b and c`; of many the first ones.
pub fn listed(names: &[String]) -> String {
    const SHOWN: usize = 6;
    match names {
        [] => "nobody".to_owned(),
        [name] => name.clone(),
        [names @ .., last] if names.len() < SHOWN => format!("{} and {last}", names.join(", ")),
        _ => format!("{} and {} more", names[..SHOWN].join(", "), names.len() - SHOWN),
    }
}

/// `4 min`, `4 min to 9 min`.
fn between((least, most): (Moment, Moment)) -> String {
    if least == most {
        spoken(least)
    } else {
        format!("{} to {}", spoken(least), spoken(most))
    }
}

struct Teller<'a> {
    group: &'a Group,
    history: &'a History,
    names: &'a Names,
}

impl Teller<'_> {
    fn title(&self) -> &'static str {
        let unasserted = || self.leased().is_some_and(|(writer, lease)| unasserted(writer, lease));
        match (self.group.verdict, self.group.cause) {
            (Verdict::TurnedAway, _) => "another writer was drawing, but was turned away",
            (Verdict::CameBack, Cause::LeaseRanOut) if unasserted() => "nothing asserts the writer",
            (Verdict::CameBack, Cause::LeaseRanOut) => "the lease is too short",
            (Verdict::CameBack, Cause::Disposed) => "disposed, and drawn again",
            (Verdict::CameBack, _) => "the writer left and came back",
            (Verdict::TakenOver, _) => "drawn again by somebody else",
            (Verdict::NotAgain, Cause::Disposed) => "disposed",
            (Verdict::NotAgain, _) => "the writer is gone",
        }
    }

    fn lost(&self) -> String {
        guids(&self.group.lost)
    }

    fn keys(&self) -> String {
        listed(&self.names.list(&self.group.keys))
    }

    /// The one writer that left, and its lease.
    fn leased(&self) -> Option<(&Writer, Duration)> {
        let [guid] = self.group.lost[..] else {
            return None;
        };
        let writer = self.history.writers.get(&guid)?;
        Some((writer, writer.expired_lease?))
    }

    fn losses(&self) -> String {
        how_often(self.group.lines.len() as u64)
    }

    /// ` 3 min later`.
    fn again(&self) -> String {
        self.group.again.map_or(String::new(), |again| format!(" {} later", between(again)))
    }

    fn when(&self) -> String {
        match self.group.from {
            (first, last) if first == last => format!("at {}", show_moment(first)),
            (first, last) => {
                format!("{} from {} to {}", self.losses(), show_moment(first), show_moment(last))
            }
        }
    }

    /// The lease of a writer ran out, and the writer came back.
    fn lease(&self) -> String {
        let (lost, losses, again) = (self.lost(), self.losses(), self.again());
        let each = if self.group.lines.len() == 1 { "" } else { " each time" };
        let Some((writer, lease)) = self.leased() else {
            return format!("The leases of {lost} ran out together {losses}, and one of them drew again{each}{again}.");
        };
        let unasserted = if unasserted(writer, lease) {
            ", but nothing asserts it (a sample is no assertion)"
        } else {
            ""
        };
        format!(
            "The lease of {lost} is {}, and {}{unasserted}. The lease ran out {losses}, and {lost} drew again{each}{again}.",
            spoken(moment_of_clock(lease)),
            gaps(writer)
        )
    }

    fn turned_away(&self) -> String {
        let [order, filter, ownership] = self.group.away;
        let reasons = [
            (ownership, "another writer owned the pen"),
            (filter, "too close to the sample before"),
            (order, "not later than the sample before"),
        ];
        let reasons: Vec<_> = reasons.iter().filter(|(n, _)| *n > 0).collect();
        let reasons = match reasons[..] {
            [(_, why)] => (*why).to_owned(),
            _ => reasons.iter().map(|(n, why)| format!("{n} {why}")).collect::<Vec<_>>().join(", "),
        };
        let turned = guids(&self.group.turned);
        format!(
            "{} while {turned} was drawing. But {} for {} had been turned away ({reasons}), and a sample that is turned away records no writer.",
            self.happened(),
            counted(order + filter + ownership, "sample"),
            self.keys()
        )
    }

    fn came_back(&self) -> String {
        let drawers = guids(&self.group.drawers);
        format!("{}, and {drawers} drew again{}.", self.happened(), self.again())
    }

    fn taken_over(&self) -> String {
        let drawers = if self.group.drawers.is_empty() {
            "a call that names no writer".to_owned()
        } else {
            guids(&self.group.drawers)
        };
        format!("{}, and {drawers} drew again{}.", self.happened(), self.again())
    }

    fn not_again(&self) -> String {
        format!("{}, and {} not drawn again.", self.happened(), self.were())
    }

    fn were(&self) -> String {
        let were = if self.group.keys.len() == 1 { "was" } else { "were" };
        format!("{} {were}", self.keys())
    }

    /// The cause as the beginning of a sentence.
    fn happened(&self) -> String {
        let (when, lost) = (self.when(), self.lost());
        match self.group.cause {
            Cause::Disposed => format!("{} disposed {when}", self.were()),
            Cause::Deregistered => {
                format!("The last registration of {} was taken {when}", self.keys())
            }
            Cause::LeaseRanOut => {
                let lease = self.leased().map(|(_, lease)| moment_of_clock(lease));
                let lease = lease.map_or(String::new(), |l| format!(" ({})", spoken(l)));
                format!("The lease of {lost}{lease} ran out {when}")
            }
            cause => format!("{} {when}", cause.told(&lost)),
        }
    }

    fn short(&self) -> String {
        let (lost, again) = (self.lost(), self.again());
        match (self.group.verdict, self.group.cause) {
            (Verdict::TurnedAway, _) => format!(
                "{} was drawing, but its samples were turned away, and {lost} was lost",
                guids(&self.group.turned)
            ),
            (Verdict::CameBack, Cause::LeaseRanOut) => match self.leased() {
                Some((writer, lease)) if unasserted(writer, lease) => {
                    format!(
                        "{lost} draws, but nothing asserts it within its lease of {}",
                        spoken(moment_of_clock(lease))
                    )
                }
                Some((writer, lease)) => {
                    format!(
                        "{lost}'s lease is {}, {}",
                        spoken(moment_of_clock(lease)),
                        gaps(writer)
                    )
                }
                None => {
                    format!("the leases of {lost} ran out together, and one of them drew again")
                }
            },
            (Verdict::CameBack | Verdict::TakenOver, Cause::Disposed) => {
                format!("{} disposed and drawn again", self.were())
            }
            (Verdict::CameBack, _) => format!("{lost} left and came back{again}"),
            (Verdict::TakenOver, _) => format!("{lost} left, and somebody else drew{again}"),
            (Verdict::NotAgain, _) => format!("{} not drawn again", self.were()),
        }
    }
}

/// Its lease is longer than the gaps between its samples, and ran out all the same.
fn unasserted(writer: &Writer, lease: Duration) -> bool {
    writer.expired_drawing > 0 && longest_gap(writer) <= moment_of_clock(lease)
}

/// The longest time between two samples.
pub fn longest_gap(writer: &Writer) -> Moment {
    writer.samples.ends.map_or(0, |(_, most)| most)
}

fn gaps(writer: &Writer) -> String {
    match writer.samples.ends {
        Some((least, most)) if least == most => format!("its samples come every {}", spoken(most)),
        Some((_, most)) => format!("its samples come up to {} apart", spoken(most)),
        None => "no two of its samples have different times".to_owned(),
    }
}
