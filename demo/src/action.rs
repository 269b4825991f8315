//! What to do about a cause, who does it, and the plan by which its saving is counted.

use crate::cause::Cause;
use crate::history::{Guid, History};
use crate::plan::Plan;
use crate::rank::{Group, Verdict};
use crate::tell::{counted, guids, longest_gap};
use crate::words::{moment_of_clock, show_guid, spoken};
use std::time::Duration;

/// Who has to act.
#[derive(Debug, Clone, Copy, PartialEq, Eq)]
pub enum Who {
    /// Builds the plotters and the console: settings and calls.
    Maker,
    /// Works the plotters.
    Operator,
    /// Orders the pens.
    Buyer,
}

impl Who {
    pub fn name(self) -> &'static str {
        match self {
            Self::Maker => "Maker",
            Self::Operator => "Operator",
            Self::Buyer => "Buyer",
        }
    }
}

#[derive(Debug)]
pub struct Action {
    pub who: Who,
    text: String,
    /// In a few words, for the first line of the answer.
    short: String,
    pub plan: Plan,
    /// How many orders fewer the day has with it; none where that was not counted.
    pub fewer: Option<u64>,
}

impl Action {
    fn new(who: Who, short: impl Into<String>, text: String, plan: Plan) -> Self {
        Self { who, text, short: short.into(), plan, fewer: None }
    }

    pub fn told(&self) -> String {
        format!("{}{}.", self.text, self.saving())
    }

    pub fn brief(&self) -> String {
        format!("{}{}.", self.short, self.saving())
    }

    fn saving(&self) -> String {
        match self.fewer {
            None => String::new(),
            Some(0) => " (alone it saves no order of this day)".to_owned(),
            Some(fewer) => format!(": {} fewer", counted(fewer, "order")),
        }
    }
}

/// What to do about a cause, where there is something to do.
pub fn of(group: &Group, history: &History) -> Option<Action> {
    match (group.verdict, group.cause) {
        (Verdict::TurnedAway, _) => Some(note(group)),
        (Verdict::CameBack, Cause::LeaseRanOut) => Some(lengthen(group, history)),
        // A dispose alone makes no order: the writers stay in the set.
        (Verdict::CameBack, Cause::Disposed) => {
            let text = "dispose a pen only when no writer draws it any more";
            Some(Action::new(Who::Operator, text, text.to_owned(), Plan::default()))
        }
        (Verdict::CameBack | Verdict::TakenOver, _) => Some(wait(group)),
        (Verdict::NotAgain, _) => None,
    }
}

fn wait(group: &Group) -> Action {
    let longest = group.again.map_or(0, |(_, most)| most);
    let text =
        format!("order a pen only after it was abandoned for longer than {}", spoken(longest));
    let short = format!("wait {} before you order", spoken(longest));
    Action::new(Who::Buyer, short, text, Plan { wait: Some(longest), ..Plan::default() })
}

/// Codes 5 and 7 take a writer out and let it own what it owned.
fn note(group: &Group) -> Action {
    let turned = guids(&group.turned);
    let short = format!("call note_writer (code 6) for {turned} when its sample is turned away");
    let mut text = format!("{short}, so that it counts as a writer of the pen");
    let mut plan = Plan { noted: group.turned.clone(), ..Plan::default() };
    let [.., ownership] = group.away;
    if ownership > 0 && matches!(group.cause, Cause::Unregistered | Cause::Dropped) {
        let lost = guids(&group.lost);
        let call = match group.cause {
            Cause::Dropped => "clear_owner_for_writer (code 18)",
            _ => "release_owner_of (code 20)",
        };
        text += &format!(
            ", and {call} for {lost} when it leaves, so that it does not go on owning the pen"
        );
        plan.released.extend(&group.lost);
    }
    Action::new(Who::Maker, short, text, plan)
}

/// Twice the longest gap, rounded up to whole minutes or hours where there are several.
fn longer(gap: u64) -> Duration {
    let seconds = gap.saturating_mul(2).div_ceil(1_000_000_000);
    Duration::from_secs(match seconds {
        0..120 => seconds,
        120..7_200 => seconds.div_ceil(60) * 60,
        _ => seconds.div_ceil(3_600) * 3_600,
    })
}

/// Longer leases, or assertions where the leases are long enough.
fn lengthen(group: &Group, history: &History) -> Action {
    let mut plan = Plan::default();
    for guid in &group.lost {
        let Some((writer, lease)) =
            history.writers.get(guid).and_then(|w| Some((w, w.expired_lease?)))
        else {
            continue;
        };
        let gap = longest_gap(writer);
        // Where clocks count from elsewhere than times, a sample's time is no clock to assert by.
        if gap > moment_of_clock(lease) {
            plan.leases.insert(*guid, longer(gap.unsigned_abs()));
        } else if !history.apart() {
            plan.asserted.insert(*guid);
        }
    }
    let (text, short) = lengthened(&group.lost, &plan);
    Action::new(Who::Maker, short, text, plan)
}

fn lengthened(lost: &[Guid], plan: &Plan) -> (String, String) {
    if plan.leases.is_empty() {
        let text = format!("assert {} with each sample", guids(lost));
        return (text.clone(), text);
    }
    let (mut text, mut short) = longer_leases(lost, plan);
    if !plan.asserted.is_empty() {
        let also = format!(", and assert {} with each sample", guids(&plan.asserted));
        text += &also;
        short += &also;
    }
    (text, short)
}

fn longer_leases(lost: &[Guid], plan: &Plan) -> (String, String) {
    if let [(guid, lease)] = Vec::from_iter(&plan.leases)[..] {
        let lease = spoken(moment_of_clock(*lease));
        let writer = show_guid(guid);
        let text = format!("set the lease of {writer} to {lease}, or assert it in between");
        let short = match lost {
            [_] => format!("set it to {lease}"),
            _ => format!("set that of {writer} to {lease}"),
        };
        return (text, short);
    }
    let leases = plan.leases.iter().take(3).map(|(guid, lease)| {
        format!("that of {} to {}", show_guid(guid), spoken(moment_of_clock(*lease)))
    });
    let more = if plan.leases.len() > 3 { " and so on" } else { "" };
    let leases = format!("set longer leases: {}{more}", leases.collect::<Vec<_>>().join(", "));
    (format!("{leases}; or assert these writers in between"), leases)
}
