//! Whether a log belongs to a chart, or begins one of its logs, deal by deal.
//!
//! A log begins a log of the chart if more actions can follow that complete it.
//! What is asked here is more general: whether it can be completed by actions on
//! lifelines that are not closed. With no lifeline closed this asks for an
//! opening, with all of them closed for a log of the chart itself.

use plain::chart::{Action, Chart, Loop, Pair};

/// A set of lifelines, as bits.
pub type Lifelines = u16;

/// Whether the log is one of the chart's.
pub fn belongs(chart: &Chart, log: &[Action]) -> bool {
    begins(chart, log, Lifelines::MAX)
}

/// Whether the log and some actions on lifelines not closed are a log of the chart.
pub fn begins(chart: &Chart, log: &[Action], closed: Lifelines) -> bool {
    match chart {
        // "Empty: only the empty log."
        Chart::Empty => log.is_empty(),
        // "An action: only the log of that one action."
        Chart::Action(action) => {
            log == [*action] || (log.is_empty() && closed & lifeline(action) == 0)
        }
        // "Alt: a log of either side."
        Chart::Pair(Pair::Alt, left, right) => {
            begins(left, log, closed) || begins(right, log, closed)
        }
        Chart::Pair(kind, left, right) => {
            let mut deals = deals(log);
            deals.any(|deal| composed(*kind, left, right, &deal, closed))
        }
        Chart::Loop(kind, body) => begins_loop(*kind, chart, body, log, closed),
    }
}

/// "a deal into some number of parts, none included": no part, or a first one
/// and a deal of what is left over. A part without an action in the log can be
/// left out, so each part has one and the rest is shorter.
fn begins_loop(kind: Loop, whole: &Chart, body: &Chart, log: &[Action], closed: Lifelines) -> bool {
    let pair = match kind {
        Loop::Strict => Pair::Strict,
        Loop::Head | Loop::Weak => Pair::Seq,
        Loop::Parallel => Pair::Par,
    };
    // Head loop: the log's "first action begins some log of the body".
    let has_first = |deal: &Deal| match kind {
        Loop::Head => deal.begins_left(),
        _ => !deal.left().is_empty(),
    };
    let mut deals = deals(log).filter(has_first);
    log.is_empty() || deals.any(|deal| composed(pair, body, whole, &deal, closed))
}

/// Whether the deal is into a left and a right part that are composed as in this pair.
fn composed(kind: Pair, left: &Chart, right: &Chart, deal: &Deal, closed: Lifelines) -> bool {
    let to_right = deal.right();
    // What completes the left part comes after the actions dealt to the right
    // one here, and can come before all that completes the right one.
    let closed_left = match kind {
        Pair::Strict if !to_right.is_empty() => Lifelines::MAX,
        Pair::Seq => to_right
            .iter()
            .fold(closed, |closed, action| closed | lifeline(action)),
        _ => closed,
    };
    deal.keeps_order(kind)
        && begins(left, &deal.left(), closed_left)
        && begins(right, &to_right, closed)
}

fn lifeline(action: &Action) -> Lifelines {
    1 << action.lifeline
}

/// A deal of a log: which of its actions are given to the right part, as bits.
pub struct Deal<'a> {
    pub log: &'a [Action],
    pub to_right: u32,
}

/// All deals of a log.
pub fn deals(log: &[Action]) -> impl Iterator<Item = Deal<'_>> {
    (0..1 << log.len()).map(move |to_right| Deal { log, to_right })
}

impl Deal<'_> {
    fn is_right(&self, number: usize) -> bool {
        self.to_right >> number & 1 == 1
    }

    /// The actions of one part, in the log's order.
    fn part(&self, right: bool) -> Vec<Action> {
        let numbers = (0..self.log.len()).filter(|&number| self.is_right(number) == right);
        numbers.map(|number| self.log[number]).collect()
    }

    pub fn left(&self) -> Vec<Action> {
        self.part(false)
    }

    pub fn right(&self) -> Vec<Action> {
        self.part(true)
    }

    /// Whether the log's first action is of the left part.
    pub fn begins_left(&self) -> bool {
        !self.log.is_empty() && !self.is_right(0)
    }

    /// Strict: no action of the right stands before one of the left. Seq: none
    /// does so "on the same lifeline". Par: any deal.
    pub fn keeps_order(&self, kind: Pair) -> bool {
        let early = |first: usize, second: usize| self.is_right(first) && !self.is_right(second);
        let bound = |first: usize, second: usize| match kind {
            Pair::Strict => true,
            Pair::Seq => self.log[first].lifeline == self.log[second].lifeline,
            Pair::Par | Pair::Alt => false,
        };
        let mut pairs =
            (0..self.log.len()).flat_map(|second| (0..second).map(move |first| (first, second)));
        pairs.all(|(first, second)| !(early(first, second) && bound(first, second)))
    }
}
