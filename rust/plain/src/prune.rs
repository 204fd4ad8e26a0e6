//! Terminating, evading and pruning.
//!
//! A chart is pruned "only of what evades d", and evading follows the same
//! rules as pruning. So both functions for pruning answer `None` for a chart
//! that does not evade the lifeline: "empty and loops do; an action if it is on
//! another lifeline; alt if either does; the other pairs if both do".

use std::rc::Rc;

use crate::chart::{Chart, Pair};

/// "Terminates: empty and loops do; an action does not; alt if either side does;
/// the other pairs if both do."
pub fn terminates(chart: &Chart) -> bool {
    match chart {
        Chart::Empty | Chart::Loop(..) => true,
        Chart::Action(_) => false,
        Chart::Pair(Pair::Alt, left, right) => terminates(left) || terminates(right),
        Chart::Pair(_, left, right) => terminates(left) && terminates(right),
    }
}

/// The chart pruned by a lifeline.
pub fn prune(chart: &Rc<Chart>, lifeline: u8) -> Option<Rc<Chart>> {
    match &**chart {
        // "empty and actions stay".
        Chart::Empty => Some(chart.clone()),
        Chart::Action(action) => (action.lifeline != lifeline).then(|| chart.clone()),
        // "Alt with one evading side becomes that side pruned; with two, an alt
        // of both pruned."
        Chart::Pair(Pair::Alt, left, right) => {
            match (prune(left, lifeline), prune(right, lifeline)) {
                (Some(left), Some(right)) => Some(Chart::pair(Pair::Alt, left, right)),
                (left, right) => left.or(right),
            }
        }
        // "Other pairs prune both sides."
        Chart::Pair(kind, left, right) => {
            let left = prune(left, lifeline)?;
            Some(Chart::pair(*kind, left, prune(right, lifeline)?))
        }
        // "A loop whose body evades d becomes the loop of the pruned body; any
        // other loop becomes empty."
        Chart::Loop(kind, body) => Some(match prune(body, lifeline) {
            Some(body) => Rc::new(Chart::Loop(*kind, body)),
            None => Rc::new(Chart::Empty),
        }),
    }
}

/// How many places the pruned chart takes: "each pair or loop rebuilt by pruning
/// (even if nothing in it was cut), and the empty a loop is pruned to".
pub fn prune_places(chart: &Chart, lifeline: u8) -> Option<usize> {
    match chart {
        Chart::Empty => Some(0),
        Chart::Action(action) => (action.lifeline != lifeline).then_some(0),
        // With one evading side the alt itself is not rebuilt.
        Chart::Pair(Pair::Alt, left, right) => {
            match (prune_places(left, lifeline), prune_places(right, lifeline)) {
                (Some(left), Some(right)) => Some(1 + left + right),
                (left, right) => left.or(right),
            }
        }
        Chart::Pair(_, left, right) => {
            let left = prune_places(left, lifeline)?;
            Some(1 + left + prune_places(right, lifeline)?)
        }
        // One place either way, for the loop or for the empty.
        Chart::Loop(_, body) => Some(1 + prune_places(body, lifeline).unwrap_or(0)),
    }
}
