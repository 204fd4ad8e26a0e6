//! Logs made by executing a chart, with the plain library's rules.

use std::collections::BTreeSet;
use std::rc::Rc;

use plain::chart::{Action, Chart};
use plain::execute::{follow_up, occurrences};
use plain::prune::terminates;

use crate::draft::{Draft, Node};
use crate::random::Random;

/// 256 bytes.
pub const MOST_ACTIONS: usize = 128;

/// An action as it stands in a log: lifeline times 2 plus direction, message.
pub type Entry = [u8; 2];

/// A log made by executing a chart.
pub struct Executed {
    pub log: Vec<Entry>,
    /// Whether the chart that remains terminates. If not, the log is an opening.
    pub finished: bool,
}

/// The different actions of a chart, as they stand in a log.
pub fn acting(nodes: &[Node]) -> Vec<Entry> {
    let actions = nodes.iter().filter(|node| (1..=2).contains(&node[0]));
    let entries: BTreeSet<Entry> = actions
        .map(|&[kind, lifeline, message, _]| [2 * lifeline + kind - 1, message])
        .collect();
    entries.into_iter().collect()
}

/// Whether a device acts in a log, by its lifeline.
pub fn acts(log: &[Entry], lifeline: u8) -> bool {
    log.iter().any(|[who, _]| who / 2 == lifeline)
}

/// Executes a sound card's chart by actions drawn at random: at least `least` of
/// them, then until the chart terminates, and at most 128.
pub fn execute(random: &mut Random, draft: &Draft, least: usize) -> Executed {
    let entries = acting(&draft.nodes);
    let bytes = draft.bytes();
    let card = plain::card::read(&bytes).expect("the card is sound");
    let actions = plain::log::read(entries.as_flattened(), card.declared)
        .expect("what acts in a sound card is declared, and has at most 128 actions");
    let mut chart = card.chart;
    let mut log = Vec::new();
    while log.len() < MOST_ACTIONS && !(log.len() >= least && terminates(&chart)) {
        let Some((number, next)) = execute_one(random, &chart, &actions) else {
            break;
        };
        log.push(entries[number]);
        chart = next;
    }
    Executed {
        log,
        finished: terminates(&chart),
    }
}

/// Executes an occurrence of the first action that has any, going round from an
/// action drawn at random. Returns the action's number and the follow-up.
fn execute_one(
    random: &mut Random,
    chart: &Rc<Chart>,
    actions: &[Action],
) -> Option<(usize, Rc<Chart>)> {
    let first = random.below(actions.len().max(1));
    for number in (first..actions.len()).chain(0..first) {
        let found = occurrences(chart, actions[number]);
        if !found.is_empty() {
            let occurrence = &found[random.below(found.len())];
            return Some((number, follow_up(chart, occurrence)));
        }
    }
    None
}
