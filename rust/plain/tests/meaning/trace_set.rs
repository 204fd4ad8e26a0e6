//! The set of a chart's logs up to a length, built up from its parts' sets.

use std::collections::BTreeSet;

use plain::chart::{Action, Chart, Loop, Pair};

use crate::belonging::Deal;

type Log = Vec<Action>;

/// All logs of a chart up to a length.
pub fn logs(chart: &Chart, most: usize) -> BTreeSet<Log> {
    let mut found = match chart {
        Chart::Empty => BTreeSet::from([Vec::new()]),
        Chart::Action(action) => BTreeSet::from([vec![*action]]),
        Chart::Pair(Pair::Alt, left, right) => &logs(left, most) | &logs(right, most),
        Chart::Pair(kind, left, right) => {
            composed(*kind, &logs(left, most), &logs(right, most), most, |_| true)
        }
        Chart::Loop(kind, body) => rounds(*kind, &logs(body, most), most),
    };
    found.retain(|log| log.len() <= most);
    found
}

/// The logs of a loop: the empty one, and then, again and again, a round put before
/// the logs found so far, until nothing new comes up.
fn rounds(kind: Loop, body: &BTreeSet<Log>, most: usize) -> BTreeSet<Log> {
    let mut found = BTreeSet::from([Vec::new()]);
    loop {
        let longer = match kind {
            Loop::Strict => composed(Pair::Strict, body, &found, most, |_| true),
            Loop::Head => composed(Pair::Seq, body, &found, most, |deal| deal.begins_left()),
            Loop::Weak => composed(Pair::Seq, body, &found, most, |_| true),
            Loop::Parallel => composed(Pair::Par, body, &found, most, |_| true),
        };
        let before = found.len();
        found.extend(longer);
        if found.len() == before {
            return found;
        }
    }
}

/// All logs up to a length that can be dealt, in a way that is allowed, into one
/// of the left and one of the right.
fn composed(
    kind: Pair,
    left: &BTreeSet<Log>,
    right: &BTreeSet<Log>,
    most: usize,
    allowed: impl Fn(&Deal) -> bool,
) -> BTreeSet<Log> {
    let mut found = BTreeSet::new();
    let couples = left
        .iter()
        .flat_map(|left| right.iter().map(move |right| (left, right)));
    for (left, right) in couples.filter(|(left, right)| left.len() + right.len() <= most) {
        let merged = merges(left, right).into_iter();
        let fitting = merged.filter(|(log, to_right)| {
            let deal = Deal {
                log,
                to_right: *to_right,
            };
            deal.keeps_order(kind) && allowed(&deal)
        });
        found.extend(fitting.map(|(log, _)| log));
    }
    found
}

/// All logs that can be dealt into these two, each with its deal.
fn merges(left: &[Action], right: &[Action]) -> Vec<(Log, u32)> {
    let length = left.len() + right.len();
    let deals = (0..1u32 << length).filter(|deal| deal.count_ones() as usize == right.len());
    deals.map(|deal| (merge(left, right, deal), deal)).collect()
}

fn merge(left: &[Action], right: &[Action], to_right: u32) -> Log {
    let numbers = 0..left.len() + right.len();
    let (mut left, mut right) = (left.iter(), right.iter());
    let next = |number| match to_right >> number & 1 {
        0 => left.next(),
        _ => right.next(),
    };
    numbers.filter_map(next).copied().collect()
}
