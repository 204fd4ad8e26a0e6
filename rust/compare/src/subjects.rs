//! Charts to judge by, and logs for them.

use std::ops::RangeInclusive;

use generate::charts::{ALT, LOOPS, PAIRS, PAR, looped, pair};
use generate::draft::{Draft, MOST_NODES, Node};
use generate::logs::{Entry, MOST_ACTIONS, acting};
use generate::random::Random;
use generate::sound;

/// A chart of any size, on a card with a note; most are small.
pub fn any(random: &mut Random) -> Draft {
    let mut draft = match random.below(40) {
        0..=27 => small(random),
        28..=38 => few_actions(random, 10..=60),
        _ => large(random),
    };
    draft.note = sound::note(random, 40);
    draft
}

/// A chart of up to 9 nodes.
pub fn small(random: &mut Random) -> Draft {
    few_actions(random, 1..=9)
}

/// A chart with few different actions, so that an action has many occurrences.
fn few_actions(random: &mut Random, sizes: RangeInclusive<usize>) -> Draft {
    let size = random.within(sizes);
    let lifelines = random.within(1..=3) as u8;
    let messages = random.within(1..=2) as u8;
    with_actions(random, |random| {
        sound::declaring(random, size, lifelines, messages)
    })
}

/// A chart of up to 255 nodes, with few or many different actions.
pub fn large(random: &mut Random) -> Draft {
    if random.one_in(2) {
        return few_actions(random, 61..=MOST_NODES);
    }
    let size = random.within(61..=MOST_NODES);
    with_actions(random, |random| sound::sized(random, size))
}

/// Draws charts until one has an action; now and then one without any will do.
fn with_actions(random: &mut Random, mut draw: impl FnMut(&mut Random) -> Draft) -> Draft {
    loop {
        let draft = draw(random);
        if !acting(&draft.nodes).is_empty() || random.one_in(20) {
            return draft;
        }
    }
}

/// Every pair and every loop over parts of every kind.
pub fn nestings(random: &mut Random) -> Vec<Draft> {
    let mut charts = Vec::new();
    for (left, right) in (0..=10).flat_map(|left| (0..=10).map(move |right| (left, right))) {
        for kind in PAIRS {
            charts.push(pair(kind, part(random, left), part(random, right)));
        }
    }
    for kind in LOOPS {
        charts.extend((0..=10).map(|body| looped(kind, part(random, body))));
    }
    let drafts = charts.into_iter().map(|nodes| Draft::new(nodes, 2, 2));
    drafts.collect()
}

/// A part of this kind over leaves.
fn part(random: &mut Random, kind: u8) -> Vec<Node> {
    match kind {
        0 => vec![[0; 4]],
        1..=2 => vec![[kind, random.below(2) as u8, 0, 0]],
        3..=6 => pair(kind, leaf(random), leaf(random)),
        _ => looped(kind, leaf(random)),
    }
}

/// Nested loops, with pairs between them, at most 13 deep.
pub fn nested_loops(random: &mut Random) -> Draft {
    let mut nodes = leaf(random);
    for _ in 0..random.within(2..=6) {
        if random.one_in(2) {
            nodes = with_leaf(random, nodes);
        }
        nodes = looped(random.within(7..=10) as u8, nodes);
    }
    Draft::new(nodes, 2, 2)
}

/// A pair of the nodes and a leaf, in either order.
fn with_leaf(random: &mut Random, nodes: Vec<Node>) -> Vec<Node> {
    let kind = random.within(3..=6) as u8;
    let leaf = leaf(random);
    if random.one_in(2) {
        pair(kind, nodes, leaf)
    } else {
        pair(kind, leaf, nodes)
    }
}

/// Mostly one of four actions; a second message is declared and never acts.
fn leaf(random: &mut Random) -> Vec<Node> {
    let kind = random.pick(&[0, 1, 1, 1, 2, 2]);
    let lifeline = if kind == 0 { 0 } else { random.below(2) as u8 };
    vec![[kind, lifeline, 0, 0]]
}

/// A chart in which only 0!0 acts; 0?0 is declared and never acts.
pub fn one_action(random: &mut Random) -> Draft {
    let size = random.within(3..=15);
    let mut draft = with_actions(random, |random| sound::declaring(random, size, 1, 1));
    let actions = draft.nodes.iter_mut().filter(|node| node[0] == 2);
    actions.for_each(|node| node[0] = 1);
    draft
}

/// Pairs and loops of 0!0, at most 15 deep, in which nearly every occurrence is
/// tried before a log deviates; 0?0 is declared and never acts.
pub fn long_search(random: &mut Random) -> Draft {
    let mut nodes = vec![[1, 0, 0, 0]];
    for _ in 0..random.within(4..=7) {
        let kind = random.pick(&[PAR, PAR, PAR, ALT]);
        nodes = pair(kind, nodes, vec![[1, 0, 0, 0]]);
        if random.one_in(4) {
            nodes = looped(random.within(7..=10) as u8, nodes);
        }
    }
    Draft::new(nodes, 1, 1)
}

/// Any sound action.
pub fn any_entry(random: &mut Random, draft: &Draft) -> Entry {
    let who = random.below(2 * usize::from(draft.lifelines));
    let message = random.below(usize::from(draft.messages));
    [who as u8, message as u8]
}

/// A sound action, most often one that acts in the chart.
pub fn likely_entry(random: &mut Random, draft: &Draft) -> Entry {
    let entries = acting(&draft.nodes);
    if entries.is_empty() || random.one_in(8) {
        any_entry(random, draft)
    } else {
        random.pick(&entries)
    }
}

/// A log of likely actions.
pub fn any_log(random: &mut Random, draft: &Draft, length: usize) -> Vec<Entry> {
    (0..length).map(|_| likely_entry(random, draft)).collect()
}

/// The log and at least one more action, unless it already has the most.
pub fn lengthen(random: &mut Random, draft: &Draft, log: &[Entry]) -> Vec<Entry> {
    let room = MOST_ACTIONS - log.len();
    let more = random.edge(room.min(1)..=room);
    [log, &any_log(random, draft, more)].concat()
}

/// The log with two different neighbours swapped, if it has any.
pub fn swap(random: &mut Random, log: &[Entry]) -> Vec<Entry> {
    let mut log = log.to_vec();
    let apart: Vec<usize> = (1..log.len())
        .filter(|&at| log[at - 1] != log[at])
        .collect();
    if !apart.is_empty() {
        let at = random.pick(&apart);
        log.swap(at - 1, at);
    }
    log
}

/// The log with one action dropped, inserted or replaced.
pub fn change(random: &mut Random, draft: &Draft, log: &[Entry]) -> Vec<Entry> {
    let mut log = log.to_vec();
    let at = random.below(log.len().max(1));
    let entry = likely_entry(random, draft);
    match random.below(3) {
        0 if !log.is_empty() => {
            log.remove(at);
        }
        1 if log.len() < MOST_ACTIONS => log.insert(at, entry),
        _ if !log.is_empty() => log[at] = entry,
        _ => {}
    }
    log
}
