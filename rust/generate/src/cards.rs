//! The families of cards that both programs are asked about.

use crate::draft::{Draft, LARGEST_CARD, LARGEST_DEPTH, MARK, MOST_NODES, Node, TRAILER};
use crate::family::Family;
use crate::faults::{self, Fault};
use crate::random::Random;
use crate::sound;

/// A card, and its number where its maker knows it beforehand.
pub struct Card {
    pub bytes: Vec<u8>,
    pub expected: Option<u32>,
}

pub const FAMILIES: [Family<Card>; 12] = [
    Family::new("sound cards of any shape", 22, any_shape),
    Family::new("cards at the limits", 4, limits),
    Family::new("one fault", 16, one_fault),
    Family::new("two faults", 16, two_faults),
    Family::new("three faults", 6, three_faults),
    Family::new("one byte damaged, at every position", 16, damaged),
    Family::new("one field set to every value", 6, every_value),
    Family::new("two trees side by side", 2, side_by_side),
    Family::new("depths around 16", 3, depths),
    Family::new("lengths around the limits", 2, lengths),
    Family::new("random bytes", 2, random_bytes),
    Family::new("random nodes before a right trailer", 5, random_nodes),
];

fn card(draft: &Draft, expected: u32) -> Card {
    Card {
        bytes: draft.bytes(),
        expected: Some(expected),
    }
}

fn unforeseen(bytes: Vec<u8>) -> Card {
    Card {
        bytes,
        expected: None,
    }
}

fn any_shape(random: &mut Random) -> Vec<Card> {
    (0..100).map(|_| card(&sound::any(random), 0)).collect()
}

/// Cards that reach a limit exactly, a card with one node too many, and cards that
/// name one node as a child more than once, up to as often as possible.
fn limits(random: &mut Random) -> Vec<Card> {
    let mut cards = Vec::new();
    for size in [1, 2, MOST_NODES - 1, MOST_NODES] {
        cards.push(card(&sound::with_note(random, size), 0));
        cards.push(card(&filled(random, size), 0));
    }
    let middling = random.within(1..=MOST_NODES);
    cards.push(card(&filled(random, middling), 0));
    cards.push(card(&all_acting(random), 0));
    cards.push(card(&sound::sized(random, MOST_NODES + 1), 2));
    for times in [2, 255, 256, 257, 508] {
        cards.push(card(&Draft::new(named_often(times), 1, 1), 5));
    }
    cards.push(card(&Draft::new(ladder(MOST_NODES), 1, 1), 5));
    cards
}

/// A sound card of exactly 4,096 bytes.
fn filled(random: &mut Random, size: usize) -> Draft {
    let mut draft = sound::sized(random, size);
    draft.note = sound::note_of(random, LARGEST_CARD - TRAILER - draft.before());
    draft
}

/// A sound card in which all of 16 lifelines act, with messages counted down from the
/// last of 64. It has at least 16 leaves, since its 255 nodes are at most 16 deep.
fn all_acting(random: &mut Random) -> Draft {
    let mut draft = sound::sized(random, MOST_NODES);
    draft.lifelines = 16;
    draft.messages = 64;
    let turn = random.below(16);
    let leaves = draft.nodes.iter_mut().filter(|node| node[0] <= 2);
    for (leaf, node) in leaves.enumerate() {
        let lifeline = (leaf + turn) % 16;
        let message = (63 - leaf % 64) as u8;
        *node = [random.within(1..=2) as u8, lifeline as u8, message, 0];
    }
    draft
}

/// Parents that name node 0 `times` times in all. A count of one byte would wrap, and
/// might take 257 times for once.
fn named_often(times: usize) -> Vec<Node> {
    let mut nodes = vec![[0; 4]];
    nodes.extend(vec![[3, 0, 0, 0]; times / 2]);
    nodes.extend(vec![[7, 0, 0, 0]; times % 2]);
    nodes
}

/// Pairs that name the node below on both sides. The ways down double with each
/// node, so a check that follows them before it counts children never ends.
fn ladder(size: usize) -> Vec<Node> {
    let pair = |below| [4, below, below, 0];
    let pairs = (0..size as u8 - 1).map(pair);
    std::iter::once([0; 4]).chain(pairs).collect()
}

/// A sound card that all these faults can be put into, with the faults put in. The
/// lowest number goes in last and is the one given. Only a second fault of number 5
/// might mend the first, by naming the child that was left without a parent.
pub fn with_faults(random: &mut Random, faults: &[Fault]) -> Card {
    let mut falling = faults.to_vec();
    falling.sort_by_key(|fault| std::cmp::Reverse(fault.number()));
    loop {
        let mut draft = sound::any(random);
        if falling.iter().all(|fault| fault.spoil(random, &mut draft)) {
            let numbers: Vec<u32> = falling.iter().map(|fault| fault.number()).collect();
            let mendable = numbers.ends_with(&[5, 5]);
            let expected = numbers.last().copied().filter(|_| !mendable);
            return Card {
                bytes: draft.bytes(),
                expected,
            };
        }
    }
}

fn one_fault(random: &mut Random) -> Vec<Card> {
    faults::all()
        .into_iter()
        .map(|fault| with_faults(random, &[fault]))
        .collect()
}

/// Every pair of faults: of two numbers the lower one counts, of two faults of
/// one number the one at the lower node.
fn two_faults(random: &mut Random) -> Vec<Card> {
    let faults = faults::all();
    let mut cards = Vec::new();
    for (index, &first) in faults.iter().enumerate() {
        for &second in &faults[index..] {
            cards.push(with_faults(random, &[first, second]));
        }
    }
    cards
}

fn three_faults(random: &mut Random) -> Vec<Card> {
    let faults = faults::all();
    (0..100)
        .map(|_| {
            let three = [0; 3].map(|_| random.pick(&faults));
            with_faults(random, &three)
        })
        .collect()
}

/// Sound cards with one byte changed, at every position: small cards with four other
/// values at each, and one larger card with one other value at each.
fn damaged(random: &mut Random) -> Vec<Card> {
    let mut cards = Vec::new();
    for _ in 0..10 {
        let size = random.within(1..=9);
        damage_everywhere(random, size, 4, &mut cards);
    }
    let size = random.pick(&[30, 60, 120, MOST_NODES]);
    damage_everywhere(random, size, 1, &mut cards);
    cards
}

fn damage_everywhere(random: &mut Random, size: usize, values: usize, cards: &mut Vec<Card>) {
    let mut draft = sound::sized(random, size);
    draft.note = sound::note(random, 8);
    let bytes = draft.bytes();
    for position in 0..bytes.len() {
        for _ in 0..values {
            cards.push(unforeseen(damage(random, &bytes, position)));
        }
    }
}

/// Changes one byte: by one bit, by one up or down, or to any other value.
pub fn damage(random: &mut Random, bytes: &[u8], position: usize) -> Vec<u8> {
    let mut damaged = bytes.to_vec();
    let byte = bytes[position];
    damaged[position] = match random.below(4) {
        0 => byte ^ (1 << random.below(8)),
        1 => byte.wrapping_add(1),
        2 => byte.wrapping_sub(1),
        _ => random.other_byte(byte),
    };
    damaged
}

/// A sound card in which one byte of a node, or now and then of the trailer,
/// takes every value.
fn every_value(random: &mut Random) -> Vec<Card> {
    let draft = sound::any(random);
    let bytes = draft.bytes();
    let trailer = bytes.len() - TRAILER;
    let position = if random.one_in(10) {
        random.within(trailer..=bytes.len() - 1)
    } else {
        random.within(draft.note.len()..=trailer - 1)
    };
    let with = |value| {
        let mut bytes = bytes.clone();
        bytes[position] = value;
        unforeseen(bytes)
    };
    (0..=255).map(with).collect()
}

fn side_by_side(random: &mut Random) -> Vec<Card> {
    (0..20)
        .map(|_| with_faults(random, &[Fault::SideBySide]))
        .collect()
}

/// Chains of loops, combs of pairs and random trees, of depths around 16 and of
/// any larger depth that 255 nodes can have.
fn depths(random: &mut Random) -> Vec<Card> {
    let mut cards = Vec::new();
    for depth in LARGEST_DEPTH - 2..=LARGEST_DEPTH + 2 {
        cards.push(tree_of_depth(chain(random, depth), depth));
        for sides in [[1, 0], [0, 1], [1, 1]] {
            cards.push(tree_of_depth(comb(random, depth, sides), depth));
        }
    }
    let deeper = random.within(LARGEST_DEPTH + 1..=MOST_NODES);
    cards.push(tree_of_depth(chain(random, deeper), deeper));
    let deeper = random.within(LARGEST_DEPTH + 1..=MOST_NODES.div_ceil(2));
    cards.push(tree_of_depth(comb(random, deeper, [1, 1]), deeper));
    for _ in 0..10 {
        let size = random.within(40..=MOST_NODES);
        let nodes = sound::nodes(random, size, LARGEST_DEPTH + 2, 1, 1);
        let depth = Draft::new(nodes.clone(), 1, 1).depth();
        cards.push(tree_of_depth(nodes, depth));
    }
    cards
}

fn tree_of_depth(nodes: Vec<Node>, depth: usize) -> Card {
    let expected = if depth > LARGEST_DEPTH { 6 } else { 0 };
    card(&Draft::new(nodes, 1, 1), expected)
}

/// Nested loops around an empty or an action.
fn chain(random: &mut Random, depth: usize) -> Vec<Node> {
    let mut nodes = vec![[random.within(0..=2) as u8, 0, 0, 0]];
    while nodes.len() < depth {
        let body = (nodes.len() - 1) as u8;
        nodes.push([random.within(7..=10) as u8, body, 0, 0]);
    }
    nodes
}

/// Nested pairs. Each has a leaf on one side; `sides` says how often the deep side is
/// the left one and how often the right one.
fn comb(random: &mut Random, depth: usize, sides: [usize; 2]) -> Vec<Node> {
    let mut nodes = vec![[random.within(0..=2) as u8, 0, 0, 0]];
    for _ in 1..depth {
        let deep = (nodes.len() - 1) as u8;
        let leaf = deep + 1;
        let kind = random.within(3..=6) as u8;
        nodes.push([random.within(0..=2) as u8, 0, 0, 0]);
        if random.below(sides[0] + sides[1]) < sides[0] {
            nodes.push([kind, deep, leaf, 0]);
        } else {
            nodes.push([kind, leaf, deep, 0]);
        }
    }
    nodes
}

/// Every length around 6 and around 4,096: zeros, random bytes, random bytes
/// with a right mark, and random bytes with the tail of a sound card behind them.
fn lengths(random: &mut Random) -> Vec<Card> {
    let mut cards = Vec::new();
    for length in (0..=40).chain(4080..=4100) {
        let size = random.within(1..=9);
        let tail = sound::sized(random, size).bytes();
        cards.push(unforeseen(vec![0; length]));
        cards.push(unforeseen(random.bytes(length)));
        cards.push(unforeseen(ending(random, &MARK, length)));
        cards.push(unforeseen(ending(random, &tail, length)));
    }
    cards
}

/// `length` bytes: the last ones of the tail, with random bytes before them if the tail
/// is too short.
fn ending(random: &mut Random, tail: &[u8], length: usize) -> Vec<u8> {
    let mut bytes = random.bytes(length.saturating_sub(tail.len()));
    bytes.extend(&tail[tail.len().saturating_sub(length)..]);
    bytes
}

/// Bytes of any length, half of them with a right mark.
fn random_bytes(random: &mut Random) -> Vec<Card> {
    (0..20)
        .map(|index| {
            let most = random.pick(&[16, 64, 64, 4200]);
            let length = random.within(0..=most);
            let tail = if index % 2 == 0 { &MARK[..] } else { &[] };
            unforeseen(ending(random, tail, length))
        })
        .collect()
}

/// A few random nodes with small fields, so that many cards pass some of the checks
/// and some cards pass all of them.
fn random_nodes(random: &mut Random) -> Vec<Card> {
    (0..20)
        .map(|_| {
            let size = random.within(1..=6);
            let nodes = (0..size)
                .map(|number| likely_node(random, number))
                .collect();
            let mut draft = Draft::new(nodes, random.pick(&[1, 2, 16]), random.pick(&[1, 2, 64]));
            draft.note = sound::note(random, 12);
            unforeseen(draft.bytes())
        })
        .collect()
}

/// A node that most often breaks no rule by itself.
fn likely_node(random: &mut Random, number: usize) -> Node {
    let mut node = match random.below(if number == 0 { 3 } else { 11 }) as u8 {
        0 => [0; 4],
        kind @ 1..=2 => [kind, random.below(2) as u8, random.below(2) as u8, 0],
        kind @ 3..=6 => [
            kind,
            random.below(number) as u8,
            random.below(number) as u8,
            0,
        ],
        kind => [kind, random.below(number) as u8, 0, 0],
    };
    if random.one_in(12) {
        node[random.below(4)] = random.within(0..=12) as u8;
    }
    node
}
