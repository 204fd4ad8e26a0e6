//! Faults: every cause of the numbers 1 to 6, each put into a card by itself.

use std::ops::RangeInclusive;

use crate::charts::put_behind;
use crate::draft::{Draft, LARGEST_CARD, LARGEST_DEPTH, MARK, MOST_NODES, TRAILER, children};
use crate::random::Random;
use crate::sound;

const ACTIONS: RangeInclusive<u8> = 1..=2;
const PAIRS: RangeInclusive<u8> = 3..=6;
const LOOPS: RangeInclusive<u8> = 7..=10;
const PARENTS: RangeInclusive<u8> = 3..=10;

/// The fields of a node, by their position in it.
const A: usize = 1;
const B: usize = 2;
const C: usize = 3;

#[derive(Clone, Copy, Debug)]
pub enum Fault {
    UnderSix,
    OverLargest,
    MarkByte(usize),
    MarkSwapped,
    BackNoMultiple,
    BackZero,
    BackOverRule,
    BackOverCard,
    BackHighFirst,
    NoLifelines,
    ManyLifelines,
    NoMessages,
    ManyMessages,
    UnknownKind,
    /// A non-zero field that this kind does not use.
    Unused(u8, usize),
    /// An undeclared lifeline (field a) or message (field b) in a node of this kind.
    Undeclared(u8, usize),
    /// A node of this kind whose child, named by this field, is the node itself.
    ChildItself(u8, usize),
    /// A node of this kind whose child, named by this field, is higher.
    ChildHigher(u8, usize),
    ChildNever,
    ChildTwice,
    BothSidesOne,
    OtherChild,
    SideBySide,
    TooDeep,
}

/// All faults, by their numbers.
pub fn all() -> Vec<Fault> {
    use Fault::*;
    let mut faults = vec![UnderSix, OverLargest, MarkByte(0), MarkByte(1), MarkSwapped];
    faults.extend([
        BackNoMultiple,
        BackZero,
        BackOverRule,
        BackOverCard,
        BackHighFirst,
    ]);
    faults.extend([NoLifelines, ManyLifelines, NoMessages, ManyMessages]);
    faults.extend([UnknownKind, Unused(0, A), Unused(0, B)]);
    faults.extend(LOOPS.map(|kind| Unused(kind, B)));
    faults.extend((0..=10).map(|kind| Unused(kind, C)));
    faults.extend(ACTIONS.flat_map(|kind| [Undeclared(kind, A), Undeclared(kind, B)]));
    faults.extend(PARENTS.flat_map(|kind| [ChildItself(kind, A), ChildHigher(kind, A)]));
    faults.extend(PAIRS.flat_map(|kind| [ChildItself(kind, B), ChildHigher(kind, B)]));
    faults.extend([ChildNever, ChildTwice, BothSidesOne, OtherChild, SideBySide]);
    faults.push(TooDeep);
    faults
}

/// All faults, repeated where a number has few of them, so that each number has at
/// least `least`.
pub fn of_each_number(least: usize) -> Vec<Fault> {
    let mut faults = Vec::new();
    for number in 1..=6 {
        let mut causes = all();
        causes.retain(|fault| fault.number() == number);
        let times = least.div_ceil(causes.len());
        faults.extend(causes.repeat(times));
    }
    faults
}

impl Fault {
    /// The number that a card with this fault alone gets.
    pub fn number(self) -> u32 {
        use Fault::*;
        match self {
            UnderSix | OverLargest | MarkByte(_) | MarkSwapped => 1,
            BackNoMultiple | BackZero | BackOverRule | BackOverCard | BackHighFirst => 2,
            NoLifelines | ManyLifelines | NoMessages | ManyMessages => 3,
            UnknownKind | Unused(..) | Undeclared(..) | ChildItself(..) | ChildHigher(..) => 4,
            ChildNever | ChildTwice | BothSidesOne | OtherChild | SideBySide => 5,
            TooDeep => 6,
        }
    }

    /// Puts the fault into a card, at a random node if it concerns a node. Returns
    /// false if the card cannot take it, for example without a node of the kind.
    ///
    /// Of several faults, put in the one with the lowest number last: it is the one
    /// to be given, and no other can then undo it.
    pub fn spoil(self, random: &mut Random, draft: &mut Draft) -> bool {
        use Fault::*;
        match self {
            UnderSix => draft.keep = random.below(TRAILER),
            OverLargest => lengthen(random, draft, LARGEST_CARD + 1..=LARGEST_CARD + 100),
            MarkByte(byte) => draft.mark[byte] = random.other_byte(MARK[byte]),
            MarkSwapped => draft.mark = [MARK[1], MARK[0]],
            BackNoMultiple => spoil_multiple(random, draft),
            BackZero => draft.back = 0,
            BackOverRule => spoil_back_by_rule(random, draft),
            BackOverCard => return spoil_back_by_card(random, draft),
            BackHighFirst => draft.back = draft.right_back().swap_bytes(),
            NoLifelines => draft.lifelines = 0,
            ManyLifelines => draft.lifelines = random.edge(17..=255) as u8,
            NoMessages => draft.messages = 0,
            ManyMessages => draft.messages = random.edge(65..=255) as u8,
            UnknownKind => spoil_kind(random, draft),
            Unused(kind, field) => return spoil_unused(random, draft, kind, field),
            Undeclared(kind, field) => return spoil_declared(random, draft, kind, field),
            ChildItself(kind, field) => return spoil_child(random, draft, kind, field, 0..=0),
            ChildHigher(kind, field) => return spoil_child(random, draft, kind, field, 1..=255),
            ChildNever => return drop_child(random, draft),
            ChildTwice => return add_child(random, draft),
            BothSidesOne => return name_one_child(random, draft),
            OtherChild => return name_other_child(random, draft),
            SideBySide => return put_beside(random, draft),
            TooDeep => return deepen(random, draft),
        }
        true
    }
}

/// Lengthens the note at its front until the card has a size from the range.
fn lengthen(random: &mut Random, draft: &mut Draft, sizes: RangeInclusive<usize>) {
    let size = random.edge(sizes);
    let missing = size.saturating_sub(draft.before() + TRAILER);
    draft.note.splice(..0, random.bytes(missing));
}

/// A back distance that is no multiple of 4, and within the card.
fn spoil_multiple(random: &mut Random, draft: &mut Draft) {
    let off = random.within(1..=3) as u16;
    let more = draft.note.len() >= 3 && random.one_in(2);
    draft.back = if more {
        draft.right_back() + off
    } else {
        draft.right_back() - off
    };
}

/// A back distance above 1,020, in a card that has the bytes for it.
fn spoil_back_by_rule(random: &mut Random, draft: &mut Draft) {
    let back = 4 * random.edge(256..=1022);
    lengthen(random, draft, back + TRAILER..=LARGEST_CARD);
    draft.back = back as u16;
}

/// A back distance that keeps the rule but is larger than the bytes before the
/// trailer. A note that is too long for such a distance is shortened.
fn spoil_back_by_card(random: &mut Random, draft: &mut Draft) -> bool {
    if draft.before() / 4 >= MOST_NODES {
        draft.note.truncate(3);
    }
    let least = draft.before() / 4 + 1;
    if least > MOST_NODES {
        return false;
    }
    draft.back = 4 * random.edge(least..=MOST_NODES) as u16;
    true
}

fn spoil_kind(random: &mut Random, draft: &mut Draft) {
    let number = random.below(draft.nodes.len());
    draft.nodes[number][0] = random.edge(11..=255) as u8;
}

fn spoil_unused(random: &mut Random, draft: &mut Draft, kind: u8, field: usize) -> bool {
    let Some(number) = find(random, draft, kind..=kind, 0) else {
        return false;
    };
    draft.nodes[number][field] = random.edge(1..=255) as u8;
    true
}

/// Sets a lifeline or message to the declared count or above.
fn spoil_declared(random: &mut Random, draft: &mut Draft, kind: u8, field: usize) -> bool {
    let Some(number) = find(random, draft, kind..=kind, 0) else {
        return false;
    };
    let declared = if field == A {
        draft.lifelines
    } else {
        draft.messages
    };
    draft.nodes[number][field] = random.edge(usize::from(declared)..=255) as u8;
    true
}

/// Sets a child's number to the node's own plus a number from the range.
fn spoil_child(
    random: &mut Random,
    draft: &mut Draft,
    kind: u8,
    field: usize,
    above: RangeInclusive<usize>,
) -> bool {
    let Some(number) = find(random, draft, kind..=kind, 0) else {
        return false;
    };
    let child = number + random.edge(above);
    draft.nodes[number][field] = child.min(255) as u8;
    true
}

/// Leaves a child without a parent: a pair becomes a loop of one of its sides,
/// a loop becomes empty.
fn drop_child(random: &mut Random, draft: &mut Draft) -> bool {
    let Some(number) = find(random, draft, PARENTS, 0) else {
        return false;
    };
    let kept = random.pick(children(&draft.nodes[number]));
    draft.nodes[number] = match draft.nodes[number][0] {
        3..=6 => [random.within(7..=10) as u8, kept, 0, 0],
        _ => [0; 4],
    };
    true
}

/// Gives a second parent to a node: an action or empty becomes a loop of it, or
/// a loop becomes a pair with it on one side.
fn add_child(random: &mut Random, draft: &mut Draft) -> bool {
    let kinds = random.pick(&[(0, 2), (7, 10)]);
    let Some(number) = find(random, draft, kinds.0..=kinds.1, 1) else {
        return false;
    };
    let child = random.below(number) as u8;
    let [kind, body, ..] = draft.nodes[number];
    draft.nodes[number] = match kind {
        0..=2 => [random.within(7..=10) as u8, child, 0, 0],
        _ => {
            let sides = random.pick(&[[body, child], [child, body]]);
            [random.within(3..=6) as u8, sides[0], sides[1], 0]
        }
    };
    true
}

/// Makes both sides of a pair the same child.
fn name_one_child(random: &mut Random, draft: &mut Draft) -> bool {
    let Some(number) = find(random, draft, PAIRS, 0) else {
        return false;
    };
    let [kind, left, right, c] = draft.nodes[number];
    let child = random.pick(&[left, right]);
    draft.nodes[number] = [kind, child, child, c];
    true
}

/// Makes a parent name another lower node in place of its own child.
fn name_other_child(random: &mut Random, draft: &mut Draft) -> bool {
    let Some(number) = find(random, draft, PARENTS, 2) else {
        return false;
    };
    let field = random.within(1..=children(&draft.nodes[number]).len());
    let child = usize::from(draft.nodes[number][field]);
    let other = (child + random.within(1..=number - 1)) % number;
    draft.nodes[number][field] = other as u8;
    true
}

/// Puts a second sound tree behind the first, whose root is then no node's child.
fn put_beside(random: &mut Random, draft: &mut Draft) -> bool {
    let first = draft.nodes.len();
    if first >= MOST_NODES {
        return false;
    }
    let size = random.edge(1..=MOST_NODES - first);
    let second = sound::nodes(random, size, LARGEST_DEPTH, draft.lifelines, draft.messages);
    put_behind(&mut draft.nodes, second);
    draft.back = draft.right_back();
    fits(draft)
}

/// Puts loops and pairs on top of the root until the depth is over 16.
fn deepen(random: &mut Random, draft: &mut Draft) -> bool {
    let wanted = random.edge(LARGEST_DEPTH + 1..=LARGEST_DEPTH + 20);
    for _ in draft.depth()..wanted {
        // Beyond 255 nodes these numbers wrap; such a card does not fit.
        let root = (draft.nodes.len() - 1) as u8;
        let leaf = root.wrapping_add(1);
        if random.one_in(2) {
            draft.nodes.push([random.within(7..=10) as u8, root, 0, 0]);
        } else {
            let sides = random.pick(&[[root, leaf], [leaf, root]]);
            draft.nodes.push([random.within(0..=2) as u8, 0, 0, 0]);
            draft
                .nodes
                .push([random.within(3..=6) as u8, sides[0], sides[1], 0]);
        }
    }
    draft.back = draft.right_back();
    fits(draft)
}

/// Whether there are at most 255 nodes and the card is not too long.
fn fits(draft: &Draft) -> bool {
    draft.nodes.len() <= MOST_NODES && draft.before() + TRAILER <= LARGEST_CARD
}

/// A random node of one of these kinds, with at least this number.
fn find(
    random: &mut Random,
    draft: &Draft,
    kinds: RangeInclusive<u8>,
    least: usize,
) -> Option<usize> {
    let fitting: Vec<usize> = (least..draft.nodes.len())
        .filter(|&number| kinds.contains(&draft.nodes[number][0]))
        .collect();
    if fitting.is_empty() {
        None
    } else {
        Some(random.pick(&fitting))
    }
}
