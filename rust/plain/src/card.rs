//! The chart card: a free note, node records of 4 bytes, a trailer of 6 bytes.
//!
//! Reading goes through the numbers 1 to 6 of the table in their order, since
//! the table's "Order: 1 to 8 as numbered" decides which fault is given.

use std::rc::Rc;

use crate::chart::{Action, Chart, Declared, Direction, Loop, Pair};
use crate::refusal::{Refusal, refuse};

/// "At most 4,096 bytes".
const LARGEST_CARD: usize = 4096;
/// "node records of 4 bytes".
const RECORD: usize = 4;
/// "a trailer of 6 bytes".
const TRAILER: usize = 6;
/// The back distance is "a multiple of 4 from 4 to 1,020".
const LARGEST_BACK: usize = 1020;
/// The trailer ends with "57 4C hex".
pub(crate) const MARK: [u8; 2] = [0x57, 0x4C];
/// "number of lifelines (1 to 16)".
const MOST_LIFELINES: u8 = 16;
/// "number of messages (1 to 64)".
const MOST_MESSAGES: u8 = 64;
/// "Depth, counting the root as 1, is at most 16."
const LARGEST_DEPTH: usize = 16;

/// What checking a card gives.
#[derive(Debug, PartialEq, Eq, Clone, Copy)]
pub struct Checked {
    pub number: u32,
    pub place: u32,
    pub nodes: u32,
    pub depth: u32,
    pub lifelines: u32,
}

/// What a sound card says.
#[derive(Debug, PartialEq, Eq, Clone)]
pub struct Card<'a> {
    pub note: &'a [u8],
    pub declared: Declared,
    pub chart: Rc<Chart>,
}

/// The trailer, once its own rules hold.
struct Trailer {
    back: usize,
    declared: Declared,
}

/// A node whose own rules hold; children are given by their numbers.
enum Node {
    Empty,
    Action(Action),
    Pair(Pair, usize, usize),
    Loop(Loop, usize),
}

/// Checks a card: "number 0, place 0, its number of nodes, its depth, and the
/// number of different lifelines that act in it", or number and place of the
/// refusal "and zero figures".
pub fn check(card: &[u8]) -> Checked {
    match read(card) {
        Ok(Card { chart, .. }) => Checked {
            number: 0,
            place: 0,
            nodes: chart.nodes() as u32,
            depth: chart.depth() as u32,
            lifelines: chart.lifelines().len() as u32,
        },
        Err(Refusal { number, place }) => Checked {
            number,
            place,
            nodes: 0,
            depth: 0,
            lifelines: 0,
        },
    }
}

/// "The note is handed back as that part of the caller's own bytes; a refused
/// card gives an empty part."
pub fn note(card: &[u8]) -> &[u8] {
    match read(card) {
        Ok(card) => card.note,
        Err(_) => &[],
    }
}

/// Reads a card, or says why it is refused.
pub fn read(card: &[u8]) -> Result<Card<'_>, Refusal> {
    let (before, trailer) = read_trailer(card)?;
    // "The back distance is the count of bytes from the first node to the trailer".
    let (note, records) = before.split_at(before.len() - trailer.back);
    let nodes = read_nodes(records, trailer.declared)?;
    check_children(&nodes)?;
    // Only now are the nodes known to be a tree: "the last is the root".
    let chart = grow(&nodes, nodes.len() - 1);
    // 6: "depth over 16".
    if chart.depth() > LARGEST_DEPTH {
        return refuse(6, 0);
    }
    Ok(Card {
        note,
        declared: trailer.declared,
        chart,
    })
}

/// Splits off the trailer and reads it: numbers 1, 2 and 3.
fn read_trailer(card: &[u8]) -> Result<(&[u8], Trailer), Refusal> {
    // 1: "card under 6 or over 4,096 bytes, or last two bytes wrong".
    if card.len() > LARGEST_CARD {
        return refuse(1, 0);
    }
    let Some((before, trailer)) = card.split_last_chunk::<TRAILER>() else {
        return refuse(1, 0);
    };
    let [low, high, lifelines, messages, mark @ ..] = *trailer;
    if mark != MARK {
        return refuse(1, 0);
    }
    // 2: "back distance out of rule, or larger than the bytes before the trailer".
    // It is "16 bits, low byte first".
    let back = usize::from(u16::from_le_bytes([low, high]));
    let in_rule = back.is_multiple_of(RECORD) && (RECORD..=LARGEST_BACK).contains(&back);
    if !in_rule || back > before.len() {
        return refuse(2, 0);
    }
    // 3: "lifelines or messages out of range".
    if !(1..=MOST_LIFELINES).contains(&lifelines) || !(1..=MOST_MESSAGES).contains(&messages) {
        return refuse(3, 0);
    }
    let declared = Declared {
        lifelines,
        messages,
    };
    Ok((before, Trailer { back, declared }))
}

/// Reads all nodes. "Nodes are numbered from 0", and the first one that breaks
/// a rule is the "lowest such node" of number 4.
fn read_nodes(records: &[u8], declared: Declared) -> Result<Vec<Node>, Refusal> {
    let mut nodes = Vec::new();
    for (number, record) in records.chunks_exact(RECORD).enumerate() {
        match read_node(number, record, declared) {
            Some(node) => nodes.push(node),
            None => return refuse(4, number),
        }
    }
    Ok(nodes)
}

/// Reads one node, "kind, a, b, c"; nothing if it has "an unknown kind, a
/// non-zero unused field, a lifeline or message not declared, or a child not
/// lower than itself".
fn read_node(number: usize, record: &[u8], declared: Declared) -> Option<Node> {
    let [kind, a, b, c] = *record else {
        return None;
    };
    // "Unused fields are zero, and c is never used."
    if c != 0 {
        return None;
    }
    match kind {
        // "Kind 0: empty." Neither a nor b is used.
        0 if a == 0 && b == 0 => Some(Node::Empty),
        // "Kinds 1, 2: emission, reception; a is the lifeline, b the message."
        1 => action(Direction::Emission, a, b, declared),
        2 => action(Direction::Reception, a, b, declared),
        // "Kinds 3, 4, 5, 6: strict, weak sequence (seq), parallel (par), choice
        // (alt); a is the left child's node number, b the right's."
        3 => pair(Pair::Strict, a, b, number),
        4 => pair(Pair::Seq, a, b, number),
        5 => pair(Pair::Par, a, b, number),
        6 => pair(Pair::Alt, a, b, number),
        // "Kinds 7, 8, 9, 10: strict, head, weak, parallel loop; a is the body."
        7 => body(Loop::Strict, a, b, number),
        8 => body(Loop::Head, a, b, number),
        9 => body(Loop::Weak, a, b, number),
        10 => body(Loop::Parallel, a, b, number),
        _ => None,
    }
}

/// An action whose lifeline and message are declared.
fn action(direction: Direction, lifeline: u8, message: u8, declared: Declared) -> Option<Node> {
    let action = Action {
        direction,
        lifeline,
        message,
    };
    declared.covers(&action).then_some(Node::Action(action))
}

/// A pair at a node: "A child's number is lower than its parent's."
fn pair(kind: Pair, left: u8, right: u8, number: usize) -> Option<Node> {
    let (left, right) = (usize::from(left), usize::from(right));
    (left < number && right < number).then_some(Node::Pair(kind, left, right))
}

/// A loop at a node: its child is lower, and b is unused.
fn body(kind: Loop, body: u8, unused: u8, number: usize) -> Option<Node> {
    let body = usize::from(body);
    (body < number && unused == 0).then_some(Node::Loop(kind, body))
}

/// 5: "a node other than the root is a child zero times or more than once".
fn check_children(nodes: &[Node]) -> Result<(), Refusal> {
    let times = count_places(nodes);
    // The root is the last, and no child, since a child is lower than its parent.
    let root = nodes.len() - 1;
    match times[..root].iter().position(|&times| times != 1) {
        Some(lowest) => refuse(5, lowest),
        None => Ok(()),
    }
}

/// How often each node is a child. A pair that names one child on both sides
/// counts twice.
fn count_places(nodes: &[Node]) -> Vec<usize> {
    let mut times = vec![0; nodes.len()];
    for node in nodes {
        match *node {
            Node::Empty | Node::Action(_) => {}
            Node::Pair(_, left, right) => {
                times[left] += 1;
                times[right] += 1;
            }
            Node::Loop(_, body) => times[body] += 1,
        }
    }
    times
}

/// The tree below a node. The recursion ends, since every child's number is lower.
fn grow(nodes: &[Node], number: usize) -> Rc<Chart> {
    Rc::new(match nodes[number] {
        Node::Empty => Chart::Empty,
        Node::Action(action) => Chart::Action(action),
        Node::Pair(kind, left, right) => Chart::Pair(kind, grow(nodes, left), grow(nodes, right)),
        Node::Loop(kind, body) => Chart::Loop(kind, grow(nodes, body)),
    })
}
