//! The nodes of charts put together by hand: left part before right part before
//! parent.

use crate::draft::{Node, children};
use crate::random::Random;

/// The kinds of pairs and loops.
pub const STRICT: u8 = 3;
pub const SEQ: u8 = 4;
pub const PAR: u8 = 5;
pub const ALT: u8 = 6;
pub const STRICT_LOOP: u8 = 7;
pub const HEAD_LOOP: u8 = 8;
pub const WEAK_LOOP: u8 = 9;
pub const PARALLEL_LOOP: u8 = 10;
pub const PAIRS: [u8; 4] = [STRICT, SEQ, PAR, ALT];
pub const LOOPS: [u8; 4] = [STRICT_LOOP, HEAD_LOOP, WEAK_LOOP, PARALLEL_LOOP];

pub fn empty() -> Vec<Node> {
    vec![[0; 4]]
}

pub fn emission(lifeline: u8, message: u8) -> Vec<Node> {
    vec![[1, lifeline, message, 0]]
}

pub fn reception(lifeline: u8, message: u8) -> Vec<Node> {
    vec![[2, lifeline, message, 0]]
}

pub fn pair(kind: u8, left: Vec<Node>, right: Vec<Node>) -> Vec<Node> {
    let left_root = root(&left);
    let mut nodes = left;
    put_behind(&mut nodes, right);
    let right_root = root(&nodes);
    nodes.push([kind, left_root, right_root, 0]);
    nodes
}

pub fn looped(kind: u8, body: Vec<Node>) -> Vec<Node> {
    let mut nodes = body;
    nodes.push([kind, root(&nodes), 0, 0]);
    nodes
}

/// The document's S: strict(0!0, 1?0).
pub fn s() -> Vec<Node> {
    pair(STRICT, emission(0, 0), reception(1, 0))
}

/// Pairs of one kind over all the parts, at least one, divided as evenly as possible.
pub fn pairs(kind: u8, parts: &[Vec<Node>]) -> Vec<Node> {
    match parts {
        [part] => part.clone(),
        _ => {
            let (left, right) = parts.split_at(parts.len() / 2);
            pair(kind, pairs(kind, left), pairs(kind, right))
        }
    }
}

/// Puts a second tree behind the nodes, with its children's numbers raised to fit.
pub fn put_behind(nodes: &mut Vec<Node>, second: Vec<Node>) {
    let first = nodes.len() as u8;
    for mut node in second {
        rename_children(&mut node, |child| child + first);
        nodes.push(node);
    }
}

/// The same tree in any order of nodes that keeps children lower than their
/// parents: the highest number left goes to a node whose parent already has one.
pub fn reordered(random: &mut Random, nodes: &[Node]) -> Vec<Node> {
    let mut moved = nodes.to_vec();
    let mut numbers = vec![0; nodes.len()];
    let mut waiting = vec![root(nodes)];
    for number in (0..nodes.len()).rev() {
        let next = waiting.swap_remove(random.below(waiting.len()));
        let node = nodes[usize::from(next)];
        waiting.extend(children(&node));
        numbers[usize::from(next)] = number as u8;
        moved[number] = node;
    }
    for node in &mut moved {
        rename_children(node, |child| numbers[usize::from(child)]);
    }
    moved
}

/// Gives the children of a node other numbers.
fn rename_children(node: &mut Node, number: impl Fn(u8) -> u8) {
    let named = children(node).len();
    for child in &mut node[1..=named] {
        *child = number(*child);
    }
}

/// "the last is the root".
fn root(nodes: &[Node]) -> u8 {
    (nodes.len() - 1) as u8
}
