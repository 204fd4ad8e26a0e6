//! Sound cards: trees of every shape within the limits, in any order of nodes
//! that keeps children lower than their parents.

use crate::draft::{Draft, LARGEST_CARD, LARGEST_DEPTH, MARK, MOST_NODES, Node, TRAILER};
use crate::random::Random;

/// What shape a tree gets.
#[derive(Clone, Copy)]
struct Style {
    order: Order,
    split: Split,
    /// One in this many inner nodes is a loop, the others are pairs.
    loops: usize,
}

/// Which of the waiting parts gets the next lower number.
#[derive(Clone, Copy)]
enum Order {
    /// The latest: left part before right part before parent.
    Last,
    /// The oldest: level by level.
    First,
    Any,
}

/// How the nodes below a pair are shared out between its sides.
#[derive(Clone, Copy)]
enum Split {
    Halves,
    /// As unevenly as the depth allows: such trees are deep.
    Comb,
    Any,
}

/// A part of a tree that waits for its number.
struct Waiting {
    /// The parent's number and the field that is to name this part.
    parent: Option<(usize, usize)>,
    size: usize,
    /// How deep it may be.
    depth: usize,
}

/// A sound card of any shape, with a note.
pub fn any(random: &mut Random) -> Draft {
    let most = random.pick(&[8, 8, 60, MOST_NODES]);
    let size = random.within(1..=most);
    with_note(random, size)
}

/// A sound card of `size` nodes, with a note.
pub fn with_note(random: &mut Random, size: usize) -> Draft {
    let mut draft = sized(random, size);
    draft.note = note(random, LARGEST_CARD - TRAILER - draft.before());
    draft
}

/// A sound card of `size` nodes, without a note.
pub fn sized(random: &mut Random, size: usize) -> Draft {
    let lifelines = random.within(1..=16) as u8;
    let messages = random.within(1..=64) as u8;
    declaring(random, size, lifelines, messages)
}

/// A sound card of `size` nodes that declares these numbers of lifelines and
/// messages, without a note.
pub fn declaring(random: &mut Random, size: usize, lifelines: u8, messages: u8) -> Draft {
    let depth = random.within(least_depth(size)..=LARGEST_DEPTH);
    let nodes = nodes(random, size, depth, lifelines, messages);
    Draft::new(nodes, lifelines, messages)
}

/// The nodes of a tree of `size` nodes, at most `depth` deep, with its actions.
pub fn nodes(
    random: &mut Random,
    size: usize,
    depth: usize,
    lifelines: u8,
    messages: u8,
) -> Vec<Node> {
    let mut nodes = tree(random, size, depth);
    put_actions(random, &mut nodes, lifelines, messages);
    nodes
}

/// The most nodes that a tree of this depth has.
fn most_nodes(depth: usize) -> usize {
    (1 << depth.min(LARGEST_DEPTH)) - 1
}

/// The least depth of a tree of `size` nodes.
fn least_depth(size: usize) -> usize {
    (1..LARGEST_DEPTH)
        .find(|&depth| most_nodes(depth) >= size)
        .unwrap_or(LARGEST_DEPTH)
}

/// A random tree, all its leaves empty. Numbers are given from the root, which has
/// the highest, downwards; a part can be next only once its parent has its number.
fn tree(random: &mut Random, size: usize, depth: usize) -> Vec<Node> {
    let style = Style {
        order: random.pick(&[Order::Last, Order::First, Order::Any, Order::Any]),
        split: random.pick(&[Split::Halves, Split::Comb, Split::Any, Split::Any]),
        loops: random.pick(&[2, 4, 16]),
    };
    let mut nodes = vec![[0; 4]; size];
    let mut waiting = vec![Waiting {
        parent: None,
        size,
        depth,
    }];
    for number in (0..size).rev() {
        let part = next_part(random, style.order, &mut waiting);
        if let Some((parent, field)) = part.parent {
            nodes[parent][field] = number as u8;
        }
        let sizes = share_out(random, style, part.size - 1, most_nodes(part.depth - 1));
        nodes[number][0] = match sizes.len() {
            0 => 0,
            1 => random.within(7..=10) as u8,
            _ => random.within(3..=6) as u8,
        };
        for (child, size) in sizes.into_iter().enumerate() {
            let parent = Some((number, child + 1));
            waiting.push(Waiting {
                parent,
                size,
                depth: part.depth - 1,
            });
        }
    }
    nodes
}

/// Takes the part that gets the next lower number.
fn next_part(random: &mut Random, order: Order, waiting: &mut Vec<Waiting>) -> Waiting {
    let place = match order {
        Order::Last => waiting.len() - 1,
        Order::First => 0,
        Order::Any => random.below(waiting.len()),
    };
    waiting.remove(place)
}

/// Shares out the nodes below one node: none for a leaf, all of them for a loop,
/// two sizes for a pair; each child takes at most `most`.
fn share_out(random: &mut Random, style: Style, below: usize, most: usize) -> Vec<usize> {
    if below == 0 {
        return Vec::new();
    }
    if below == 1 || (below <= most && random.one_in(style.loops)) {
        return vec![below];
    }
    let least = below.saturating_sub(most).max(1);
    let largest = below - least;
    let left = match style.split {
        Split::Halves => below / 2,
        Split::Comb => random.pick(&[least, largest]),
        Split::Any => random.within(least..=largest),
    };
    vec![left, below - left]
}

/// Turns leaves into actions, on all or on only some of the declared lifelines, so
/// that the number that act may differ from the number declared.
fn put_actions(random: &mut Random, nodes: &mut [Node], lifelines: u8, messages: u8) {
    let empties = random.pick(&[1, 2, 8, 1000]);
    let first = random.below(usize::from(lifelines));
    let acting = random.within(1..=usize::from(lifelines));
    for node in nodes.iter_mut().filter(|node| node[0] == 0) {
        if random.one_in(empties) {
            continue;
        }
        let lifeline = (first + random.below(acting)) % usize::from(lifelines);
        let message = random.below(usize::from(messages));
        *node = [random.within(1..=2) as u8, lifeline as u8, message as u8, 0];
    }
}

/// A note of any length up to `most`.
pub fn note(random: &mut Random, most: usize) -> Vec<u8> {
    let length = match random.below(16) {
        0..=3 => 0,
        4..=11 => random.within(0..=most.min(40)),
        12..=14 => random.within(0..=most),
        _ => most,
    };
    note_of(random, length)
}

/// A note of this length: any bytes, or bytes that look like nodes or trailers
/// and so might mislead a check that looks for them from the wrong end.
pub fn note_of(random: &mut Random, length: usize) -> Vec<u8> {
    match random.below(4) {
        0 => vec![0; length],
        1 => repeated(&[random.within(0..=10) as u8, 0, 0, 0], length),
        2 => repeated(
            &[4 * random.within(1..=63) as u8, 0, 2, 3, MARK[0], MARK[1]],
            length,
        ),
        _ => random.bytes(length),
    }
}

/// The pattern again and again, so that it ends where the note ends.
fn repeated(pattern: &[u8], length: usize) -> Vec<u8> {
    let times = length / pattern.len() + 1;
    let mut bytes = pattern.repeat(times);
    bytes.split_off(bytes.len() - length)
}
