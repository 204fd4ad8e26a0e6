//! Charts made together with what a cut leaves of them, part by part.

use crate::charts::{ALT, LOOPS, PAR, SEQ, STRICT, empty, looped, pair};
use crate::draft::{LARGEST_DEPTH, Node};
use crate::random::Random;

/// The device that is cut out, and how many lifelines and messages are declared.
#[derive(Clone, Copy)]
pub struct Device {
    pub lifeline: u8,
    pub lifelines: u8,
    pub messages: u8,
}

/// A chart, and what a cut leaves of it: nothing if the device acts in all its
/// logs. The nodes of both have left part before right part before parent.
pub struct Made {
    pub whole: Vec<Node>,
    pub rest: Option<Vec<Node>>,
}

/// A chart of any depth with at most 83 nodes.
pub fn chart(random: &mut Random, device: Device) -> Made {
    let depth = random.within(1..=6);
    let mut made = bushy(random, device, depth);
    let most = random.pick(&[0, 0, LARGEST_DEPTH - depth]);
    for _ in 0..random.within(0..=most) {
        made = layered(random, device, made);
    }
    made
}

/// A chart at most `depth` deep.
fn bushy(random: &mut Random, device: Device, depth: usize) -> Made {
    match random.below(8) {
        _ if depth == 1 => leaf(random, device),
        0 => leaf(random, device),
        1 => {
            let body = bushy(random, device, depth - 1);
            in_loop(random, body)
        }
        _ => {
            let left = bushy(random, device, depth - 1);
            let right = bushy(random, device, depth - 1);
            in_pair(random, left, right)
        }
    }
}

/// A loop of the chart, or a pair of it and a leaf.
fn layered(random: &mut Random, device: Device, made: Made) -> Made {
    let leaf = leaf(random, device);
    match random.below(3) {
        0 => in_loop(random, made),
        1 => in_pair(random, made, leaf),
        _ => in_pair(random, leaf, made),
    }
}

/// Empty, or an action of any device.
fn leaf(random: &mut Random, device: Device) -> Made {
    let message = random.below(usize::from(device.messages)) as u8;
    let lifeline = random.below(usize::from(device.lifelines)) as u8;
    let whole = match random.below(5) {
        0 => empty(),
        kind => vec![[kind as u8 % 2 + 1, lifeline, message, 0]],
    };
    let evades = whole == empty() || lifeline != device.lifeline;
    let rest = evades.then(|| whole.clone());
    Made { whole, rest }
}

/// An alt has the logs of either side, every other pair those dealt to both.
fn in_pair(random: &mut Random, left: Made, right: Made) -> Made {
    let kind = random.pick(&[STRICT, SEQ, PAR, ALT, ALT, ALT]);
    let whole = pair(kind, left.whole, right.whole);
    let rest = match (left.rest, right.rest) {
        (Some(left), Some(right)) => Some(pair(kind, left, right)),
        (left, right) if kind == ALT => left.or(right),
        _ => None,
    };
    Made { whole, rest }
}

/// A loop has the log of no round, whatever its body is.
fn in_loop(random: &mut Random, body: Made) -> Made {
    let kind = random.pick(&LOOPS);
    let whole = looped(kind, body.whole);
    let rest = Some(match body.rest {
        Some(body) => looped(kind, body),
        None => empty(),
    });
    Made { whole, rest }
}
