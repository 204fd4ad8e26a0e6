//! A chart as a tree: what a sound card says, without its bytes.

use std::collections::BTreeSet;
use std::rc::Rc;

/// A chart, or a part of one. A part may stand in several charts at once: the
/// follow-up of a chart keeps the parts that stay as they are.
#[derive(Debug, Clone, PartialEq, Eq)]
pub enum Chart {
    Empty,
    Action(Action),
    Pair(Pair, Rc<Chart>, Rc<Chart>),
    Loop(Loop, Rc<Chart>),
}

/// One lifeline emitting or receiving one message.
#[derive(Debug, Clone, Copy, PartialEq, Eq, PartialOrd, Ord)]
pub struct Action {
    pub direction: Direction,
    pub lifeline: u8,
    pub message: u8,
}

#[derive(Debug, Clone, Copy, PartialEq, Eq, PartialOrd, Ord)]
pub enum Direction {
    Emission,
    Reception,
}

/// How many lifelines and messages a card declares; both are numbered from 0.
#[derive(Debug, Clone, Copy, PartialEq, Eq)]
pub struct Declared {
    pub lifelines: u8,
    pub messages: u8,
}

impl Declared {
    /// Whether the action's lifeline and message are declared.
    pub fn covers(self, action: &Action) -> bool {
        action.lifeline < self.lifelines && action.message < self.messages
    }
}

/// How a left and a right part are composed.
#[derive(Debug, Clone, Copy, PartialEq, Eq)]
pub enum Pair {
    Strict,
    Seq,
    Par,
    Alt,
}

/// How the rounds of a body are composed.
#[derive(Debug, Clone, Copy, PartialEq, Eq)]
pub enum Loop {
    Strict,
    Head,
    Weak,
    Parallel,
}

impl Chart {
    /// A new pair of two parts.
    pub fn pair(kind: Pair, left: Rc<Chart>, right: Rc<Chart>) -> Rc<Chart> {
        Rc::new(Chart::Pair(kind, left, right))
    }

    /// How many nodes the chart has.
    pub fn nodes(&self) -> usize {
        match self {
            Chart::Empty | Chart::Action(_) => 1,
            Chart::Pair(_, left, right) => 1 + left.nodes() + right.nodes(),
            Chart::Loop(_, body) => 1 + body.nodes(),
        }
    }

    /// The longest way down: "Depth, counting the root as 1".
    pub fn depth(&self) -> usize {
        match self {
            Chart::Empty | Chart::Action(_) => 1,
            Chart::Pair(_, left, right) => 1 + left.depth().max(right.depth()),
            Chart::Loop(_, body) => 1 + body.depth(),
        }
    }

    /// The "different lifelines that act in it".
    pub fn lifelines(&self) -> BTreeSet<u8> {
        let mut acting = BTreeSet::new();
        self.gather_lifelines(&mut acting);
        acting
    }

    fn gather_lifelines(&self, acting: &mut BTreeSet<u8>) {
        match self {
            Chart::Empty => {}
            Chart::Action(action) => {
                acting.insert(action.lifeline);
            }
            Chart::Pair(_, left, right) => {
                left.gather_lifelines(acting);
                right.gather_lifelines(acting);
            }
            Chart::Loop(_, body) => body.gather_lifelines(acting),
        }
    }
}
