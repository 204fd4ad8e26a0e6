//! Executing one action: its occurrences in a chart and their follow-ups.

use std::rc::Rc;

use crate::chart::{Action, Chart, Loop, Pair};
use crate::prune::{prune, prune_places, terminates};

/// One occurrence of an action that can be executed.
#[derive(Debug, Clone, PartialEq, Eq)]
pub struct Occurrence {
    /// The way down to it from the root.
    way: Vec<Turn>,
    /// The lifeline it acts on.
    lifeline: u8,
    /// How many places its follow-up takes.
    pub places: usize,
}

#[derive(Debug, Clone, Copy, PartialEq, Eq)]
enum Turn {
    Left,
    Right,
    Body,
}

/// The occurrences of an action that can be executed, "from left to right".
pub fn occurrences(chart: &Chart, action: Action) -> Vec<Occurrence> {
    let mut finder = Finder {
        action,
        way: Vec::new(),
        found: Vec::new(),
    };
    finder.find(chart, 0);
    finder.found
}

/// Goes through a chart from left to right.
struct Finder {
    action: Action,
    /// The way down to the part that is being looked at.
    way: Vec<Turn>,
    found: Vec<Occurrence>,
}

impl Finder {
    /// Finds the occurrences in a part. An occurrence in it takes `places` for
    /// what stands above the part: "each pair written anew", and each pruning.
    fn find(&mut self, part: &Chart, places: usize) {
        match part {
            Chart::Empty => {}
            Chart::Action(action) if *action == self.action => self.found.push(Occurrence {
                way: self.way.clone(),
                lifeline: action.lifeline,
                // "the empty an action turns into".
                places: places + 1,
            }),
            Chart::Action(_) => {}
            Chart::Pair(kind, left, right) => {
                self.descend(Turn::Left, left, places + left_places(*kind));
                if let Some(more) = right_places(*kind, left, self.action.lifeline) {
                    self.descend(Turn::Right, right, places + more);
                }
            }
            Chart::Loop(kind, body) => {
                let more = loop_places(*kind, body, self.action.lifeline);
                self.descend(Turn::Body, body, places + more);
            }
        }
    }

    fn descend(&mut self, turn: Turn, part: &Chart, places: usize) {
        self.way.push(turn);
        self.find(part, places);
        self.way.pop();
    }
}

/// The places that executing in the left side takes besides the side's follow-up:
/// one for the pair written anew; of an alt "the chosen side's follow-up alone"
/// remains.
fn left_places(kind: Pair) -> usize {
    match kind {
        Pair::Strict | Pair::Seq | Pair::Par => 1,
        Pair::Alt => 0,
    }
}

/// The places that executing in the right side takes besides the side's follow-up,
/// or `None` where the left side does not let it act.
fn right_places(kind: Pair, left: &Chart, lifeline: u8) -> Option<usize> {
    match kind {
        // "only if the left terminates, and the right's follow-up alone remains".
        Pair::Strict => terminates(left).then_some(0),
        // "only if the left evades d, and the left is pruned by d".
        Pair::Seq => prune_places(left, lifeline).map(|pruned| 1 + pruned),
        Pair::Par => Some(1),
        Pair::Alt => Some(0),
    }
}

/// The places that executing in the body takes besides the body's follow-up: one
/// for a pair; for a weak loop, those of two pairs and of the pruned loop, which
/// takes one place itself.
fn loop_places(kind: Loop, body: &Chart, lifeline: u8) -> usize {
    match kind {
        Loop::Strict | Loop::Head | Loop::Parallel => 1,
        Loop::Weak => 2 + 1 + prune_places(body, lifeline).unwrap_or(0),
    }
}

/// Makes the follow-up of one of the chart's own occurrences.
pub fn follow_up(chart: &Rc<Chart>, occurrence: &Occurrence) -> Rc<Chart> {
    follow(chart, &occurrence.way, occurrence.lifeline)
}

fn follow(part: &Rc<Chart>, way: &[Turn], lifeline: u8) -> Rc<Chart> {
    match (&**part, way) {
        (Chart::Pair(kind, left, right), [Turn::Left, way @ ..]) => {
            follow_left(*kind, follow(left, way, lifeline), right)
        }
        (Chart::Pair(kind, left, right), [Turn::Right, way @ ..]) => {
            follow_right(*kind, left, follow(right, way, lifeline), lifeline)
        }
        (Chart::Loop(kind, body), [Turn::Body, way @ ..]) => {
            follow_body(*kind, part, follow(body, way, lifeline), lifeline)
        }
        // The way ends here: "the action becomes empty".
        _ => Rc::new(Chart::Empty),
    }
}

/// "Left in strict, seq or par: the side is replaced." "Alt: the chosen side's
/// follow-up alone."
fn follow_left(kind: Pair, followed: Rc<Chart>, right: &Rc<Chart>) -> Rc<Chart> {
    match kind {
        Pair::Strict | Pair::Seq | Pair::Par => Chart::pair(kind, followed, right.clone()),
        Pair::Alt => followed,
    }
}

/// As `right_places` says. The left side of a seq evades the lifeline: that was
/// checked when the occurrence was found.
fn follow_right(kind: Pair, left: &Rc<Chart>, followed: Rc<Chart>, lifeline: u8) -> Rc<Chart> {
    match kind {
        Pair::Strict | Pair::Alt => followed,
        Pair::Seq => {
            let pruned = prune(left, lifeline).expect("the left side evades the lifeline");
            Chart::pair(kind, pruned, followed)
        }
        Pair::Par => Chart::pair(kind, left.clone(), followed),
    }
}

/// "strict loop gives strict(x, loop); head loop seq(x, loop); parallel loop
/// par(x, loop); weak loop seq(loop pruned by d, seq(x, loop))".
fn follow_body(kind: Loop, whole: &Rc<Chart>, followed: Rc<Chart>, lifeline: u8) -> Rc<Chart> {
    let rest = whole.clone();
    match kind {
        Loop::Strict => Chart::pair(Pair::Strict, followed, rest),
        Loop::Head => Chart::pair(Pair::Seq, followed, rest),
        Loop::Parallel => Chart::pair(Pair::Par, followed, rest),
        Loop::Weak => {
            let front = prune(whole, lifeline).expect("a loop evades every lifeline");
            Chart::pair(Pair::Seq, front, Chart::pair(Pair::Seq, followed, rest))
        }
    }
}
