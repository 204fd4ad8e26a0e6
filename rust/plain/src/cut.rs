//! Cutting a device out of a chart: what remains of the chart goes on a new card.

use crate::card::{self, Card, MARK};
use crate::chart::{Action, Chart, Declared, Direction, Loop, Pair};
use crate::prune::prune;
use crate::refusal::{Refusal, refuse};

/// A node record: "kind, a, b, c".
type Record = [u8; 4];

/// What cutting a device out of a chart gives.
#[derive(Debug, PartialEq, Eq, Clone, Copy)]
pub struct CutAnswer {
    pub number: u32,
    pub place: u32,
    pub length: u32,
}

/// Cuts a device out of a card's chart and writes the card of what remains to
/// the output, whose "bytes beyond it stay". "A refused cut writes nothing".
pub fn cut(card: &[u8], lifeline: u32, out: &mut [u8]) -> CutAnswer {
    match remaining(card, lifeline, out.len()) {
        Ok(result) => {
            out[..result.len()].copy_from_slice(&result);
            CutAnswer {
                number: 0,
                place: 0,
                length: result.len() as u32,
            }
        }
        Err(Refusal { number, place }) => CutAnswer {
            number,
            place,
            length: 0,
        },
    }
}

/// The card of what remains, if it is no longer than the output. "For a cut: 1
/// to 6, 11, 12, 13."
fn remaining(card: &[u8], lifeline: u32, output: usize) -> Result<Vec<u8>, Refusal> {
    let Card {
        declared, chart, ..
    } = card::read(card)?;
    // 11: "lifeline not declared".
    if lifeline >= u32::from(declared.lifelines) {
        return refuse(11, 0);
    }
    // 12: "no log of the chart avoids the lifeline", so the chart does not evade it.
    let Some(pruned) = prune(&chart, lifeline as u8) else {
        return refuse(12, 0);
    };
    let result = write(&pruned, declared);
    // 13: "output shorter than the result".
    if output < result.len() {
        return refuse(13, 0);
    }
    Ok(result)
}

/// Writes "a card without a note, the same counts".
fn write(chart: &Chart, declared: Declared) -> Vec<u8> {
    let mut records = Vec::new();
    write_part(chart, &mut records);
    let nodes = records.as_flattened();
    // "the count of bytes from the first node to the trailer", "low byte first".
    let back = (nodes.len() as u16).to_le_bytes();
    let counts = [declared.lifelines, declared.messages];
    [nodes, &back, &counts, &MARK].concat()
}

/// Writes the nodes of a part, "left part before right part before parent", and
/// returns the number of its root.
fn write_part(part: &Chart, records: &mut Vec<Record>) -> u8 {
    let record = match part {
        Chart::Empty => [0, 0, 0, 0],
        Chart::Action(action) => action_record(action),
        Chart::Pair(kind, left, right) => {
            let left = write_part(left, records);
            let right = write_part(right, records);
            [pair_kind(*kind), left, right, 0]
        }
        Chart::Loop(kind, body) => [loop_kind(*kind), write_part(body, records), 0, 0],
    };
    records.push(record);
    // Pruning adds no nodes, so there are at most 255.
    (records.len() - 1) as u8
}

/// "Kinds 1, 2: emission, reception; a is the lifeline, b the message."
fn action_record(action: &Action) -> Record {
    let kind = match action.direction {
        Direction::Emission => 1,
        Direction::Reception => 2,
    };
    [kind, action.lifeline, action.message, 0]
}

/// "Kinds 3, 4, 5, 6: strict, weak sequence (seq), parallel (par), choice (alt)".
fn pair_kind(kind: Pair) -> u8 {
    match kind {
        Pair::Strict => 3,
        Pair::Seq => 4,
        Pair::Par => 5,
        Pair::Alt => 6,
    }
}

/// "Kinds 7, 8, 9, 10: strict, head, weak, parallel loop".
fn loop_kind(kind: Loop) -> u8 {
    match kind {
        Loop::Strict => 7,
        Loop::Head => 8,
        Loop::Weak => 9,
        Loop::Parallel => 10,
    }
}
