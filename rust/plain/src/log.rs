//! The log: "Two bytes an action: lifeline times 2, plus 0 for emission or 1
//! for reception; then the message."

use crate::chart::{Action, Declared, Direction};
use crate::refusal::{Refusal, refuse};

/// "At most 256 bytes (128 actions); empty is allowed."
const LARGEST_LOG: usize = 256;

/// Reads a log for a card that declares these lifelines and messages, or says why
/// the log is refused.
pub fn read(log: &[u8], declared: Declared) -> Result<Vec<Action>, Refusal> {
    // 7: "log of odd length or over 256 bytes".
    let (pairs, odd) = log.as_chunks::<2>();
    if !odd.is_empty() || log.len() > LARGEST_LOG {
        return refuse(7, 0);
    }
    let actions: Vec<Action> = pairs.iter().map(read_action).collect();
    // 8: "log action with a lifeline or message not declared"; its place is the
    // "lowest such action, from 0".
    match actions.iter().position(|action| !declared.covers(action)) {
        Some(lowest) => refuse(8, lowest),
        None => Ok(actions),
    }
}

fn read_action(&[who, message]: &[u8; 2]) -> Action {
    let direction = match who % 2 {
        0 => Direction::Emission,
        _ => Direction::Reception,
    };
    Action {
        direction,
        lifeline: who / 2,
        message,
    }
}
