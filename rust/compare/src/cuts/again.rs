//! What must hold for every card that a cut writes, checked with the proved program.

use generate::draft::{Draft, LARGEST_CARD};
use generate::logs::{Entry, acting, acts};

use super::question::Question;
use crate::question::MOST_USABLE;

/// Steps for each log; a longer search ends in 9.
const ALLOWANCE: u32 = 300;

/// Checks the card that was written, cuts it again and judges by it; the error says
/// what does not hold for it.
pub fn check(question: &Question, written: &[u8]) -> Result<(), String> {
    if proved::check(written).number != 0 || proved::note(written) != 0 {
        return Err("the card written is not sound, or has a note".to_string());
    }
    let (before, after) = (Draft::of(&question.card), Draft::of(written));
    if (after.lifelines, after.messages) != (before.lifelines, before.messages) {
        return Err("the card written has other counts".to_string());
    }
    // A lifeline that is not declared is never cut out.
    let device = question.lifeline as u8;
    if acts(&acting(&after.nodes), device) {
        return Err("the device acts in the card written".to_string());
    }
    if !cut_again_the_same(written, question.lifeline) {
        return Err("the card written changes when it is cut again".to_string());
    }
    let wrong = |log: &&Vec<Entry>| !judged_alike(question, written, log);
    match question.logs.iter().find(wrong) {
        Some(log) => Err(format!("the card written judges otherwise: {log:?}")),
        None => Ok(()),
    }
}

fn cut_again_the_same(written: &[u8], lifeline: u32) -> bool {
    let mut out = [0; LARGEST_CARD];
    let answer = proved::cut(written, lifeline, &mut out);
    let length = answer.length as usize;
    answer.number == 0 && out.get(..length) == Some(written)
}

/// Whether the verdicts by both cards fit. No log of what remains begins with a log
/// in which the device acts. Of the other logs, what was accepted still is, and what
/// deviated still does. The search in what remains is never the longer one.
fn judged_alike(question: &Question, written: &[u8], log: &[Entry]) -> bool {
    let after = verdict(written, log);
    if acts(log, question.lifeline as u8) {
        return matches!(after, 9 | 10 | 22);
    }
    match verdict(&question.card, log) {
        20 => after == 20,
        21 => matches!(after, 21 | 22),
        22 => after == 22,
        _ => true,
    }
}

fn verdict(card: &[u8], log: &[Entry]) -> u32 {
    proved::judge(card, log.as_flattened(), ALLOWANCE, &mut [0; MOST_USABLE]).number
}
