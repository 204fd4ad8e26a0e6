//! Compares cuts: all three numbers of the answer, and every byte of the output
//! afterwards.

mod again;
mod asking;
mod families;
mod question;
mod spoiled;

use generate::random::Random;
use plain::CutAnswer;

use crate::run::{self, Tally, first_difference};
use families::FAMILIES;
use question::Question;

/// How many bytes stand before and behind each output. They must stay as they are.
const MARGIN: usize = 16;

type Cut = fn(&[u8], u32, &mut [u8]) -> CutAnswer;

/// What a program answers, and the bytes of the output and its margins afterwards.
#[derive(PartialEq, Eq)]
struct Answer {
    cut: CutAnswer,
    bytes: Vec<u8>,
}

/// Compares at least `cuts` cuts.
pub fn run(random: &mut Random, cuts: usize) -> Result<(), String> {
    let mut tally = Tally::new("cuts", (0..=6).chain(11..=13));
    run::run(random, &FAMILIES, cuts, compare_cut, &mut tally)
}

/// Asks both programs with garbage in the output and returns the number they agree
/// on. It must also be as foreseen: both might be wrong in the same way.
fn compare_cut(random: &mut Random, question: &Question) -> Result<u32, String> {
    let found = random.bytes(question.output + 2 * MARGIN);
    let plain = ask(plain::cut, question, &found);
    let proved = ask(proved::cut, question, &found);
    match check(question, &found, &plain, &proved) {
        Ok(()) => Ok(plain.cut.number),
        Err(what) => Err(report(what, question, &plain, &proved)),
    }
}

/// Asks one program, with the garbage `found` in the output.
fn ask(cut: Cut, question: &Question, found: &[u8]) -> Answer {
    let mut bytes = found.to_vec();
    let out = &mut bytes[MARGIN..MARGIN + question.output];
    let cut = cut(&question.card, question.lifeline, out);
    Answer { cut, bytes }
}

/// The error says what is wrong with the answers.
fn check(question: &Question, found: &[u8], plain: &Answer, proved: &Answer) -> Result<(), String> {
    if plain != proved {
        return Err("a difference".to_string());
    }
    // "Output bytes beyond it stay": all of them after a refusal, which has length 0.
    let Answer { cut, bytes } = plain;
    let end = MARGIN + cut.length as usize;
    if bytes[..MARGIN] != found[..MARGIN] || bytes[end..] != found[end..] {
        return Err("bytes beyond the result have changed".to_string());
    }
    let written = &bytes[MARGIN..end];
    if !question.allows(*cut, written) {
        return Err("not as foreseen".to_string());
    }
    match cut.number {
        0 => again::check(question, written),
        _ => Ok(()),
    }
}

/// The question and both answers, for whoever looks into a difference.
fn report(what: String, question: &Question, plain: &Answer, proved: &Answer) -> String {
    let mut lines = vec![what];
    lines.extend(question.describe());
    for (name, Answer { cut, .. }) in [("plain", plain), ("proved", proved)] {
        lines.push(format!("{name}: {cut:?}"));
    }
    if let Some(position) = first_difference(&plain.bytes, &proved.bytes, MARGIN) {
        lines.push(format!("the outputs differ first at byte {position}"));
    }
    lines.join("\n")
}
