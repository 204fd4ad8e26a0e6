//! Compares judgments: all four numbers of the answer, and every number of the
//! room afterwards.

use generate::random::Random;
use plain::Judged;

use crate::families::FAMILIES;
use crate::question::Question;
use crate::run::{self, Tally, first_difference};

/// How many numbers stand before and behind each lent room. They must stay as they
/// are.
const MARGIN: usize = 4;

type Judge = fn(&[u8], &[u8], u32, &mut [u32]) -> Judged;

/// What a program answers, and the numbers of the room and its margins afterwards.
#[derive(PartialEq, Eq)]
struct Answer {
    judged: Judged,
    room: Vec<u32>,
}

/// Compares at least `judgments` judgments.
pub fn run(random: &mut Random, judgments: usize) -> Result<(), String> {
    let mut tally = Tally::new("judgments", (1..=10).chain(20..=22));
    run::run(random, &FAMILIES, judgments, compare_judgment, &mut tally)
}

/// Asks both programs with garbage in the room and returns the number they agree on.
/// It must also be as foreseen: both might be wrong in the same way.
fn compare_judgment(random: &mut Random, question: &Question) -> Result<u32, String> {
    let found = random.words(question.room + 2 * MARGIN);
    let plain = ask(plain::judge, question, &found);
    let proved = ask(proved::judge, question, &found);
    let number = plain.judged.number;
    let foreseen = question.allows(plain.judged);
    if plain == proved && foreseen && plain.room == room_after(question, found, number) {
        return Ok(number);
    }
    Err(report(question, &plain, &proved))
}

/// The question and both answers, for whoever looks into a difference.
fn report(question: &Question, plain: &Answer, proved: &Answer) -> String {
    let mut lines = vec!["a difference".to_string()];
    lines.extend(question.describe());
    for (name, Answer { judged, room }) in [("plain", plain), ("proved", proved)] {
        let zeros = room.iter().filter(|&&number| number == 0).count();
        lines.push(format!("{name}: {judged:?}, {zeros} zeros in the room"));
    }
    if let Some(number) = first_difference(&plain.room, &proved.room, MARGIN) {
        lines.push(format!("the rooms differ first at number {number}"));
    }
    lines.join("\n")
}

/// Asks one program, with the garbage `found` in the room.
fn ask(judge: Judge, question: &Question, found: &[u32]) -> Answer {
    let mut room = found.to_vec();
    let lent = &mut room[MARGIN..MARGIN + question.room];
    let judged = judge(&question.card, &question.log, question.allowance, lent);
    Answer { judged, room }
}

/// What the room must be afterwards: with 1 to 8 as found, otherwise with its usable
/// part zeroed.
fn room_after(question: &Question, found: Vec<u32>, number: u32) -> Vec<u32> {
    let mut room = found;
    if number > 8 {
        room[MARGIN..MARGIN + question.usable()].fill(0);
    }
    room
}
