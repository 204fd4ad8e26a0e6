//! Lifelines that are not declared, and cards of which many are spoiled.

use generate::cards::{self, damage, with_faults};
use generate::random::Random;
use generate::{faults, sound};

use super::asking::{any_declared, any_undeclared, ask, foresee};
use super::question::{Foreseen, Question};
use crate::subjects;

/// A batch of spoiled cards has at least this many for each number. Each card is
/// asked about four times.
const OF_EACH_NUMBER: usize = 10;

/// 11 comes before 12 and 13.
pub fn undeclared_lifelines(random: &mut Random) -> Vec<Question> {
    let mut questions = Vec::new();
    for _ in 0..50 {
        let draft = sound::any(random);
        let lifeline = any_undeclared(random, draft.lifelines.into());
        questions.extend(ask(random, &draft.bytes(), lifeline, &Foreseen::Number(11)));
    }
    questions
}

/// Cards with every fault, so that every number comes up often: 1 to 6 come before
/// 11, 12 and 13.
pub fn spoiled_cards(random: &mut Random) -> Vec<Question> {
    let mut questions = Vec::new();
    for fault in faults::of_each_number(OF_EACH_NUMBER) {
        let card = with_faults(random, &[fault]);
        questions.extend(ask_any(random, &card));
    }
    questions
}

/// Some cards of each family of cards, sound and spoiled.
pub fn all_families(random: &mut Random) -> Vec<Question> {
    let mut questions = Vec::new();
    for family in &cards::FAMILIES {
        let batch = (family.batch)(random);
        for _ in 0..20 {
            let card = &batch[random.below(batch.len())];
            questions.extend(ask_any(random, card));
        }
    }
    questions
}

/// Asks with a lifeline that may be declared, and with one that no card declares.
fn ask_any(random: &mut Random, card: &cards::Card) -> Vec<Question> {
    let bytes = &card.bytes;
    let mut questions = Vec::new();
    for lifeline in [random.below(17) as u32, any_undeclared(random, 16)] {
        let foreseen = match card.expected {
            Some(0) => foresee(bytes, lifeline),
            Some(number) => Foreseen::Number(number),
            None => Foreseen::Nothing,
        };
        questions.extend(ask(random, bytes, lifeline, &foreseen));
    }
    questions
}

/// Cards with one byte changed, some of them still sound.
pub fn damaged_cards(random: &mut Random) -> Vec<Question> {
    let mut questions = Vec::new();
    for _ in 0..50 {
        let draft = subjects::any(random);
        let bytes = draft.bytes();
        let position = random.below(bytes.len());
        let card = damage(random, &bytes, position);
        let lifeline = any_declared(random, &draft);
        questions.extend(ask(random, &card, lifeline, &Foreseen::Nothing));
    }
    questions
}
