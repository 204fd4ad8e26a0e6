//! Asks about one cut: with an ample output, and with outputs around the length of
//! what is written.

use generate::draft::{Draft, LARGEST_CARD};
use generate::random::Random;

use super::question::{Foreseen, Question};

/// A question without logs.
pub fn question(card: &[u8], lifeline: u32, output: usize, foreseen: &Foreseen) -> Question {
    Question {
        card: card.to_vec(),
        lifeline,
        output,
        foreseen: foreseen.clone(),
        logs: Vec::new(),
    }
}

/// What an output of any length must give, by the plain program's answer to an ample
/// one.
pub fn foresee(card: &[u8], lifeline: u32) -> Foreseen {
    let mut out = [0; LARGEST_CARD];
    let answer = plain::cut(card, lifeline, &mut out);
    match answer.number {
        0 => Foreseen::Card(out[..answer.length as usize].to_vec()),
        number => Foreseen::Number(number),
    }
}

/// Asks with outputs at, just below and just above the length of what is written,
/// and with others.
pub fn ask(random: &mut Random, card: &[u8], lifeline: u32, foreseen: &Foreseen) -> Vec<Question> {
    let mut outputs = vec![any_output(random)];
    match foreseen {
        Foreseen::Card(card) => {
            let length = card.len();
            let shorter = random.below(length);
            let longer = random.within(length + 2..=length + 40);
            outputs.extend([length - 1, length, length + 1, shorter, longer]);
        }
        _ => outputs.push(0),
    }
    let with = |output| question(card, lifeline, output, foreseen);
    outputs.into_iter().map(with).collect()
}

/// Asks about a sound card; the plain program foresees the answers.
pub fn ask_sound(random: &mut Random, draft: &Draft, lifeline: u32) -> Vec<Question> {
    let card = draft.bytes();
    let foreseen = foresee(&card, lifeline);
    ask(random, &card, lifeline, &foreseen)
}

/// An output of no bytes, of few, of many, around the largest card, or of more.
fn any_output(random: &mut Random) -> usize {
    let few = random.within(1..=40);
    let middling = random.within(41..=LARGEST_CARD);
    let around = random.within(LARGEST_CARD - 1..=LARGEST_CARD + 1);
    let more = random.within(LARGEST_CARD + 2..=3 * LARGEST_CARD);
    random.pick(&[0, few, middling, around, more])
}

/// A lifeline that the card declares.
pub fn any_declared(random: &mut Random, draft: &Draft) -> u32 {
    random.below(usize::from(draft.lifelines)) as u32
}

/// A lifeline that this card does not declare, and most often no card can. Some would
/// be declared if only their low bits were looked at.
pub fn any_undeclared(random: &mut Random, declared: u32) -> u32 {
    let low = random.below(declared as usize) as u32;
    let next = random.within(declared as usize..=declared as usize + 3) as u32;
    let high = 1 << random.within(8..=31);
    random.pick(&[
        declared,
        next,
        16,
        17,
        128 + low,
        255,
        256,
        high + low,
        u32::MAX - low,
        u32::MAX,
    ])
}
