//! Lendings for one card and log: an ample one, exactly the two figures, and others around them.

use generate::draft::Draft;
use generate::logs::Entry;
use generate::random::Random;
use plain::Judged;

use crate::question::{Foreseen, MOST_USABLE, Question, refused};
use crate::subjects::lengthen;

/// Lendings besides the ample one and the exact one. A search of many steps,
/// which takes long each time, has only one.
const OTHERS: usize = 4;
const MANY_STEPS: u32 = 100;

/// A sound card and a sound log for it.
pub struct Case {
    pub draft: Draft,
    pub log: Vec<Entry>,
    /// The verdicts that may come with an ample lending.
    pub verdicts: &'static [u32],
    /// The ample allowance: longer searches end in 9.
    pub ample: u32,
}

/// What is lent: how many steps, and how many numbers of room.
type Lending = (u32, usize);

/// Asks with an ample lending, and with others by the figures that the plain program
/// gives for it: with exactly these figures the verdict is the same, with less it is
/// 9 or 10. What follows a deviation changes nothing.
pub fn lend(random: &mut Random, case: &Case) -> Vec<Question> {
    let card = case.draft.bytes();
    let log = case.log.as_flattened();
    let ample = plain::judge(&card, log, case.ample, &mut [0; MOST_USABLE]);
    let exact = (ample.steps, ample.places as usize);
    let mut questions = vec![ask_amply(case), ask(case, &ample, exact)];
    let others = if ample.steps > MANY_STEPS { 1 } else { OTHERS };
    for _ in 0..others {
        let lending = draw(random, case, &ample);
        questions.push(ask(case, &ample, lending));
    }
    if ample.number == 22 {
        let mut longer = ask(case, &ample, exact);
        longer.log = lengthen(random, &case.draft, &case.log).concat();
        questions.push(longer);
    }
    questions
}

/// Asks with the ample lending. If a verdict comes, it is one of those that may come.
fn ask_amply(case: &Case) -> Question {
    let foreseen = Foreseen::Numbers([case.verdicts, &[9, 10]].concat());
    question(case, (case.ample, MOST_USABLE), foreseen)
}

fn ask(case: &Case, ample: &Judged, lending: Lending) -> Question {
    question(case, lending, foresee(case, ample, lending))
}

fn question(case: &Case, (allowance, room): Lending, foreseen: Foreseen) -> Question {
    Question {
        card: case.draft.bytes(),
        log: case.log.concat(),
        allowance,
        room,
        foreseen,
    }
}

/// What a lending must give, by the answer to the ample one.
fn foresee(case: &Case, ample: &Judged, (allowance, room): Lending) -> Foreseen {
    let usable = room.min(MOST_USABLE);
    if usable < case.draft.nodes.len() {
        return Foreseen::Answer(refused(10, 0));
    }
    if ample.number < 20 {
        return Foreseen::Nothing;
    }
    match (allowance >= ample.steps, usable >= ample.places as usize) {
        (true, true) => Foreseen::Answer(*ample),
        (false, true) => Foreseen::Numbers(vec![9]),
        (true, false) => Foreseen::Numbers(vec![10]),
        (false, false) => Foreseen::Numbers(vec![9, 10]),
    }
}

/// A lending at, just below or just above the figures, far below them, or large.
fn draw(random: &mut Random, case: &Case, ample: &Judged) -> Lending {
    let (steps, places) = (ample.steps, ample.places as usize);
    let nodes = case.draft.nodes.len();
    let fewer_steps = random.below(steps as usize + 1) as u32;
    let less_room = random.below(places + 1);
    let little = random.pick(&[0, 1, nodes - 1, nodes, less_room]);
    match random.below(8) {
        0 => (steps.saturating_sub(1), places),
        1 => (steps, places.saturating_sub(1)),
        2 => (steps.saturating_sub(1), places.saturating_sub(1)),
        3 => (steps + 1, places + 1),
        4 => (random.pick(&[0, fewer_steps]), places),
        5 => (fewer_steps, large_room(random)),
        6 => (random.pick(&[steps, case.ample]), little),
        _ => (endless(case, ample), large_room(random)),
    }
}

/// A room around the limit of what is usable, or above it.
pub fn large_room(random: &mut Random) -> usize {
    let larger = random.within(MOST_USABLE + 2..=20_000);
    random.pick(&[MOST_USABLE - 1, MOST_USABLE, MOST_USABLE + 1, larger])
}

/// The largest allowance, unless the search was stopped for its length.
fn endless(case: &Case, ample: &Judged) -> u32 {
    match ample.number {
        9 => case.ample,
        _ => u32::MAX,
    }
}
