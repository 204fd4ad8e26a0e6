//! The families of cuts that both programs are asked about.

use generate::charts::reordered;
use generate::cuts::{Device, Made, chart};
use generate::draft::{Draft, LARGEST_CARD, MOST_NODES};
use generate::family::Family;
use generate::logs::{Entry, execute};
use generate::random::Random;
use generate::sound;

use super::asking::{any_declared, ask, ask_sound, foresee, question};
use super::question::{Foreseen, Question};
use super::spoiled::{all_families, damaged_cards, spoiled_cards, undeclared_lifelines};
use crate::subjects;

pub const FAMILIES: [Family<Question>; 11] = [
    Family::new("sound cards of any shape", 26, any_shape),
    Family::new("every lifeline of a card", 10, every_lifeline),
    Family::new("charts made with what remains", 16, made),
    Family::new("every nesting of two kinds", 10, nestings),
    Family::new("nested loops", 6, nested_loops),
    Family::new("large charts", 6, large_charts),
    Family::new("lifelines not declared", 6, undeclared_lifelines),
    Family::new("cut cards judged again", 2, judged_again),
    Family::new("spoiled cards", 12, spoiled_cards),
    Family::new("cards of all families", 6, all_families),
    Family::new("one byte of the card damaged", 4, damaged_cards),
];

/// Questions about sound cards, each with a lifeline that the card declares.
fn on_cards(random: &mut Random, drafts: Vec<Draft>) -> Vec<Question> {
    let mut questions = Vec::new();
    for draft in drafts {
        let lifeline = any_declared(random, &draft);
        questions.extend(ask_sound(random, &draft, lifeline));
    }
    questions
}

/// Questions about `times` cards drawn at random.
fn on_drawn(random: &mut Random, times: usize, draw: fn(&mut Random) -> Draft) -> Vec<Question> {
    let drafts = (0..times).map(|_| draw(random)).collect();
    on_cards(random, drafts)
}

fn any_shape(random: &mut Random) -> Vec<Question> {
    on_drawn(random, 50, sound::any)
}

fn nestings(random: &mut Random) -> Vec<Question> {
    let drafts = subjects::nestings(random);
    on_cards(random, drafts)
}

fn nested_loops(random: &mut Random) -> Vec<Question> {
    on_drawn(random, 50, subjects::nested_loops)
}

fn large_charts(random: &mut Random) -> Vec<Question> {
    on_drawn(random, 10, |random| {
        let size = random.pick(&[MOST_NODES - 1, MOST_NODES]);
        sound::with_note(random, size)
    })
}

/// All lifelines that a card declares, and the next one.
fn every_lifeline(random: &mut Random) -> Vec<Question> {
    let draft = subjects::any(random);
    let lifelines = 0..=u32::from(draft.lifelines);
    lifelines
        .flat_map(|lifeline| ask_sound(random, &draft, lifeline))
        .collect()
}

/// What remains is known from how the chart was made.
fn made(random: &mut Random) -> Vec<Question> {
    let mut questions = Vec::new();
    for _ in 0..50 {
        let device = any_device(random);
        let Made { whole, rest } = chart(random, device);
        let draft = |nodes| Draft::new(nodes, device.lifelines, device.messages);
        let foreseen = match rest {
            Some(rest) => Foreseen::Card(draft(rest).bytes()),
            None => Foreseen::Number(12),
        };
        let mut noted = draft(reordered(random, &whole));
        noted.note = sound::note(random, 40);
        let lifeline = device.lifeline.into();
        questions.extend(ask(random, &noted.bytes(), lifeline, &foreseen));
    }
    questions
}

/// One of up to 16 devices; most often there are few.
fn any_device(random: &mut Random) -> Device {
    let lifelines = random.pick(&[1, 2, 2, 3, 3, 16]);
    Device {
        lifeline: random.below(lifelines) as u8,
        lifelines: lifelines as u8,
        messages: random.pick(&[1, 2, 64]),
    }
}

/// Cuts after which both cards judge logs of the chart, logs of what remains, and
/// random ones.
fn judged_again(random: &mut Random) -> Vec<Question> {
    let mut questions = Vec::new();
    for _ in 0..20 {
        let draft = subjects::any(random);
        let lifeline = any_declared(random, &draft);
        let card = draft.bytes();
        let foreseen = foresee(&card, lifeline);
        let mut asked = question(&card, lifeline, LARGEST_CARD, &foreseen);
        if let Foreseen::Card(rest) = &foreseen {
            asked.logs = logs(random, &draft, &Draft::of(rest), lifeline as u8);
        }
        questions.push(asked);
    }
    questions
}

/// Logs that tell a chart from what remains of it, if any log can.
fn logs(random: &mut Random, whole: &Draft, rest: &Draft, device: u8) -> Vec<Vec<Entry>> {
    let least = random.within(0..=8);
    let of_whole = execute(random, whole, least).log;
    let mut without = of_whole.clone();
    without.retain(|[who, _]| who / 2 != device);
    let of_rest = execute(random, rest, least).log;
    let swapped = subjects::swap(random, &of_rest);
    let changed = subjects::change(random, whole, &of_rest);
    let likely = subjects::any_log(random, whole, least);
    vec![of_whole, without, of_rest, swapped, changed, likely]
}
