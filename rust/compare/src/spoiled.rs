//! Spoiled logs and spoiled cards, with any lending.

use generate::cards::{damage, with_faults};
use generate::draft::Draft;
use generate::faults;
use generate::logs::{Entry, MOST_ACTIONS};
use generate::random::Random;

use crate::families::any_executed;
use crate::lending::{Case, large_room};
use crate::question::{Foreseen, Question, refused};
use crate::subjects::{self, any_entry, any_log};

/// A batch of spoiled cards has at least this many for each number.
const OF_EACH_NUMBER: usize = 26;

/// A question with any lending, small or large.
fn any_lending(random: &mut Random, card: Vec<u8>, log: Vec<u8>, foreseen: Foreseen) -> Question {
    let large = large_room(random);
    let most = random.pick(&[0, 1, 50, 500, large]);
    Question {
        card,
        log,
        allowance: random.pick(&[0, 1, 10, 300]),
        room: random.within(most / 2..=most),
        foreseen,
    }
}

/// Every way to spoil a log, each with a sound card.
pub fn spoiled_logs(random: &mut Random) -> Vec<Question> {
    let mut questions = Vec::new();
    for spoil in SPOILS.repeat(5) {
        let draft = subjects::any(random);
        let length = random.within(1..=MOST_ACTIONS);
        let log = any_log(random, &draft, length);
        let (log, number, place) = spoil(random, &draft, log);
        let foreseen = Foreseen::Answer(refused(number, place));
        questions.push(any_lending(random, draft.bytes(), log, foreseen));
    }
    questions
}

/// Spoils a log that is not empty: returns its bytes, and the number and place of the
/// refusal.
type Spoil = fn(&mut Random, &Draft, Vec<Entry>) -> Spoiled;
type Spoiled = (Vec<u8>, u32, usize);

const SPOILS: [Spoil; 6] = [
    odd,
    too_long,
    undeclared,
    undeclared_at_the_end,
    odd_and_undeclared,
    too_long_and_undeclared,
];

fn odd(random: &mut Random, _: &Draft, log: Vec<Entry>) -> Spoiled {
    let mut bytes = log.concat();
    if random.one_in(2) {
        bytes.pop();
    } else {
        bytes.push(0);
    }
    (bytes, 7, 0)
}

fn too_long(random: &mut Random, draft: &Draft, _: Vec<Entry>) -> Spoiled {
    let length = random.edge(MOST_ACTIONS + 1..=3 * MOST_ACTIONS);
    (any_log(random, draft, length).concat(), 7, 0)
}

/// One action that is not declared, and sometimes more after it.
fn undeclared(random: &mut Random, draft: &Draft, log: Vec<Entry>) -> Spoiled {
    let lowest = random.below(log.len());
    let mut log = log;
    log[lowest] = undeclared_entry(random, draft);
    for entry in &mut log[lowest + 1..] {
        if random.one_in(4) {
            *entry = undeclared_entry(random, draft);
        }
    }
    (log.concat(), 8, lowest)
}

fn undeclared_at_the_end(random: &mut Random, draft: &Draft, _: Vec<Entry>) -> Spoiled {
    let mut log = any_log(random, draft, MOST_ACTIONS - 1);
    log.push(undeclared_entry(random, draft));
    (log.concat(), 8, MOST_ACTIONS - 1)
}

fn odd_and_undeclared(random: &mut Random, draft: &Draft, log: Vec<Entry>) -> Spoiled {
    let (mut bytes, ..) = undeclared(random, draft, log);
    bytes.pop();
    (bytes, 7, 0)
}

fn too_long_and_undeclared(random: &mut Random, draft: &Draft, _: Vec<Entry>) -> Spoiled {
    let log = any_log(random, draft, MOST_ACTIONS + 1);
    let (bytes, ..) = undeclared(random, draft, log);
    (bytes, 7, 0)
}

/// An action whose lifeline or message is not declared.
fn undeclared_entry(random: &mut Random, draft: &Draft) -> Entry {
    let [who, message] = any_entry(random, draft);
    let beyond = random.edge(usize::from(draft.messages)..=255) as u8;
    let stranger = random.edge(2 * usize::from(draft.lifelines)..=255) as u8;
    random.pick(&[[stranger, message], [who, beyond], [stranger, beyond]])
}

/// Cards with every fault, so that every number comes up often, each with a log of
/// any bytes.
pub fn spoiled_cards(random: &mut Random) -> Vec<Question> {
    let mut questions = Vec::new();
    for fault in faults::of_each_number(OF_EACH_NUMBER) {
        let card = with_faults(random, &[fault]);
        let foreseen = match card.expected {
            Some(number) => Foreseen::Numbers(vec![number]),
            None => Foreseen::Nothing,
        };
        let most = random.pick(&[0, 2, 8, 300]);
        let length = random.within(0..=most);
        // Zeros are a sound log wherever 0!0 is declared.
        let log = match random.below(2) {
            0 => vec![0; length],
            _ => random.bytes(length),
        };
        questions.push(any_lending(random, card.bytes, log, foreseen));
    }
    questions
}

/// Cards with one byte changed, some of them still sound, each with a log for the
/// card before the change.
pub fn damaged_cards(random: &mut Random) -> Vec<Question> {
    let mut questions = Vec::new();
    for _ in 0..50 {
        let Case { draft, log, .. } = any_executed(random);
        let bytes = draft.bytes();
        let position = random.below(bytes.len());
        let card = damage(random, &bytes, position);
        questions.push(any_lending(random, card, log.concat(), Foreseen::Nothing));
    }
    questions
}
