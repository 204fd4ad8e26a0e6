//! The families of judgments that both programs are asked about.

use generate::charts::looped;
use generate::draft::Draft;
use generate::family::Family;
use generate::logs::{Entry, Executed, MOST_ACTIONS, execute};
use generate::random::Random;

use crate::lending::{Case, lend};
use crate::question::Question;
use crate::spoiled::{damaged_cards, spoiled_cards, spoiled_logs};
use crate::subjects;

pub const FAMILIES: [Family<Question>; 16] = [
    Family::new("logs made by execution", 14, executed),
    Family::new("openings of such logs", 8, openings),
    Family::new("two neighbours swapped", 10, swapped),
    Family::new("lengthened", 8, lengthened),
    Family::new("one action dropped, put in or changed", 10, changed),
    Family::new("logs of likely actions", 8, likely),
    Family::new("empty logs", 4, empty),
    Family::new("every nesting of two kinds", 10, nestings),
    Family::new("nested loops", 9, nested_loops),
    Family::new("one action again and again", 5, one_action),
    Family::new("long searches", 1, long_searches),
    Family::new("long logs", 3, long_logs),
    Family::new("large charts", 2, large_charts),
    Family::new("spoiled logs", 4, spoiled_logs),
    Family::new("spoiled cards", 9, spoiled_cards),
    Family::new("one byte of the card damaged", 2, damaged_cards),
];

const VERDICTS: &[u32] = &[20, 21, 22];
/// The verdicts on an opening of a log of the chart.
const NO_DEVIATION: &[u32] = &[20, 21];
const ACCEPTED: &[u32] = &[20];

/// Steps that are ample for most logs, and steps for a search that is to be long.
const AMPLE: u32 = 300;
const LONG: u32 = 20_000;

/// The questions about some cases.
fn cases(random: &mut Random, make: fn(&mut Random) -> Case) -> Vec<Question> {
    let mut questions = Vec::new();
    for _ in 0..20 {
        let case = make(random);
        questions.extend(lend(random, &case));
    }
    questions
}

fn case(draft: Draft, log: Vec<Entry>, verdicts: &'static [u32]) -> Case {
    Case {
        draft,
        log,
        verdicts,
        ample: AMPLE,
    }
}

/// A case whose log is made by executing the chart, at least `least` actions.
fn by_execution(random: &mut Random, draft: Draft, least: usize) -> Case {
    let Executed { log, finished } = execute(random, &draft, least);
    case(draft, log, if finished { ACCEPTED } else { NO_DEVIATION })
}

/// Such a case for a chart of any kind.
pub fn any_executed(random: &mut Random) -> Case {
    let draft = subjects::any(random);
    let most = random.pick(&[2, 6, 20]);
    let least = random.within(0..=most);
    by_execution(random, draft, least)
}

fn executed(random: &mut Random) -> Vec<Question> {
    cases(random, any_executed)
}

fn openings(random: &mut Random) -> Vec<Question> {
    cases(random, |random| {
        let mut whole = any_executed(random);
        whole.log.truncate(random.below(whole.log.len() + 1));
        case(whole.draft, whole.log, NO_DEVIATION)
    })
}

fn swapped(random: &mut Random) -> Vec<Question> {
    cases(random, |random| {
        let Case { draft, log, .. } = any_executed(random);
        let log = subjects::swap(random, &log);
        case(draft, log, VERDICTS)
    })
}

fn lengthened(random: &mut Random) -> Vec<Question> {
    cases(random, |random| {
        let Case { draft, log, .. } = any_executed(random);
        let log = subjects::lengthen(random, &draft, &log);
        case(draft, log, VERDICTS)
    })
}

fn changed(random: &mut Random) -> Vec<Question> {
    cases(random, |random| {
        let Case { draft, log, .. } = any_executed(random);
        let log = subjects::change(random, &draft, &log);
        case(draft, log, VERDICTS)
    })
}

fn likely(random: &mut Random) -> Vec<Question> {
    cases(random, |random| {
        let draft = subjects::any(random);
        let most = random.pick(&[4, 10, MOST_ACTIONS]);
        let length = random.within(0..=most);
        let log = subjects::any_log(random, &draft, length);
        case(draft, log, VERDICTS)
    })
}

fn empty(random: &mut Random) -> Vec<Question> {
    cases(random, |random| {
        case(subjects::any(random), Vec::new(), NO_DEVIATION)
    })
}

/// Every nesting of two kinds, each with a log.
fn nestings(random: &mut Random) -> Vec<Question> {
    let mut questions = Vec::new();
    for draft in subjects::nestings(random) {
        let least = random.within(0..=5);
        let made = maybe_changed(random, draft, least);
        questions.extend(lend(random, &made));
    }
    questions
}

/// A log made by executing the chart, at least `least` actions, as it is or with
/// one change.
fn maybe_changed(random: &mut Random, draft: Draft, least: usize) -> Case {
    let made = by_execution(random, draft, least);
    let log = match random.below(4) {
        0 => subjects::change(random, &made.draft, &made.log),
        1 => subjects::swap(random, &made.log),
        _ => return made,
    };
    case(made.draft, log, VERDICTS)
}

fn nested_loops(random: &mut Random) -> Vec<Question> {
    cases(random, |random| {
        let draft = subjects::nested_loops(random);
        let least = random.within(0..=8);
        maybe_changed(random, draft, least)
    })
}

/// 0!0 up to `most` times, sometimes with 0?0 at the end.
fn again(random: &mut Random, most: usize) -> Vec<Entry> {
    let mut log = vec![[0, 0]; random.within(1..=most)];
    if random.one_in(2) {
        log.push([1, 0]);
    }
    log
}

fn one_action(random: &mut Random) -> Vec<Question> {
    cases(random, |random| {
        let draft = subjects::one_action(random);
        let log = again(random, 8);
        case(draft, log, VERDICTS)
    })
}

fn long_searches(random: &mut Random) -> Vec<Question> {
    let draft = subjects::long_search(random);
    let made = Case {
        draft,
        log: again(random, 9),
        verdicts: VERDICTS,
        ample: LONG,
    };
    lend(random, &made)
}

/// Logs of up to 128 actions for a loop of any kind.
fn long_logs(random: &mut Random) -> Vec<Question> {
    let Draft {
        nodes,
        lifelines,
        messages,
        ..
    } = subjects::small(random);
    let nodes = looped(random.within(7..=10) as u8, nodes);
    let least = random.within(40..=MOST_ACTIONS);
    let made = by_execution(random, Draft::new(nodes, lifelines, messages), least);
    lend(random, &made)
}

fn large_charts(random: &mut Random) -> Vec<Question> {
    let draft = subjects::large(random);
    let least = random.within(0..=MOST_ACTIONS);
    let made = maybe_changed(random, draft, least);
    lend(random, &made)
}
