//! Verdicts compared with "Which logs belong to a chart", which knows neither
//! execution nor search: all short logs of many small charts are judged. `cuts`
//! compares cuts with it.

mod belonging;
mod cuts;
mod trace_set;

use std::rc::Rc;

use belonging::{begins, belongs};
use generate::charts::LOOPS;
use generate::draft::{Draft, Node};
use generate::logs::{Entry, acting};
use generate::random::Random;
use generate::{charts, sound};
use plain::chart::{Action, Chart, Declared};
use plain::judge;
use trace_set::logs;

/// Actions on one lifeline are ordered, those on two are not.
const LIFELINES: u8 = 2;

/// A small chart and its card.
struct Subject {
    card: Vec<u8>,
    chart: Rc<Chart>,
    declared: Declared,
    /// The actions that act in it, and one that does not, if there is any.
    entries: Vec<Entry>,
}

impl Subject {
    fn new(draft: &Draft) -> Subject {
        let card = draft.bytes();
        let read = plain::card::read(&card).expect("the card is sound");
        let (chart, declared) = (read.chart, read.declared);
        let mut entries = acting(&draft.nodes);
        let foreign = all_entries(declared).find(|entry| !entries.contains(entry));
        entries.extend(foreign);
        Subject {
            card,
            chart,
            declared,
            entries,
        }
    }

    fn random(random: &mut Random, lifelines: u8) -> Subject {
        let size = random.within(1..=9);
        let messages = random.within(1..=2) as u8;
        let nodes = sound::nodes(random, size, size, lifelines, messages);
        Subject::new(&Draft::new(nodes, lifelines, messages))
    }

    fn read(&self, log: &[Entry]) -> Vec<Action> {
        plain::log::read(log.as_flattened(), self.declared).expect("the log is sound")
    }

    /// Number and place, as the judge gives them.
    fn verdict(&self, log: &[Entry], room: &mut [u32]) -> (u32, usize) {
        let judged = judge(&self.card, log.as_flattened(), 1_000_000, room);
        (judged.number, judged.place as usize)
    }

    /// Number and place, as the meaning gives them.
    fn meaning(&self, log: &[Entry]) -> (u32, usize) {
        let actions = self.read(log);
        let is_opening = |&length: &usize| begins(&self.chart, &actions[..length], 0);
        if belongs(&self.chart, &actions) {
            (20, log.len())
        } else if is_opening(&log.len()) {
            (21, log.len())
        } else {
            let longest = (0..log.len()).rev().find(is_opening);
            (22, longest.expect("every chart has a log"))
        }
    }
}

/// All actions that are declared.
fn all_entries(declared: Declared) -> impl Iterator<Item = Entry> {
    let whos = 0..2 * declared.lifelines;
    whos.flat_map(move |who| (0..declared.messages).map(move |message| [who, message]))
}

/// Judges a log and, unless it deviates, all its extensions up to a length; what
/// comes after a deviation changes nothing, so one random extension will do.
fn judge_all(
    subject: &Subject,
    log: &mut Vec<Entry>,
    most: usize,
    random: &mut Random,
    tally: &mut Tally,
) {
    let meaning = subject.meaning(log);
    let verdict = subject.verdict(log, &mut tally.room);
    assert_eq!(verdict, meaning, "{:?}, log {log:?}", subject.chart);
    tally.count(meaning.0);
    if meaning.0 == 22 {
        log.push(random.pick(&subject.entries));
        assert_eq!(subject.verdict(log, &mut tally.room), meaning);
        log.pop();
    } else if log.len() < most {
        for &entry in &subject.entries {
            log.push(entry);
            judge_all(subject, log, most, random, tally);
            log.pop();
        }
    }
}

/// How often each verdict came up; and the room lent to all judgments.
struct Tally {
    accepted: usize,
    short: usize,
    deviates: usize,
    room: Vec<u32>,
}

impl Tally {
    fn new() -> Tally {
        Tally {
            accepted: 0,
            short: 0,
            deviates: 0,
            room: vec![0; 16_384],
        }
    }

    fn count(&mut self, number: u32) {
        match number {
            20 => self.accepted += 1,
            21 => self.short += 1,
            _ => self.deviates += 1,
        }
    }
}

#[test]
fn verdicts_are_those_of_the_meaning() {
    let mut random = Random::new(1);
    let mut tally = Tally::new();
    for _ in 0..1200 {
        let subject = Subject::random(&mut random, LIFELINES);
        judge_all(&subject, &mut Vec::new(), 5, &mut random, &mut tally);
    }
    let least = tally.accepted.min(tally.short).min(tally.deviates);
    assert!(
        least > 4000,
        "each verdict comes up often, not {least} times"
    );
}

/// alt(pair of the first two, the third): bodies whose rounds can overtake each
/// other, in ways that tell the four loops apart.
fn choice(kind: u8, leaves: [Node; 3]) -> Vec<Node> {
    let [first, second, third] = leaves.map(|leaf| vec![leaf]);
    charts::pair(charts::ALT, charts::pair(kind, first, second), third)
}

/// Every first with every second.
fn product<A: Copy, B: Copy>(firsts: &[A], seconds: &[B]) -> Vec<(A, B)> {
    let with = |&first: &A| seconds.iter().map(move |&second| (first, second));
    firsts.iter().flat_map(with).collect()
}

#[test]
fn loops_of_every_small_choice() {
    let mut random = Random::new(2);
    let mut tally = Tally::new();
    let actions = [[1, 0, 0, 0], [1, 1, 0, 0], [2, 0, 0, 0], [2, 1, 0, 0]];
    let bodies = product(&product(&actions, &actions), &product(&[3, 4, 5], &actions));
    for (((first, second), (pair, third)), kind) in product(&bodies, &LOOPS) {
        let body = choice(pair, [first, second, third]);
        let subject = Subject::new(&Draft::new(charts::looped(kind, body), LIFELINES, 1));
        judge_all(&subject, &mut Vec::new(), 4, &mut random, &mut tally);
    }
}

#[test]
fn every_nesting_of_two_loops() {
    let mut random = Random::new(3);
    let mut tally = Tally::new();
    for (pair, (inner, outer)) in product(&[3, 4, 5], &product(&LOOPS, &LOOPS)) {
        let body = choice(pair, [[1, 0, 0, 0], [2, 1, 0, 0], [1, 1, 0, 0]]);
        let looped = charts::looped(outer, charts::looped(inner, body));
        let subject = Subject::new(&Draft::new(looped, LIFELINES, 1));
        judge_all(&subject, &mut Vec::new(), 5, &mut random, &mut tally);
    }
}

/// A head loop of a head loop, or of a strict loop, has logs that a single head loop
/// has not.
#[test]
fn a_head_loop_of_loops_is_not_one_head_loop() {
    let sequence = charts::pair(charts::SEQ, charts::reception(0, 1), charts::emission(1, 1));
    let body = charts::pair(charts::ALT, sequence, charts::reception(1, 0));
    let log = [[3, 0], [1, 1], [3, 0], [2, 1]];
    for (inner, verdict) in [(7, (20, 4)), (8, (20, 4))] {
        let looped = charts::looped(charts::HEAD_LOOP, charts::looped(inner, body.clone()));
        let subject = Subject::new(&Draft::new(looped, 2, 2));
        assert_eq!(subject.meaning(&log), verdict);
        assert_eq!(subject.verdict(&log, &mut [0; 1000]), verdict);
    }
    let looped = charts::looped(charts::HEAD_LOOP, body);
    let subject = Subject::new(&Draft::new(looped, 2, 2));
    assert_eq!(subject.meaning(&log), (22, 2));
    assert_eq!(subject.verdict(&log, &mut [0; 1000]), (22, 2));
}

/// The two ways to say which logs belong to a chart agree. Of a chart without a
/// loop all logs are enumerated, so that openings must agree as well.
#[test]
fn deals_and_trace_sets_agree() {
    let mut random = Random::new(4);
    for _ in 0..500 {
        let size = random.within(1..=9);
        let nodes = sound::nodes(&mut random, size, size, LIFELINES, 1);
        let loops = nodes.iter().any(|node| node[0] >= 7);
        let subject = Subject::new(&Draft::new(nodes, LIFELINES, 1));
        let set = logs(&subject.chart, 5);
        for log in all_logs(&subject.entries, 4) {
            let actions = subject.read(&log);
            assert_eq!(belongs(&subject.chart, &actions), set.contains(&actions));
            let opening = set.iter().any(|log| log.starts_with(&actions));
            let begun = begins(&subject.chart, &actions, 0);
            assert!(begun == opening || begun && loops, "{:?}", subject.chart);
        }
    }
}

/// All logs of these actions up to a length.
fn all_logs(entries: &[Entry], most: usize) -> Vec<Vec<Entry>> {
    let mut logs = vec![Vec::new()];
    let mut next = 0;
    while logs[next].len() < most {
        for &entry in entries {
            let longer = [&logs[next][..], &[entry]].concat();
            logs.push(longer);
        }
        next += 1;
    }
    logs
}
