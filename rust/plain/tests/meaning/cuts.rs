//! Cuts compared with "Which logs belong to a chart", which knows no pruning: what
//! remains of a chart has just those of its logs in which the device never acts.

use generate::charts::{LOOPS, PAIRS, looped, pair};
use generate::draft::{Draft, Node};
use generate::logs::acts;
use generate::random::Random;
use plain::chart::Chart;
use plain::cut;

use crate::belonging::{Lifelines, begins, belongs};
use crate::trace_set::logs;
use crate::{LIFELINES, Subject, all_logs, product};

/// The longest logs that are asked about one by one, and those of the sets.
const LONGEST: usize = 4;
const LONGEST_OF_SET: usize = 5;

/// How often a chart could be cut and could not, and how many logs remained.
#[derive(Default)]
struct Tally {
    cut: usize,
    refused: usize,
    logs: usize,
}

/// Cuts every device out of a chart. There is a log without the device if the
/// empty log can be completed on the other lifelines alone.
fn cut_all(subject: &Subject, tally: &mut Tally) {
    for lifeline in 0..subject.declared.lifelines {
        let mut out = [0; 100];
        let answer = cut(&subject.card, lifeline.into(), &mut out);
        let device: Lifelines = 1 << lifeline;
        if begins(&subject.chart, &[], device) {
            assert_eq!(answer.number, 0, "{:?} by {lifeline}", subject.chart);
            let result = plain::card::read(&out[..answer.length as usize]);
            let rest = result.expect("the cut card is sound").chart;
            same_logs(subject, &rest, lifeline, tally);
            tally.cut += 1;
        } else {
            assert_eq!(answer.number, 12, "{:?} by {lifeline}", subject.chart);
            tally.refused += 1;
        }
    }
}

/// Log by log, and set by set: the rest has the logs of the whole in which the
/// device never acts, and their openings.
fn same_logs(whole: &Subject, rest: &Chart, lifeline: u8, tally: &mut Tally) {
    for log in all_logs(&whole.entries, LONGEST) {
        let without = !acts(&log, lifeline);
        let actions = whole.read(&log);
        let belonging = without && belongs(&whole.chart, &actions);
        let beginning = without && begins(&whole.chart, &actions, 1 << lifeline);
        assert_eq!(belongs(rest, &actions), belonging, "{:?}", whole.chart);
        assert_eq!(begins(rest, &actions, 0), beginning, "{:?}", whole.chart);
        tally.logs += usize::from(belonging);
    }
    let mut expected = logs(&whole.chart, LONGEST_OF_SET);
    expected.retain(|log| log.iter().all(|action| action.lifeline != lifeline));
    assert_eq!(logs(rest, LONGEST_OF_SET), expected, "{:?}", whole.chart);
}

#[test]
fn a_cut_leaves_the_logs_without_the_device() {
    let mut random = Random::new(5);
    let mut tally = Tally::default();
    for _ in 0..400 {
        cut_all(&Subject::random(&mut random, 3), &mut tally);
    }
    let least = tally.cut.min(tally.refused);
    assert!(least > 100, "each answer comes up often, not {least} times");
    assert!(tally.logs > 1000, "{} logs without a device", tally.logs);
}

/// Every loop of a pair of leaves, and every pair of such a pair and a leaf.
#[test]
fn every_small_nesting() {
    let mut tally = Tally::default();
    let leaves: [Node; 3] = [[0, 0, 0, 0], [1, 0, 0, 0], [2, 1, 0, 0]];
    let couples = product(&PAIRS, &product(&leaves, &leaves));
    for &(kind, (left, right)) in &couples {
        let inner = pair(kind, vec![left], vec![right]);
        for outer in LOOPS {
            cut_nodes(looped(outer, inner.clone()), &mut tally);
        }
        for (outer, leaf) in product(&PAIRS, &leaves) {
            cut_nodes(pair(outer, inner.clone(), vec![leaf]), &mut tally);
            cut_nodes(pair(outer, vec![leaf], inner.clone()), &mut tally);
        }
    }
    assert!(tally.cut > 500 && tally.refused > 500);
}

fn cut_nodes(nodes: Vec<Node>, tally: &mut Tally) {
    cut_all(&Subject::new(&Draft::new(nodes, LIFELINES, 1)), tally);
}
