//! Measures judgments that show the speed of the search: the steps a second.

use generate::charts::{PAR, SEQ, WEAK_LOOP, emission, looped, pair, pairs, reception};
use generate::draft::{Draft, Node};
use generate::logs::{Entry, MOST_ACTIONS, execute};
use generate::random::Random;

use crate::measure::{ROUNDS, Work, heading, judgment};

/// The seed for the order in which the actions of a seq are executed.
const SEED: u64 = 1;

/// Prints the steps a second for each workload.
pub fn run() -> Result<(), String> {
    println!("steps a second, more is faster, best of {ROUNDS} rounds");
    heading("workload", "steps");
    for work in [long_seq(), nested_loops(), ambiguous_par()] {
        let (answer, times) = judgment(&work)?;
        let rate = |nanoseconds: f64| f64::from(answer.steps) * 1e9 / nanoseconds;
        let (plain, proved) = (rate(times.plain), rate(times.proved));
        println!(
            "{:<32} {:>6} {:>8} {plain:>12.0} {proved:>12.0} {:>13.3}",
            work.name,
            answer.number,
            answer.steps,
            proved / plain
        );
    }
    Ok(())
}

fn work(name: &str, draft: &Draft, log: &[Entry]) -> Work {
    Work {
        name: name.to_string(),
        card: draft.bytes(),
        log: log.as_flattened().to_vec(),
        allowance: 1_000_000,
    }
}

/// 128 different actions on 16 lifelines under 127 seqs; the log is accepted. Each
/// step prunes what stands left of the action.
fn long_seq() -> Work {
    let message = |number: u8| {
        let sent = emission(number % 16, number);
        let received = reception((number + 1) % 16, number);
        [sent, received]
    };
    let actions: Vec<Vec<Node>> = (0..MOST_ACTIONS as u8 / 2).flat_map(message).collect();
    let draft = Draft::new(pairs(SEQ, &actions), 16, 64);
    let executed = execute(&mut Random::new(SEED), &draft, MOST_ACTIONS);
    work("seq, 255 nodes, 128 actions", &draft, &executed.log)
}

/// Three nested weak loops, and a log of four rounds and an action that never acts:
/// every way to share out the actions among the loops is tried.
fn nested_loops() -> Work {
    let inner = looped(WEAK_LOOP, emission(2, 0));
    let middle = looped(WEAK_LOOP, pair(SEQ, emission(1, 0), inner));
    let outer = looped(WEAK_LOOP, pair(SEQ, emission(0, 0), middle));
    let round = [[0, 0], [2, 0], [4, 0]];
    let mut log = round.repeat(4);
    log.push([1, 0]);
    work("nested weak loops", &Draft::new(outer, 3, 1), &log)
}

/// Nine equal actions in parallel, and a log of the nine and one that never acts: the
/// nine are executed in every order.
fn ambiguous_par() -> Work {
    let draft = Draft::new(pairs(PAR, &vec![emission(0, 0); 9]), 1, 1);
    let mut log = vec![[0, 0]; 9];
    log.push([1, 0]);
    work("par of nine equal actions", &draft, &log)
}
