//! Measures cuts, each of one device out of one card.

use std::hint::black_box;

use generate::charts::{ALT, SEQ, emission, pair, pairs, reception};
use generate::draft::{Draft, LARGEST_CARD, MOST_NODES};
use plain::CutAnswer;

use crate::measure::{ROUNDS, heading, one, row};

/// The demo's card; lifeline 2 is the sluice's.
const DEMO: &[u8] = include_bytes!("../../../demo/notice-first/chart");

/// A card and the device that is cut out.
struct Work {
    name: &'static str,
    card: Vec<u8>,
    lifeline: u32,
}

type Cut = fn(&[u8], u32, &mut [u8]) -> CutAnswer;

/// Prints nanoseconds per cut for each workload; the error says that the
/// libraries differ.
pub fn run() -> Result<(), String> {
    println!("nanoseconds per cut, less is faster, best of {ROUNDS} rounds");
    heading("workload", "length");
    for work in [choices(), demo()] {
        let (answer, proved) = (cut(&work, plain::cut), cut(&work, proved::cut));
        if answer != proved {
            let name = work.name;
            return Err(format!("{name}: plain gives {answer:?}, proved {proved:?}"));
        }
        let times = one(cutting(&work, plain::cut), cutting(&work, proved::cut));
        row(work.name, answer.0.number, answer.0.length, &times);
    }
    Ok(())
}

/// The answer, and the output afterwards.
fn cut(work: &Work, cut: Cut) -> (CutAnswer, Vec<u8>) {
    let mut out = vec![0; LARGEST_CARD];
    (cut(&work.card, work.lifeline, &mut out), out)
}

/// One cut into an output of its own.
fn cutting(work: &Work, cut: Cut) -> impl FnMut() {
    let mut out = vec![0; LARGEST_CARD];
    move || {
        let work = black_box(work);
        black_box(cut(&work.card, work.lifeline, &mut out));
    }
}

/// 64 choices between the device and another one under 63 seqs.
fn choices() -> Work {
    let choice = |number: u8| {
        let other = reception(number % 15 + 1, number);
        pair(ALT, emission(0, number), other)
    };
    let parts: Vec<_> = (0..MOST_NODES.div_ceil(4) as u8).map(choice).collect();
    Work {
        name: "seq of choices, 255 nodes",
        card: Draft::new(pairs(SEQ, &parts), 16, 64).bytes(),
        lifeline: 0,
    }
}

fn demo() -> Work {
    Work {
        name: "the demo's card, 18 nodes",
        card: DEMO.to_vec(),
        lifeline: 2,
    }
}
