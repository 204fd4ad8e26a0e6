//! Measuring: rounds of both libraries take turns, and the best round counts.

use std::hint::black_box;
use std::time::Instant;

use plain::Judged;

/// The best round counts: it is the one least disturbed by other work.
pub const ROUNDS: usize = 9;
/// Nanoseconds that a round of judgments or cuts takes at least.
const LEAST_ROUND: f64 = 20e6;
/// How many numbers of room are lent.
const ROOM: usize = 16_384;

/// Nanoseconds that both take for the same work.
pub struct Times {
    pub plain: f64,
    pub proved: f64,
}

/// A card and a log to judge.
pub struct Work {
    pub name: String,
    pub card: Vec<u8>,
    pub log: Vec<u8>,
    pub allowance: u32,
}

/// The best rounds of both. Rounds take turns, so that a change of the machine's
/// speed affects both.
pub fn best(mut plain: impl FnMut(), mut proved: impl FnMut()) -> Times {
    let mut best = Times {
        plain: f64::INFINITY,
        proved: f64::INFINITY,
    };
    for _ in 0..ROUNDS {
        best.plain = best.plain.min(time(&mut plain));
        best.proved = best.proved.min(time(&mut proved));
    }
    best
}

/// Nanoseconds of one piece of work, which a round does many times.
pub fn one(mut plain: impl FnMut(), mut proved: impl FnMut()) -> Times {
    let times = (LEAST_ROUND / time(&mut plain)).ceil().max(1.0);
    let round = best(|| often(times, &mut plain), || often(times, &mut proved));
    Times {
        plain: round.plain / times,
        proved: round.proved / times,
    }
}

fn often(times: f64, work: &mut impl FnMut()) {
    (0..times as usize).for_each(|_| work());
}

fn time(work: &mut impl FnMut()) -> f64 {
    let start = Instant::now();
    work();
    start.elapsed().as_nanos() as f64
}

/// The answer, and the nanoseconds of one judgment; the error says that the
/// libraries differ.
pub fn judgment(work: &Work) -> Result<(Judged, Times), String> {
    let mut room = vec![0; ROOM];
    let answer = plain::judge(&work.card, &work.log, work.allowance, &mut room);
    let proved = proved::judge(&work.card, &work.log, work.allowance, &mut room);
    if answer != proved {
        let name = &work.name;
        return Err(format!("{name}: plain gives {answer:?}, proved {proved:?}"));
    }
    let times = one(judging(work, plain::judge), judging(work, proved::judge));
    Ok((answer, times))
}

type Judge = fn(&[u8], &[u8], u32, &mut [u32]) -> Judged;

/// One judgment with a room of its own.
fn judging(work: &Work, judge: Judge) -> impl FnMut() {
    let mut room = vec![0; ROOM];
    move || {
        let work = black_box(work);
        black_box(judge(&work.card, &work.log, work.allowance, &mut room));
    }
}

/// Prints the heading of a table. These two columns differ from table to table.
pub fn heading(first: &str, figure: &str) {
    println!(
        "{first:<32} {:>6} {figure:>8} {:>12} {:>12} {:>13}",
        "number", "plain", "proved", "proved/plain"
    );
}

/// Prints a row of such a table, with the nanoseconds of both.
pub fn row(name: &str, number: u32, figure: u32, times: &Times) {
    let Times { plain, proved } = times;
    let ratio = proved / plain;
    println!("{name:<32} {number:>6} {figure:>8} {plain:>12.1} {proved:>12.1} {ratio:>13.3}");
}
