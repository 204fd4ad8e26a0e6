//! Judging a log: the search for a way to execute it, and the search's figures.

use std::ops::ControlFlow;
use std::rc::Rc;

use crate::card::{self, Card};
use crate::chart::{Action, Chart};
use crate::execute::{Occurrence, follow_up, occurrences};
use crate::log;
use crate::prune::terminates;
use crate::refusal::Refusal;

/// "Usable room is its length or 16,384, whichever is less".
const MOST_USABLE: usize = 16_384;

/// The numbers given after a search.
const SPENT: u32 = 9;
const NO_ROOM: u32 = 10;
const ACCEPTED: u32 = 20;
const SHORT: u32 = 21;
const DEVIATES: u32 = 22;

/// What judging a log gives.
#[derive(Debug, PartialEq, Eq, Clone, Copy)]
pub struct Judged {
    pub number: u32,
    pub place: u32,
    pub steps: u32,
    pub places: u32,
}

/// Judges a log by a card, with an allowance of steps and a lent room. Charts are
/// on the heap here: only the length of the room is used, and the room is zeroed.
pub fn judge(card: &[u8], log: &[u8], allowance: u32, room: &mut [u32]) -> Judged {
    match read(card, log) {
        Ok((chart, log)) => {
            // "with these and all verdicts the usable room is zeroed", and
            // "beyond that nothing is touched".
            let usable = room.len().min(MOST_USABLE);
            room[..usable].fill(0);
            search(&chart, &log, allowance, usable)
        }
        // "With 1 to 8, steps and places are 0 and the room is as found."
        Err(Refusal { number, place }) => Judged {
            number,
            place,
            steps: 0,
            places: 0,
        },
    }
}

/// Numbers 1 to 6 for the card, then 7 and 8 for the log.
fn read(card: &[u8], log: &[u8]) -> Result<(Rc<Chart>, Vec<Action>), Refusal> {
    let Card {
        declared, chart, ..
    } = card::read(card)?;
    let log = log::read(log, declared)?;
    Ok((chart, log))
}

/// Searches and gives the number for how the search ended.
fn search(chart: &Rc<Chart>, log: &[Action], allowance: u32, usable: usize) -> Judged {
    let mut search = Search {
        log,
        allowance,
        usable,
        steps: 0,
        places: 0,
        longest: 0,
    };
    let number = match search.start(chart) {
        ControlFlow::Break(number) => number,
        // No choice is left. If some way used up the log, its chart did not terminate.
        ControlFlow::Continue(()) if search.longest == log.len() => SHORT,
        ControlFlow::Continue(()) => DEVIATES,
    };
    let place = match number {
        SPENT | NO_ROOM => 0,
        _ => search.longest,
    };
    Judged {
        number,
        place: place as u32,
        steps: search.steps,
        places: search.places as u32,
    }
}

/// A search, "depth first, occurrences of the log's next action from left to
/// right". Its calls break with the number that ends the search, and continue
/// where a choice has failed.
struct Search<'a> {
    log: &'a [Action],
    allowance: u32,
    usable: usize,
    /// "the steps made".
    steps: u32,
    /// "the most places in use at one moment".
    places: usize,
    /// The most actions executed on one way. Every chart has a log, so this is
    /// the "longest opening with which some log of the chart begins".
    longest: usize,
}

impl Search<'_> {
    /// "10 for the chart": "the chart takes one place a node".
    fn start(&mut self, chart: &Rc<Chart>) -> ControlFlow<u32> {
        self.take(0, chart.nodes())?;
        self.go_on(chart, 0, self.places)
    }

    /// Goes on with a chart after `done` actions, with `in_use` places in use.
    fn go_on(&mut self, chart: &Rc<Chart>, done: usize, in_use: usize) -> ControlFlow<u32> {
        self.longest = self.longest.max(done);
        let Some(&action) = self.log.get(done) else {
            // "At the log's end a terminating chart accepts at once; otherwise
            // the search goes on with the next choice."
            return if terminates(chart) {
                ControlFlow::Break(ACCEPTED)
            } else {
                ControlFlow::Continue(())
            };
        };
        for occurrence in occurrences(chart, action) {
            self.step(chart, &occurrence, done, in_use)?;
        }
        ControlFlow::Continue(())
    }

    /// "One step is one follow-up made", and "before each follow-up 9, then 10".
    fn step(
        &mut self,
        chart: &Rc<Chart>,
        occurrence: &Occurrence,
        done: usize,
        in_use: usize,
    ) -> ControlFlow<u32> {
        if self.steps == self.allowance {
            return ControlFlow::Break(SPENT);
        }
        let in_use = self.take(in_use, occurrence.places)?;
        self.steps += 1;
        self.go_on(&follow_up(chart, occurrence), done + 1, in_use)
    }

    /// Takes new places besides those in use, if there is room for all of them.
    /// They are free again when the choice has failed: the caller's number of
    /// places in use has not changed.
    fn take(&mut self, in_use: usize, new: usize) -> ControlFlow<u32, usize> {
        let in_use = in_use + new;
        if in_use > self.usable {
            return ControlFlow::Break(NO_ROOM);
        }
        self.places = self.places.max(in_use);
        ControlFlow::Continue(in_use)
    }
}
