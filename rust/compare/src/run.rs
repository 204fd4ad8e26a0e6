//! Runs both programs on the inputs of all families and counts the answers.

use std::collections::BTreeMap;

use generate::family::Family;
use generate::random::Random;

/// Each number must be answered at least this often in each call that can give it,
/// unless few inputs are asked for.
const LEAST: usize = 1_000;

/// Compares one input: returns the number that both programs answer, or says what is
/// wrong.
pub type Compare<T> = fn(&mut Random, &T) -> Result<u32, String>;

/// Compares at least `asked` inputs and prints what was compared; the error says
/// on which input the programs differ, or why the comparison shows too little.
pub fn run<T>(
    random: &mut Random,
    families: &[Family<T>],
    asked: usize,
    compare: Compare<T>,
    tally: &mut Tally,
) -> Result<(), String> {
    for family in families {
        let share = (asked * family.share).div_ceil(100);
        let compared = run_family(random, family, share, compare, tally)
            .map_err(|why| format!("{}: {why}", family.name))?;
        println!("{compared:>9}  {}", family.name);
    }
    tally.report(asked)
}

/// Compares batches of a family until it has given its share of the inputs.
fn run_family<T>(
    random: &mut Random,
    family: &Family<T>,
    share: usize,
    compare: Compare<T>,
    tally: &mut Tally,
) -> Result<usize, String> {
    let mut compared = 0;
    loop {
        let batch = (family.batch)(random);
        if batch.is_empty() {
            return Err("the family gives nothing".to_string());
        }
        for input in &batch {
            tally.count(compare(random, input)?)?;
        }
        compared += batch.len();
        if compared >= share {
            return Ok(compared);
        }
    }
}

/// How often each number was answered.
pub struct Tally {
    /// What is counted.
    what: &'static str,
    numbers: BTreeMap<u32, usize>,
}

impl Tally {
    /// All these numbers must come up, and no other.
    pub fn new(what: &'static str, numbers: impl IntoIterator<Item = u32>) -> Tally {
        let numbers = numbers.into_iter().map(|number| (number, 0)).collect();
        Tally { what, numbers }
    }

    fn count(&mut self, number: u32) -> Result<(), String> {
        let times = self.numbers.get_mut(&number);
        *times.ok_or(format!("number {number} is not of the table"))? += 1;
        Ok(())
    }

    /// Prints the counts; fails if a number came up too seldom or inputs are
    /// missing.
    fn report(&self, asked: usize) -> Result<(), String> {
        let what = self.what;
        for (number, times) in &self.numbers {
            println!("{times:>9}  answers with number {number}");
        }
        let total: usize = self.numbers.values().sum();
        println!("{total:>9}  {what} in all, no difference");
        let least = least(asked);
        if let Some((number, times)) = self.numbers.iter().find(|(_, times)| **times < least) {
            return Err(format!(
                "number {number} was answered {times} times in {total} {what}, \
                 at least {least} are wanted"
            ));
        }
        if total < asked {
            return Err(format!("{asked} {what} were asked for, {total} compared"));
        }
        Ok(())
    }
}

/// How often each number must be answered if `asked` inputs are asked for: with few
/// inputs once for each hundred of them, and always once.
fn least(asked: usize) -> usize {
    (asked / 100).clamp(1, LEAST)
}

/// The first position at which what was lent to the two programs differs, counted
/// from the end of the margin before it.
pub fn first_difference<T: PartialEq>(plain: &[T], proved: &[T], margin: usize) -> Option<isize> {
    let mut both = plain.iter().zip(proved);
    let position = both.position(|(plain, proved)| plain != proved)?;
    Some(position as isize - margin as isize)
}

pub fn hex(bytes: &[u8]) -> String {
    let words: Vec<String> = bytes.iter().map(|byte| format!("{byte:02X}")).collect();
    words.join(" ")
}
