//! Runs the proved library against the plain one on generated cards and logs.
//!
//!     compare [--cards N] [--judgments N] [--cuts N] [--seed S]
//!
//! Exit status 0: no difference. 1: a difference, or too little was compared.
//! 2: arguments that are not understood.

#![forbid(unsafe_code)]

mod cards;
mod cuts;
mod families;
mod judgments;
mod lending;
mod question;
mod run;
mod spoiled;
mod subjects;

use std::process::ExitCode;

use generate::random::Random;

const USAGE: &str = "usage: compare [--cards N] [--judgments N] [--cuts N] [--seed S]";

struct Arguments {
    cards: usize,
    judgments: usize,
    cuts: usize,
    seed: u64,
}

fn main() -> ExitCode {
    let arguments = match read_arguments(std::env::args().skip(1)) {
        Ok(arguments) => arguments,
        Err(why) => {
            eprintln!("{why}\n{USAGE}");
            return ExitCode::from(2);
        }
    };
    println!("seed {}", arguments.seed);
    match compare(&arguments) {
        Ok(()) => ExitCode::SUCCESS,
        Err(why) => {
            eprintln!("{why}");
            ExitCode::FAILURE
        }
    }
}

fn compare(arguments: &Arguments) -> Result<(), String> {
    let mut random = Random::new(arguments.seed);
    cards::run(&mut random, arguments.cards)?;
    judgments::run(&mut random, arguments.judgments)?;
    cuts::run(&mut random, arguments.cuts)
}

fn read_arguments(mut words: impl Iterator<Item = String>) -> Result<Arguments, String> {
    let mut arguments = Arguments {
        cards: 250_000,
        judgments: 100_000,
        cuts: 100_000,
        seed: 20_260_101,
    };
    while let Some(word) = words.next() {
        match word.as_str() {
            "--cards" => arguments.cards = number(&word, words.next())?,
            "--judgments" => arguments.judgments = number(&word, words.next())?,
            "--cuts" => arguments.cuts = number(&word, words.next())?,
            "--seed" => arguments.seed = number(&word, words.next())?,
            _ => return Err(format!("unknown argument {word}")),
        }
    }
    Ok(arguments)
}

fn number<T: std::str::FromStr>(word: &str, value: Option<String>) -> Result<T, String> {
    let value = value.ok_or(format!("{word} wants a number"))?;
    value
        .parse()
        .map_err(|_| format!("{word} wants a number, not {value}"))
}
