//! Measures the proved library and the plain one on the same cards and logs, in
//! one process.
//!
//!     speed [DIRECTORY...]
//!
//! Each directory holds files `chart` and `log`. Without arguments, the directories of
//! the repository's `demo` folder are used.

#![forbid(unsafe_code)]

mod cards;
mod cuts;
mod demo;
mod judgments;
mod measure;

use std::path::PathBuf;
use std::process::ExitCode;

fn main() -> ExitCode {
    let directories: Vec<PathBuf> = std::env::args().skip(1).map(PathBuf::from).collect();
    cards::run();
    println!();
    match measure_work(directories) {
        Ok(()) => ExitCode::SUCCESS,
        Err(why) => {
            eprintln!("{why}");
            ExitCode::FAILURE
        }
    }
}

/// Measures judgments and cuts; the error says that the libraries differ, or what
/// cannot be read.
fn measure_work(directories: Vec<PathBuf>) -> Result<(), String> {
    judgments::run()?;
    println!();
    demo::run(directories)?;
    println!();
    cuts::run()
}
