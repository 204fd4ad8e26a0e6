//! Measures whole judgments of the demo, as the program makes them.

use std::fs;
use std::path::{Path, PathBuf};

use crate::measure::{ROUNDS, Work, heading, judgment, row};

/// The program's allowance.
const ALLOWANCE: u32 = 1_000_000;
/// Where the demo is.
const DEMO: &str = concat!(env!("CARGO_MANIFEST_DIR"), "/../../demo");

/// Prints the nanoseconds of a whole judgment for each directory given, or for
/// those of the demo.
pub fn run(directories: Vec<PathBuf>) -> Result<(), String> {
    let directories = if directories.is_empty() {
        demo_directories()
    } else {
        directories
    };
    if directories.is_empty() {
        println!("no demo: no directory in `demo` holds files `chart` and `log`");
        return Ok(());
    }
    println!("nanoseconds per judgment, less is faster, best of {ROUNDS} rounds");
    heading("directory", "steps");
    for directory in directories {
        let work = read(&directory)?;
        let (answer, times) = judgment(&work)?;
        row(&work.name, answer.number, answer.steps, &times);
    }
    Ok(())
}

/// The demo's directories that hold both files, in the order of their names.
fn demo_directories() -> Vec<PathBuf> {
    let entries = fs::read_dir(DEMO).into_iter().flatten().flatten();
    let mut directories: Vec<PathBuf> = entries
        .map(|entry| entry.path())
        .filter(|path| path.join("chart").is_file() && path.join("log").is_file())
        .collect();
    directories.sort();
    directories
}

fn read(directory: &Path) -> Result<Work, String> {
    let file = |name: &str| {
        let path = directory.join(name);
        fs::read(&path).map_err(|why| format!("{}: {why}", path.display()))
    };
    let name = directory.file_name().unwrap_or(directory.as_os_str());
    Ok(Work {
        name: name.to_string_lossy().into_owned(),
        card: file("chart")?,
        log: file("log")?,
        allowance: ALLOWANCE,
    })
}
