//! The proved ledger beside the second one, in one process and on the same calls.
//!
//!     bench small TAPES           every workload on small sizes, once, and compared
//!     bench compare TAPES         every workload, its answers and tables compared
//!     bench count TAPES           every workload, for callgrind to count
//!     bench tables TAPES COUNTS   the tables, from callgrind's files in COUNTS and a clock
//!
//! TAPES is a folder of generated tapes. bench/run does it all in order.

mod callgrind;
mod engine;
mod measure;
mod refusals;
mod report;
mod script;
mod setup;
mod workloads;

use std::env;
use std::error::Error;
use std::path::Path;
use std::process::ExitCode;

use engine::{Proved, Second};

const USAGE: &str = "usage: bench small|compare|count TAPES | tables TAPES COUNTS";

fn compare(works: &[script::Workload]) -> Result<(), Box<dyn Error>> {
    let calls = measure::compare(works)?;
    let rows = measure::rows(works).count();
    eprintln!("bench: {rows} rows, {calls} calls, every answer and table alike");
    Ok(())
}

fn run(words: &[&str]) -> Result<(), Box<dyn Error>> {
    match words {
        ["small", tapes] => {
            let works = workloads::all(true, Path::new(tapes))?;
            compare(&works)?;
            if measure::count::<Proved>(&works) != measure::count::<Second>(&works) {
                return Err("the sums of the answers differ".into());
            }
            measure::times(&works, 1);
        }
        ["compare", tapes] => compare(&workloads::all(false, Path::new(tapes))?)?,
        ["count", tapes] => {
            let works = workloads::all(false, Path::new(tapes))?;
            if measure::count::<Proved>(&works) != measure::count::<Second>(&works) {
                return Err("the sums of the answers differ".into());
            }
        }
        ["tables", tapes, counts] => {
            let works = workloads::all(false, Path::new(tapes))?;
            let counts = callgrind::read(Path::new(counts))?;
            report::print(&works, &counts, &measure::times(&works, 201))?;
        }
        _ => return Err(USAGE.into()),
    }
    Ok(())
}

fn main() -> ExitCode {
    let words: Vec<String> = env::args().skip(1).collect();
    let words: Vec<&str> = words.iter().map(String::as_str).collect();
    match run(&words) {
        Ok(()) => ExitCode::SUCCESS,
        Err(error) => {
            eprintln!("bench: {error}");
            ExitCode::from(2)
        }
    }
}
