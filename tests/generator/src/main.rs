//! Random tapes from a seed.
//!
//!     generator SEED                  one tape on standard output
//!     generator FIRST COUNT DIR       DIR/SEED.bin for COUNT seeds
//!     generator --stats FIRST COUNT   what was accepted and refused;
//!                                     fails if the tapes are lopsided

#![forbid(unsafe_code)]

mod damage;
mod dice;
mod mutate;
mod pick;
mod propose;
mod stats;
mod world;
mod write;

use std::io::Write;
use std::path::Path;
use std::process::ExitCode;
use std::{env, error, fs, io};

const USAGE: &str = "usage: generator SEED | FIRST COUNT DIR | --stats FIRST COUNT";

fn run(words: &[&str]) -> Result<(), Box<dyn error::Error>> {
    match words {
        ["--stats", first, count] => {
            if !stats::print(first.parse()?, count.parse()?) {
                return Err("the tapes are lopsided".into());
            }
        }
        [seed] => io::stdout().write_all(&write::write(seed.parse()?).bytes)?,
        [first, count, folder] => {
            let first: u64 = first.parse()?;
            let count: u64 = count.parse()?;
            for seed in first..first + count {
                let path = Path::new(folder).join(format!("{seed}.bin"));
                fs::write(path, write::write(seed).bytes)?;
            }
        }
        _ => return Err(USAGE.into()),
    }
    Ok(())
}

fn main() -> ExitCode {
    let words: Vec<String> = env::args().skip(1).collect();
    let words: Vec<&str> = words.iter().map(String::as_str).collect();
    match run(&words) {
        Ok(()) => ExitCode::SUCCESS,
        Err(error) => {
            eprintln!("generator: {error}");
            ExitCode::from(2)
        }
    }
}
