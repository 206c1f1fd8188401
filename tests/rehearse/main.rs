//! Compares what the rehearsal program prints with what the plain
//! implementation does, on random inputs, set inputs and the examples.
//!
//!     rehearse PROGRAM          a run from a fixed seed, and one from a fresh seed
//!     rehearse PROGRAM SEED     a run from this seed, to repeat one
//!     rehearse plain            prints what the plain implementation does for
//!                               the standard input
//!     rehearse most             prints the input with the most printing
//!
//! Ends with 1 on any difference, and if something that can occur never came.

mod check;
#[path = "../compare/file.rs"]
mod file;
mod images;
mod inputs;
mod job;
mod loads;
mod malformed;
mod most;
mod program;
#[allow(dead_code)]
#[path = "../compare/random.rs"]
mod random;
mod set;
mod tally;
#[allow(dead_code)]
#[path = "../compare/text.rs"]
mod text;

use std::io::{self, Read, Write};
use std::path::Path;
use std::process::ExitCode;
use std::time::{SystemTime, UNIX_EPOCH};

use check::Check;
use mop_plain::rehearsal::rehearse;
use most::most_printing;

const FIXED_SEED: u64 = 1977;

fn main() -> ExitCode {
    let arguments: Vec<String> = std::env::args().skip(1).collect();
    let arguments: Vec<&str> = arguments.iter().map(String::as_str).collect();
    let done = match arguments[..] {
        ["plain"] => plain(),
        ["most"] => io::stdout().write_all(&most_printing().text()),
        [program] => return compare(program, &[FIXED_SEED, fresh_seed()]),
        [program, seed] if seed.parse::<u64>().is_ok() => {
            let seed = seed.parse().unwrap_or(FIXED_SEED);
            return compare(program, &[seed]);
        }
        _ => Err(io::Error::other("give PROGRAM, or PROGRAM and a seed")),
    };
    match done {
        Ok(()) => ExitCode::SUCCESS,
        Err(error) => {
            eprintln!("rehearse: {error}");
            ExitCode::from(2)
        }
    }
}

fn plain() -> io::Result<()> {
    let mut input = Vec::new();
    io::stdin().read_to_end(&mut input)?;
    io::stdout().write_all(&rehearse(&input))
}

fn fresh_seed() -> u64 {
    let now = SystemTime::now().duration_since(UNIX_EPOCH);
    now.map_or(0, |now| now.as_nanos() as u64)
}

/// The set inputs and the examples, then a run from each seed.
fn compare(program: &str, seeds: &[u64]) -> ExitCode {
    let check = match Check::new(Path::new(program)) {
        Ok(check) => check,
        Err(error) => {
            eprintln!("rehearse: {program}: {error}");
            return ExitCode::from(2);
        }
    };
    let mut good = check.set_inputs();
    good &= check.examples();
    good &= check.extremes();
    for &seed in seeds {
        good &= check.run(seed);
    }
    if good {
        ExitCode::SUCCESS
    } else {
        ExitCode::FAILURE
    }
}
