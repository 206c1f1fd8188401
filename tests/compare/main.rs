//! Compares the proved library with the plain implementation: the reader, the
//! writers, the image check and the segments, and the steps of the machine and
//! of the host's load, dump and loop test.
//!
//!     compare          a run from a fixed seed, and one from a fresh seed
//!     compare SEED     a run from this seed, to repeat one
//!
//! Ends with 1 on any difference, and if an answer that can occur never came.

mod before;
mod beyond;
mod ends;
mod file;
mod images;
mod make;
mod random;
mod reading;
mod regions;
mod tally;
mod text;
mod writing;

use std::process::ExitCode;
use std::time::{Instant, SystemTime, UNIX_EPOCH};

use random::Random;
use tally::{Tally, commas};

const FIXED_SEED: u64 = 1977;
const FRAMES_LEAST: u64 = 200_000;
const IMAGES_LEAST: u64 = 20_000;
const STEPS_LEAST: u64 = 100_000;

/// One run.
pub struct Compare {
    random: Random,
    tally: Tally,
}

/// What a case's maker knows of the answer.
#[derive(Clone, Copy, Debug)]
pub enum Wanted<'a> {
    /// Only that both give the same.
    Agreement,
    /// The refusal, 0 for none.
    Refusal(u8),
    /// The frame's bytes.
    Bytes(&'a [u8]),
}

fn main() -> ExitCode {
    let seeds = match std::env::args().nth(1) {
        None => vec![FIXED_SEED, fresh_seed()],
        Some(text) => match text.parse() {
            Ok(seed) => vec![seed],
            Err(_) => {
                eprintln!("compare: the seed is a decimal number");
                return ExitCode::from(2);
            }
        },
    };
    let runs: Vec<(Tally, bool)> = seeds.into_iter().map(run).collect();
    print_sums(&runs);
    if runs.iter().all(|(_, good)| *good) {
        ExitCode::SUCCESS
    } else {
        ExitCode::FAILURE
    }
}

fn print_sums(runs: &[(Tally, bool)]) {
    let sum = |count: fn(&Tally) -> u64| runs.iter().map(|(tally, _)| count(tally)).sum();
    println!(
        "compare: {} steps with a count at 2^64 - 1, {} with one below, {} sessions summed up",
        commas(sum(|tally| tally.ends.at_top)),
        commas(sum(|tally| tally.ends.below_top)),
        commas(sum(|tally| tally.sums)),
    );
    println!(
        "compare: {} steps that began a load again, {} resets in runs over the link",
        commas(sum(|tally| tally.ends.restarts)),
        commas(sum(|tally| tally.ends.resets)),
    );
    println!(
        "compare: {} pairs of runs with R and a larger one, the same after {} events",
        commas(sum(|tally| tally.ends.pairs)),
        commas(sum(|tally| tally.ends.same)),
    );
    println!(
        "compare: {} images accepted before as now, {} newly accepted",
        commas(sum(|tally| tally.accepted_before)),
        commas(sum(|tally| tally.newly_accepted)),
    );
    println!(
        "compare: {} frames, {} images, {} steps of the ends, {} differences",
        commas(sum(|tally| tally.frames)),
        commas(sum(|tally| tally.images)),
        commas(sum(|tally| tally.steps)),
        commas(sum(|tally| tally.differences)),
    );
}

fn fresh_seed() -> u64 {
    let now = SystemTime::now().duration_since(UNIX_EPOCH);
    now.map_or(0, |now| now.as_nanos() as u64)
}

/// A whole run from one seed, and whether it was as it should be.
fn run(seed: u64) -> (Tally, bool) {
    println!("compare: seed {seed}");
    let start = Instant::now();
    let mut compare = Compare {
        random: Random::new(seed),
        tally: Tally::default(),
    };
    compare.all_readers();
    compare.all_writers();
    compare.all_images();
    compare.beyond_32_bits();
    compare.all_ends();
    let tally = compare.tally;
    tally.print();
    println!("  {:.1} s", start.elapsed().as_secs_f64());
    let good = judge(&tally);
    if !good {
        println!("compare: seed {seed} FAILED");
    }
    (tally, good)
}

fn judge(tally: &Tally) -> bool {
    let gaps = tally.gaps();
    for gap in &gaps {
        println!("UNEXPECTED {gap}");
    }
    let enough =
        tally.frames >= FRAMES_LEAST && tally.images >= IMAGES_LEAST && tally.steps >= STEPS_LEAST;
    if !enough {
        println!("TOO FEW frames, images or steps");
    }
    tally.differences == 0 && gaps.is_empty() && enough
}
