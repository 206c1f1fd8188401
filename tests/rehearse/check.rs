//! Runs the program and the plain implementation on the same inputs.

use std::io;
use std::path::{Path, PathBuf};
use std::sync::Mutex;
use std::sync::atomic::{AtomicU64, Ordering};
use std::time::{Duration, Instant};
use std::{fs, thread};

use crate::inputs::{self, Input, Wanted};
use crate::job::End;
use crate::most::{most_printing, most_work};
use crate::program::{Feed, Program};
use crate::set;
use crate::tally::Tally;
use crate::text::commas;
use mop_plain::rehearsal::{printed, rehearse, run};

const INPUTS_LEAST: u64 = 20_000;
const THREADS: usize = 2;
/// Turns that each program gets where its time is taken.
const ROUNDS: usize = 21;
const EXAMPLES: [&str; 6] = ["first", "clean", "lossy", "rejected", "unconfirmed", "long"];

pub struct Check {
    program: PathBuf,
    /// This program, which is the plain implementation too.
    own: PathBuf,
}

impl Check {
    pub fn new(program: &Path) -> io::Result<Check> {
        Ok(Check {
            program: program.canonicalize()?,
            own: std::env::current_exe()?,
        })
    }

    fn program(&self, thread: usize) -> Program {
        Program {
            path: self.program.clone(),
            arguments: &[],
            scratch: self.scratch(&format!("input-{thread}")),
        }
    }

    fn plain(&self) -> Program {
        Program {
            path: self.own.clone(),
            arguments: &["plain"],
            scratch: self.scratch("input-plain"),
        }
    }

    /// A file for an input.
    fn scratch(&self, name: &str) -> PathBuf {
        self.own.with_file_name(format!("rehearsal-{name}.txt"))
    }

    pub fn set_inputs(&self) -> bool {
        let program = self.program(0);
        let tally = Mutex::new(Tally::default());
        for (place, input) in set::cases().iter().enumerate() {
            let name = format!("set-{place}");
            self.input(&tally, &program, "set inputs", &name, input, Feed::Pipe);
        }
        done("set inputs", &tally.into_inner().unwrap())
    }

    /// The examples, with the outputs that stand beside them.
    pub fn examples(&self) -> bool {
        let program = self.program(0);
        let tally = Mutex::new(Tally::default());
        for name in EXAMPLES {
            match example(name) {
                Ok(input) => self.input(&tally, &program, "examples", name, &input, Feed::File),
                Err(error) => {
                    println!("DIFFERENCE: example {name}: {error}");
                    tally.lock().unwrap().differs();
                }
            }
        }
        done("examples", &tally.into_inner().unwrap())
    }

    /// The inputs with the most printing and the most work, and how long both
    /// implementations take from their start to their end.
    pub fn extremes(&self) -> bool {
        let tally = Mutex::new(Tally::default());
        let (program, plain) = (self.program(0), self.plain());
        for (name, job, verdict) in [
            ("most printing", most_printing(), 0),
            ("most work", most_work(), 1),
        ] {
            let text = job.text();
            let wanted = Wanted::Load(Box::new(job), Some(verdict));
            let input = Input { text, wanted };
            self.input(&tally, &program, name, "extreme", &input, Feed::File);
            let [seen, plain] = medians([&program, &plain], &input.text);
            let length = commas(rehearse(&input.text).len() as u64);
            println!("rehearse: {name}: {length} bytes, {seen:.1?}, plain {plain:.1?}");
        }
        done("extremes", &tally.into_inner().unwrap())
    }

    /// A whole run from one seed, and whether it was as it should be.
    pub fn run(&self, seed: u64) -> bool {
        println!("rehearse: seed {seed}");
        let start = Instant::now();
        let tally = Mutex::new(Tally::default());
        let next = AtomicU64::new(0);
        thread::scope(|scope| {
            for thread in 0..THREADS {
                let program = self.program(thread);
                let (tally, next) = (&tally, &next);
                scope.spawn(move || self.share(seed, tally, &program, next));
            }
        });
        let tally = tally.into_inner().unwrap();
        tally.print();
        println!("  {:.1} s", start.elapsed().as_secs_f64());
        let gaps = tally.gaps();
        for gap in &gaps {
            println!("UNEXPECTED {gap}");
        }
        let enough = tally.inputs >= INPUTS_LEAST;
        if !enough {
            println!("TOO FEW inputs");
        }
        done(&format!("seed {seed}"), &tally) && gaps.is_empty() && enough
    }

    /// One thread's share of a run: whichever input is next.
    fn share(&self, seed: u64, tally: &Mutex<Tally>, program: &Program, next: &AtomicU64) {
        loop {
            let index = next.fetch_add(1, Ordering::Relaxed);
            if index >= inputs::count() {
                return;
            }
            let (kind, input, mut random) = inputs::input(seed, index);
            let feed = Feed::any(&mut random);
            let name = format!("{seed}-{index}");
            self.input(tally, program, kind, &name, &input, feed);
        }
    }

    /// One input, to both.
    fn input(
        &self,
        tally: &Mutex<Tally>,
        program: &Program,
        kind: &'static str,
        name: &str,
        input: &Input,
        feed: Feed,
    ) {
        let answer = run(&input.text);
        let printed = printed(answer.clone());
        let mut faults = Vec::new();
        if let Err(fault) = input.wanted.judge(&printed) {
            faults.push(format!("plain implementation against the protocol: {fault}"));
        }
        match program.run(&input.text, feed) {
            Err(error) => faults.push(format!("not run: {error}")),
            Ok((seen, _)) if seen != printed => faults.push(difference(&seen, &printed)),
            Ok((_, status)) if status.code().is_none() || (answer.is_ok() && !status.success()) => {
                faults.push(format!("it ended with {status}"));
            }
            Ok(_) => {}
        }
        let mut tally = tally.lock().unwrap();
        tally.input(kind, feed.name(), &input.text);
        tally.answer(&input.text, &printed, answer);
        if !faults.is_empty() && tally.differs() {
            let path = self.scratch(&format!("differs-{name}"));
            let kept = fs::write(&path, &input.text);
            println!("DIFFERENCE: {kind}, by {}", feed.name());
            println!(
                "  input in {} {}",
                path.display(),
                kept.map_or("NOT KEPT", |()| "")
            );
            for fault in faults {
                println!("  {fault}");
            }
        }
    }
}

/// An example; its END line, or the start of it, is told in words.
fn example(name: &str) -> io::Result<Input> {
    const TOLD: usize = 36;
    let text = fs::read(format!("examples/{name}.txt"))?;
    let printed = fs::read_to_string(format!("examples/{name}.out"))?;
    let words = fs::read_to_string("examples/README.md")?;
    let end = printed.lines().last().unwrap_or("none");
    if !words.contains(&end[..end.len().min(TOLD)]) {
        return Err(io::Error::other("its END line is not in README.md"));
    }
    let wanted = Wanted::Printed(printed.into_bytes());
    Ok(Input { text, wanted })
}

impl Wanted {
    /// The plain implementation's output, held to what is known.
    fn judge(&self, printed: &[u8]) -> Result<(), String> {
        match self {
            Wanted::Agreement => Ok(()),
            Wanted::Bad(refusal) => same(printed, format!("BAD {refusal}\n").as_bytes()),
            Wanted::Printed(wanted) => same(printed, wanted),
            Wanted::Load(job, verdict) => {
                job.claim(printed)?;
                let seen = End::read(printed).map(|end| end.verdict);
                match verdict {
                    Some(_) if seen != *verdict => Err(format!("{seen:?}, wanted {verdict:?}")),
                    _ => Ok(()),
                }
            }
        }
    }
}

fn same(seen: &[u8], wanted: &[u8]) -> Result<(), String> {
    match seen == wanted {
        true => Ok(()),
        false => Err(difference(seen, wanted)),
    }
}

/// The first line that differs.
fn difference(seen: &[u8], wanted: &[u8]) -> String {
    let lines = |text: &[u8]| -> Vec<String> {
        let lines = text.split_inclusive(|&byte| byte == b'\n');
        lines.map(|line| shown(line)).collect()
    };
    let (seen, wanted) = (lines(seen), lines(wanted));
    let mut place = 0;
    while seen.get(place) == wanted.get(place) && place < wanted.len() {
        place += 1;
    }
    let line = |lines: &[String]| lines.get(place).cloned().unwrap_or("nothing".to_string());
    let (seen, wanted) = (line(&seen), line(&wanted));
    format!("line {}: seen {seen}, wanted {wanted}", place + 1)
}

/// A line, a long one by its start and its length.
fn shown(line: &[u8]) -> String {
    const START: usize = 100;
    let start = line[..line.len().min(START)].escape_ascii();
    match line.len() > START {
        true => format!("\"{start}..\" ({} bytes)", line.len()),
        false => format!("\"{start}\""),
    }
}

/// The last line of a part: whether both printed the same.
fn done(what: &str, tally: &Tally) -> bool {
    println!(
        "rehearse: {what}: {} inputs, {} differences",
        commas(tally.inputs),
        commas(tally.differences)
    );
    tally.differences == 0
}

/// The median time of two programs that take turns.
fn medians(programs: [&Program; 2], input: &[u8]) -> [Duration; 2] {
    let mut times = [[Duration::ZERO; ROUNDS]; 2];
    for round in 0..ROUNDS {
        for (program, times) in programs.iter().zip(&mut times) {
            let start = Instant::now();
            // A program that fails here has failed before.
            let _ = program.run(input, Feed::File);
            times[round] = start.elapsed();
        }
    }
    times.map(|mut times| {
        times.sort();
        times[ROUNDS / 2]
    })
}
