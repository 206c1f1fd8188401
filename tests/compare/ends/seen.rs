//! What the ends answered: refusals, verdicts, codes sent.

use std::collections::BTreeMap;

use super::counts::{Host, TOP};
use super::load::Load;
use super::{Case, End, Event, Outcome};
use crate::make::V2_1;
use crate::tally::{Hex, Tally, commas};
use mop_proved::LoadSettings;

const WITH_FRAME: &[u8] = &[0, 1, 2, 3, 4, 9, 10];
const WITHOUT_FRAME: &[u8] = &[0, 9, 10];
const OF_MACHINE: &[u8] = &[0, 9, 10, 11];
const LOAD_LARGER: &[u8] = &[0, 11, 22, 30, 31, 32, 33, 34, 40, 41, 42, 44];
/// A code 20 of 3.0 is not rejected.
const PARAMETERS_LARGER: &[u8] = &[0, 11, 22, 30, 31, 32, 33, 34, 40, 41, 44];
/// A load that begins again may be given up then.
const RESTARTING_LARGER: &[u8] = &[0, 11, 22, 30, 31, 32, 33, 34, 40, 41, 42, 43, 44];

/// Each row, with all that can occur in it.
const POSSIBLE: [(&str, &str, &[u8]); 53] = [
    ("machine", "start", OF_MACHINE),
    ("machine", "frame", &[0, 1, 2, 3, 4, 9, 10, 11]),
    ("machine", "timer", OF_MACHINE),
    ("load", "start", &[0]),
    ("load", "frame", &[0, 1, 2, 3, 4, 5, 6, 7, 8, 9, 10, 12]),
    ("load", "timer", &[0, 2, 4, 5, 6, 7, 8, 9, 10, 12]),
    ("dump", "start", &[0]),
    ("dump", "frame", WITH_FRAME),
    ("dump", "timer", WITHOUT_FRAME),
    ("loop", "start", WITHOUT_FRAME),
    ("loop", "frame", WITH_FRAME),
    ("loop", "timer", WITHOUT_FRAME),
    ("machine", STATES, &[0, 1, 2, 3, 4]),
    ("load", STATES, &[0, 1, 2, 3, 4]),
    ("dump", STATES, &[0, 1, 3]),
    ("loop", STATES, &[0, 1, 2, 3]),
    ("machine", CODES, &[8, 10, 12, 14, 26]),
    ("load", CODES, &[0, 2, 20]),
    ("dump", CODES, &[1, 4]),
    ("loop", CODES, &[24]),
    ("load", RUNS, &[0, 1, 2, 3, 4]),
    (WITH_PARAMETERS, RUNS, &[0, 1, 2, 3, 4]),
    (UNDER_2_1, RUNS, &[0, 1, 2, 3, 4]),
    (WITH_BLOCK, RUNS, &[0, 1, 2, 3, 4]),
    (RESTARTING, RUNS, &[0, 1, 2, 3, 4]),
    ("dump", RUNS, &[0, 1, 3]),
    ("loop", RUNS, &[0, 1, 2, 3]),
    ("load", LONG_RUNS, &[FINISHED]),
    (WITH_PARAMETERS, LONG_RUNS, &[FINISHED]),
    (UNDER_2_1, LONG_RUNS, &[FINISHED]),
    (WITH_BLOCK, LONG_RUNS, &[FINISHED]),
    ("dump", LONG_RUNS, &[FINISHED]),
    (WITH_BLOCK, LAST_FRAME, &[REJECTED]),
    ("noisy load", RUNS, &[0, 1, 2, 3, 4]),
    ("noisy dump", RUNS, &[0, 1, 3]),
    ("load", RAISED, &[0, 1, 2, 3]),
    ("dump", RAISED, &[0, 1, 2]),
    ("load", AT_TOP, &[0, 1, 2, 3]),
    ("dump", AT_TOP, &[0, 1, 2, 3]),
    ("load", BELOW_TOP, &[0, 1, 2, 3]),
    ("dump", BELOW_TOP, &[0, 1, 2, 3]),
    ("load", TO_TOP, &[0, 1, 2, 3]),
    ("dump", TO_TOP, &[1, 2]),
    ("load", ASKED_AGAIN, &[IGNORED, RESTARTED, TOO_OFTEN]),
    ("reset", CAME, &[0, 1, 2, 3, 4, 5, 6]),
    ("reset", HEARD, &[0, 1, 2, 3, 4]),
    ("reset", UNHEARD, &[0, 1, 2, 3, 4]),
    ("load", LARGER, LOAD_LARGER),
    (WITH_PARAMETERS, LARGER, PARAMETERS_LARGER),
    (UNDER_2_1, LARGER, LOAD_LARGER),
    (WITH_BLOCK, LARGER, LOAD_LARGER),
    (RESTARTING, LARGER, RESTARTING_LARGER),
    ("dump", LARGER, &[0, 11, 30, 31, 33]),
];
/// Loads with a parameter string.
const WITH_PARAMETERS: &str = "load with parameters";
/// Those of version 2.1, without a string and with one.
const UNDER_2_1: &str = "2.1 load";
const WITH_BLOCK: &str = "2.1 load with parameters";
/// Those with the restart setting, of any version, with a string and without.
const RESTARTING: &str = "restarting load";
const STATES: &str = "reached";
const CODES: &str = "sent code";
const RUNS: &str = "runs ended";
const LONG_RUNS: &str = "long runs ended";
/// Ended at the code 20.
const LAST_FRAME: &str = "runs at code 20";
/// Which of the four counts, 0 to 3, a call raised, and which stood at 2^64 - 1
/// or one below before it, or came there. A dump is started once, and never
/// rejected.
const RAISED: &str = "count raised";
const AT_TOP: &str = "count at the top";
const BELOW_TOP: &str = "count one below the top";
const TO_TOP: &str = "count raised to the top";
/// What a request at a position above 0 came to, in a load that runs.
const ASKED_AGAIN: &str = "asked again half-way";
const IGNORED: u8 = 0;
const RESTARTED: u8 = 1;
/// Ignored after 65,535 restarts.
const TOO_OFTEN: u8 = 2;
/// Where the host stood when a reset came: 0 waiting, 1 at its first frame, 2
/// half-way, 3 to 6 with verdict 1 to 4.
const CAME: &str = "came";
/// The verdict when the claim was checked, if the host had heard of the last
/// reset and if not.
const HEARD: &str = "heard of, verdict";
const UNHEARD: &str = "not heard of, verdict";
/// The verdicts of a pair of runs: the first digit is that with R, the second
/// that with a larger one.
const LARGER: &str = "with a larger R";

/// Code 8.
const REQUEST: u8 = 8;
/// The most restarts of a load.
const RESTARTS_MOST: u64 = 65_535;
/// Above this many frames, their numbers have come round.
const LONG: u64 = 257;
const FINISHED: u8 = 1;
const REJECTED: u8 = 2;

#[derive(Default)]
pub struct Seen {
    rows: BTreeMap<(&'static str, &'static str), BTreeMap<u8, u64>>,
    /// Calls with a count at the top.
    pub at_top: u64,
    /// Calls with a count one below, and none at the top.
    pub below_top: u64,
    /// Calls that began a load again.
    pub restarts: u64,
    /// Resets in runs.
    pub resets: u64,
    /// Pairs of runs with R and a larger one, and the events after which both
    /// were held to be the same.
    pub pairs: u64,
    pub same: u64,
}

impl Seen {
    fn count(&mut self, end: &'static str, row: &'static str, answer: u8) {
        let row = self.rows.entry((end, row)).or_default();
        *row.entry(answer).or_default() += 1;
    }

    /// A whole run has come to its end with this verdict, after so many
    /// frames answered or replies taken.
    pub fn run(&mut self, end: &'static str, verdict: u8, length: u64) {
        self.count(end, RUNS, verdict);
        if length > LONG && verdict == FINISHED {
            self.count(end, LONG_RUNS, verdict);
        }
    }

    /// A call was made with these counts, and left these.
    fn counts(&mut self, end: &'static str, before: Host, after: Host) {
        let at = |number| before.counts.contains(&number);
        self.at_top += u64::from(at(TOP));
        self.below_top += u64::from(at(TOP - 1) && !at(TOP));
        for which in 0..4 {
            let [before, after] = [before, after].map(|host| host.counts[usize::from(which)]);
            self.one_count(end, which, before, after);
        }
    }

    fn one_count(&mut self, end: &'static str, which: u8, before: u64, after: u64) {
        let rows = [
            (RAISED, after > before),
            (AT_TOP, before == TOP),
            (BELOW_TOP, before == TOP - 1),
            (TO_TOP, after > before && after == TOP),
        ];
        for (row, _) in rows.into_iter().filter(|(_, seen)| *seen) {
            self.count(end, row, which);
        }
    }

    /// The same for a load under a version, of so many frames.
    pub fn load_run(&mut self, settings: LoadSettings, verdict: u8, position: u64, frames: u64) {
        let end = load_name(settings);
        self.run(end, verdict, position);
        if end == WITH_BLOCK && verdict == REJECTED && position + 1 == frames {
            self.count(end, LAST_FRAME, verdict);
        }
    }

    /// A pair of runs has come to its end with these verdicts.
    pub fn pair(&mut self, end: &'static str, [with_r, with_more]: [u8; 2]) {
        self.count(end, LARGER, 10 * with_r + with_more);
        self.pairs += 1;
    }

    /// A machine was reset with its host in this state.
    pub fn reset(&mut self, host: Host) {
        let stage = match (host.waits, host.verdict) {
            (true, _) => 0,
            (_, 0) => 1 + u8::from(host.progress > 0),
            (_, verdict) => 2 + verdict,
        };
        self.count("reset", CAME, stage);
        self.resets += 1;
    }

    /// A claim was checked after a reset.
    pub fn after_reset(&mut self, heard: bool, verdict: u8) {
        let row = if heard { HEARD } else { UNHEARD };
        self.count("reset", row, verdict);
    }

    /// A load was handed a request, of any program type.
    fn asked(&mut self, before: Host, after: Host) {
        if before.waits || before.verdict != 0 || before.progress == 0 {
            return;
        }
        let restarted = after.restarts > before.restarts;
        self.restarts += u64::from(restarted);
        let came_to = match before.restarts {
            _ if restarted => RESTARTED,
            RESTARTS_MOST => TOO_OFTEN,
            _ => IGNORED,
        };
        self.count(Load::NAME, ASKED_AGAIN, came_to);
    }

    pub fn print(&self) {
        println!("  ends: refusals, verdicts or states reached, codes sent, counts");
        for ((end, row), answers) in &self.rows {
            let counts: String = answers
                .iter()
                .map(|(answer, &count)| format!("{answer:>4}:{:>10}", commas(count)))
                .collect();
            println!("    {:<42}{counts}", format!("{end} {row}"));
        }
    }

    /// What can occur and never did, or the reverse.
    pub fn gaps(&self) -> Vec<String> {
        let mut gaps = Vec::new();
        for (end, row, possible) in POSSIBLE {
            let answers = self.rows.get(&(end, row));
            for answer in 0..=u8::MAX {
                let count = answers.and_then(|answers| answers.get(&answer));
                if possible.contains(&answer) != count.is_some() {
                    let count = count.copied().unwrap_or(0);
                    gaps.push(format!("{end} {row}: {answer} came {count} times"));
                }
            }
        }
        gaps
    }
}

/// The row of a load's runs.
pub fn load_name(settings: LoadSettings) -> &'static str {
    match (settings.version, settings.with_parameters) {
        _ if settings.restart == 1 => RESTARTING,
        (V2_1, 0) => UNDER_2_1,
        (V2_1, _) => WITH_BLOCK,
        (_, 0) => Load::NAME,
        _ => WITH_PARAMETERS,
    }
}

impl Tally {
    pub fn step<E: End>(&mut self, case: &Case<E>, outcome: &Outcome<E::Record>) {
        self.steps += 1;
        self.kind(E::STEPS, case.kind);
        let seen = &mut self.ends;
        seen.count(E::NAME, case.event.name(), outcome.refusal);
        let (before, after) = (E::verdict(&case.record), E::verdict(&outcome.record));
        let started = matches!(case.event, Event::Start) && outcome.refusal == 0;
        if before != after || started {
            seen.count(E::NAME, STATES, after);
        }
        if let Some(&code) = outcome.frame.as_ref().and_then(|frame| frame.first()) {
            seen.count(E::NAME, CODES, code);
        }
        if let (Some(before), Some(after)) = (E::host(&case.record), E::host(&outcome.record)) {
            seen.counts(E::NAME, before, after);
            if E::NAME == Load::NAME && outcome.refusal == 0 && is_request(case.event) {
                seen.asked(before, after);
            }
        }
    }
}

fn is_request(event: Event) -> bool {
    matches!(event, Event::Frame(Hex([REQUEST, ..])))
}
