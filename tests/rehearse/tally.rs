//! What was seen: inputs of each kind, refusals, verdicts, differences.

use std::collections::BTreeMap;

use crate::job::End;
use crate::text::commas;
use mop_plain::rehearsal::{INPUT_MOST, Rehearsal};

/// The refusals that can occur.
const BAD: [u8; 5] = [5, 6, 7, 8, 10];
/// The verdicts, and whether the machine has started, that can occur.
const ENDS: [(u8, bool); 7] = [
    (0, false),
    (0, true),
    (1, true),
    (2, false),
    (3, false),
    (4, false),
    (4, true),
];
/// Above this many segments, their numbers have come round.
const LONG: u64 = 257;
/// A line of the transcript for a frame of 1,500 bytes.
const LONGEST_LINE: usize = 2 + 3000;

/// The most regions of an image before the limit was 100,000.
const MANY: usize = 64;

const MARKS: [&str; 18] = [
    "8,192 bytes, accepted",
    "8,193 bytes",
    "no bytes",
    "carriage returns",
    "tabs",
    "NUL bytes",
    "bytes above 127",
    "small hexadecimal letters",
    "a thousand digits in a row, first line",
    "no events, accepted",
    "the host's queue overflowed",
    "the machine's queue overflowed",
    "both queues overflowed",
    "more than 257 segments",
    "more than 257 segments, finished",
    "more than 64 regions",
    "more than 64 regions, finished",
    "a frame of 1,500 bytes",
];

/// Differences that are printed in full.
const SHOWN: u64 = 5;

#[derive(Default)]
pub struct Tally {
    pub inputs: u64,
    pub differences: u64,
    pub printed: u64,
    kinds: BTreeMap<&'static str, u64>,
    feeds: BTreeMap<&'static str, u64>,
    bad: BTreeMap<u8, u64>,
    ends: BTreeMap<(u8, bool), u64>,
    marks: BTreeMap<&'static str, u64>,
}

impl Tally {
    pub fn input(&mut self, kind: &'static str, feed: &'static str, text: &[u8]) {
        self.inputs += 1;
        *self.kinds.entry(kind).or_default() += 1;
        *self.feeds.entry(feed).or_default() += 1;
        let line = text.split(|&byte| byte == b'\n').next().unwrap_or(&[]);
        let mut numbers = line.split(|byte| !byte.is_ascii_digit());
        let image = text.split(|&byte| byte == b'\n').nth(1).unwrap_or(&[]);
        let small = image.iter().any(|byte| (b'a'..=b'f').contains(byte));
        self.mark("8,193 bytes", text.len() == INPUT_MOST + 1);
        self.mark("no bytes", text.is_empty());
        self.mark("carriage returns", text.contains(&b'\r'));
        self.mark("tabs", text.contains(&b'\t'));
        self.mark("NUL bytes", text.contains(&0));
        self.mark("bytes above 127", text.iter().any(|&byte| byte > 127));
        self.mark("small hexadecimal letters", small);
        let thousand = numbers.any(|number| number.len() >= 1000);
        self.mark("a thousand digits in a row, first line", thousand);
    }

    /// The plain implementation's answer.
    pub fn answer(&mut self, text: &[u8], printed: &[u8], answer: Result<Rehearsal, u8>) {
        self.printed += printed.len() as u64;
        match answer {
            Err(refusal) => *self.bad.entry(refusal).or_default() += 1,
            Ok(rehearsal) => self.rehearsal(text, &rehearsal),
        }
    }

    fn rehearsal(&mut self, text: &[u8], rehearsal: &Rehearsal) {
        let Some(end) = End::read(&rehearsal.transcript) else {
            return;
        };
        let started = end.transfer.is_some();
        *self.ends.entry((end.verdict, started)).or_default() += 1;
        let host = rehearsal.dropped_from_host > 0;
        let machine = rehearsal.dropped_from_machine > 0;
        let long = rehearsal.segments > LONG;
        let mut lines = rehearsal.transcript.split(|&byte| byte == b'\n');
        self.mark("8,192 bytes, accepted", text.len() == INPUT_MOST);
        self.mark("no events, accepted", text.ends_with(b"\n\n"));
        self.mark("the host's queue overflowed", host);
        self.mark("the machine's queue overflowed", machine);
        self.mark("both queues overflowed", host && machine);
        self.mark("more than 257 segments", long);
        let finished = end.verdict == 1;
        self.mark("more than 257 segments, finished", long && finished);
        let many = rehearsal.regions > MANY;
        self.mark("more than 64 regions", many);
        self.mark("more than 64 regions, finished", many && finished);
        let longest = lines.any(|line| line.starts_with(b"H ") && line.len() == LONGEST_LINE);
        self.mark("a frame of 1,500 bytes", longest);
    }

    fn mark(&mut self, mark: &'static str, seen: bool) {
        *self.marks.entry(mark).or_default() += u64::from(seen);
    }

    /// Counts a difference, and says whether it is to be shown.
    pub fn differs(&mut self) -> bool {
        self.differences += 1;
        self.differences <= SHOWN
    }

    pub fn print(&self) {
        table("inputs", &self.kinds);
        table("given by", &self.feeds);
        table("of these", &self.marks);
        for (refusal, count) in &self.bad {
            println!("    {:<44}{:>12}", format!("BAD {refusal}"), commas(*count));
        }
        for (&(verdict, started), &count) in &self.ends {
            let started = if started { "started" } else { "not started" };
            let end = format!("END, verdict {verdict}, {started}");
            println!("    {end:<44}{:>12}", commas(count));
        }
        println!("    {:<44}{:>12}", "bytes printed", commas(self.printed));
    }

    /// What can occur and never did, or the reverse.
    pub fn gaps(&self) -> Vec<String> {
        let mut gaps = Vec::new();
        for refusal in 0..=u8::MAX {
            if BAD.contains(&refusal) != self.bad.contains_key(&refusal) {
                gaps.push(format!("BAD {refusal}"));
            }
        }
        for verdict in 0..=u8::MAX {
            for end in [(verdict, false), (verdict, true)] {
                if ENDS.contains(&end) != self.ends.contains_key(&end) {
                    gaps.push(format!("END, verdict {verdict}, started {}", end.1));
                }
            }
        }
        for mark in MARKS {
            if self.marks.get(mark).is_none_or(|&count| count == 0) {
                gaps.push(format!("no input with: {mark}"));
            }
        }
        gaps
    }
}

fn table(heading: &str, counts: &BTreeMap<&'static str, u64>) {
    println!("  {heading}");
    for (name, &count) in counts {
        println!("    {name:<44}{:>12}", commas(count));
    }
}
