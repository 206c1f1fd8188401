//! What was seen: cases of each kind, refusals, differences.

use std::collections::BTreeMap;
use std::fmt::{self, Debug};

use crate::before;
pub use crate::text::{Hex, commas};

/// How often each refusal came; at 0, how often none did.
pub type Refusals = [u64; 12];

/// A listed code, its frames' lengths, and every answer that its reader and
/// its writer can give.
pub struct Code {
    pub code: u8,
    pub least: usize,
    pub most: usize,
    reader: &'static [u8],
    writer: &'static [u8],
}

const fn open(code: u8, least: usize) -> Code {
    Code {
        code,
        least,
        most: 1500,
        reader: &[0, 1, 2, 10],
        writer: &[0, 2, 9],
    }
}

/// A code with lists to break.
const fn strict(code: u8, least: usize) -> Code {
    Code {
        reader: &[0, 1, 2, 4, 10],
        writer: &[0, 2, 4, 9],
        ..open(code, least)
    }
}

/// One whose writer is told the version.
const fn versioned(code: u8, least: usize) -> Code {
    Code {
        writer: &[0, 2, 4, 9, 10],
        ..strict(code, least)
    }
}

/// A code whose frames have one length only.
const fn exact(code: u8, length: usize) -> Code {
    Code {
        code,
        least: length,
        most: length,
        reader: match length {
            1 => &[0, 2, 10],
            _ => &[0, 1, 2, 10],
        },
        writer: &[0, 9],
    }
}

/// The listed codes (PROTOCOL 2, "Messages").
pub const CODES: [Code; 12] = [
    open(0, 10),
    exact(1, 1),
    open(2, 6),
    exact(3, 1),
    exact(4, 7),
    strict(8, 6),
    exact(10, 3),
    open(12, 8),
    open(14, 5),
    versioned(20, 7),
    open(24, 3),
    open(26, 3),
];

/// The answers for a frame that is empty or whose code is not listed.
const UNLISTED: &[u8] = &[1, 3, 10];
/// The answers of the image check and of the segment call.
const IMAGE: &[u8] = &[0, 5, 6, 7, 8, 10];

/// Differences that are printed in full.
const SHOWN: u64 = 5;

#[derive(Default)]
pub struct Tally {
    pub frames: u64,
    pub images: u64,
    /// Image files that were accepted before, and those accepted since.
    pub accepted_before: u64,
    pub newly_accepted: u64,
    pub differences: u64,
    /// Calls of the two ends.
    pub steps: u64,
    /// Sessions whose four counts were summed up.
    pub sums: u64,
    pub ends: crate::ends::Seen,
    kinds: BTreeMap<(&'static str, &'static str), u64>,
    reader: BTreeMap<u8, Refusals>,
    unlisted: Refusals,
    writer: BTreeMap<u8, Refusals>,
    check: Refusals,
    segment: Refusals,
    /// What the image check answers now, for each sort of answer before.
    since: BTreeMap<&'static str, Refusals>,
}

impl Tally {
    pub fn frame(&mut self, kind: &'static str, frame: &[u8], refusal: u8) {
        self.frames += 1;
        self.kind("frames", kind);
        let listed = frame.first().filter(|&&code| is_listed(code));
        let row = match listed {
            Some(&code) => self.reader.entry(code).or_default(),
            None => &mut self.unlisted,
        };
        row[usize::from(refusal)] += 1;
    }

    pub fn write(&mut self, kind: &'static str, code: u8, refusal: u8) {
        self.kind("writer calls", kind);
        self.writer.entry(code).or_default()[usize::from(refusal)] += 1;
    }

    pub fn image(&mut self, kind: &'static str) {
        self.images += 1;
        self.kind("image files", kind);
    }

    /// A file is accepted, and was so before or not.
    pub fn accepted(&mut self, before: bool) {
        self.accepted_before += u64::from(before);
        self.newly_accepted += u64::from(!before);
    }

    /// An answer of this sort has become this one.
    pub fn became(&mut self, before: &'static str, refusal: u8) {
        self.since.entry(before).or_default()[usize::from(refusal)] += 1;
    }

    /// A session's counts were compared with the frames handed over in it.
    pub fn summed(&mut self, kind: &'static str) {
        self.sums += 1;
        self.kind("sessions whose counts were summed up", kind);
    }

    pub fn check(&mut self, refusal: u8) {
        self.check[usize::from(refusal)] += 1;
    }

    pub fn segment(&mut self, refusal: u8) {
        self.segment[usize::from(refusal)] += 1;
    }

    /// Reports a difference, with the input that showed it.
    pub fn differ(
        &mut self,
        what: fmt::Arguments,
        input: impl Debug,
        seen: impl Debug,
        wanted: impl Debug,
    ) {
        self.differences += 1;
        if self.differences <= SHOWN {
            println!("DIFFERENCE: {what}");
            println!("  input  {input:02X?}");
            println!("  seen   {seen:02X?}");
            println!("  wanted {wanted:02X?}");
        }
    }

    pub fn print(&self) {
        let mut heading = "";
        for (&(group, kind), &count) in &self.kinds {
            if group != heading {
                heading = group;
                println!("  {heading}");
            }
            println!("    {kind:<44}{:>12}", commas(count));
        }
        println!("  answers: 0 accepted, or the refusal");
        for (name, row, _) in self.rows() {
            println!("    {name:<28}{}", seen(&row));
        }
        for (name, row) in self.sums() {
            println!("    {name:<28}{}", seen(&row));
        }
        self.ends.print();
    }

    /// Answers that can occur and never did, or the reverse.
    pub fn gaps(&self) -> Vec<String> {
        let mut gaps = Vec::new();
        for (name, row, possible) in self.rows() {
            for (answer, &count) in row.iter().enumerate() {
                if possible.contains(&(answer as u8)) != (count > 0) {
                    gaps.push(format!("{name}: answer {answer} came {count} times"));
                }
            }
        }
        gaps.extend(self.ends.gaps());
        gaps
    }

    pub fn kind(&mut self, group: &'static str, kind: &'static str) {
        *self.kinds.entry((group, kind)).or_default() += 1;
    }

    /// Every place that answers: its name, what it answered, what it can.
    fn rows(&self) -> Vec<(String, Refusals, &'static [u8])> {
        let row = |table: &BTreeMap<u8, Refusals>, code| table.get(&code).copied();
        let mut rows = Vec::new();
        for code in &CODES {
            let seen = row(&self.reader, code.code).unwrap_or_default();
            rows.push((format!("reader code {}", code.code), seen, code.reader));
        }
        rows.push(("reader others".to_string(), self.unlisted, UNLISTED));
        for code in &CODES {
            let seen = row(&self.writer, code.code).unwrap_or_default();
            rows.push((format!("writer code {}", code.code), seen, code.writer));
        }
        rows.push(("image check".to_string(), self.check, IMAGE));
        rows.push(("image segment".to_string(), self.segment, IMAGE));
        for (name, now) in before::SORTS {
            let seen = self.since.get(name).copied().unwrap_or_default();
            rows.push((name.to_string(), seen, now));
        }
        rows
    }

    fn sums(&self) -> [(&'static str, Refusals); 3] {
        let readers = self.reader.values().chain([&self.unlisted]);
        [
            ("all readers", sum(readers)),
            ("all writers", sum(self.writer.values())),
            ("image, both", sum([&self.check, &self.segment])),
        ]
    }
}

fn is_listed(code: u8) -> bool {
    CODES.iter().any(|listed| listed.code == code)
}

fn sum<'a>(rows: impl IntoIterator<Item = &'a Refusals>) -> Refusals {
    let mut total = Refusals::default();
    for row in rows {
        for (total, count) in total.iter_mut().zip(row) {
            *total += count;
        }
    }
    total
}

/// The answers that came, with their numbers of times.
fn seen(row: &Refusals) -> String {
    let came = row.iter().enumerate().filter(|&(_, &count)| count > 0);
    came.map(|(answer, &count)| format!("{:>4}:{:>10}", answer, commas(count)))
        .collect()
}
