//! Pairs of runs on the same events, with R and with a larger limit of repeats
//! (PROTOCOL 6, "Two limits of repeats"). Until the run with R gives up or ends
//! unconfirmed, both are the same in everything; what comes after may differ.

use std::fmt::Debug;

use super::dump::Dump;
use super::link::{Link, Mix};
use super::load::Load;
use super::machine::Machine;
use super::runs::{Job, LOSSY};
use super::seen::load_name;
use super::{End, ROOM};
use crate::Compare;
use crate::make::VERSIONS;
use crate::tally::Hex;
use mop_proved::{DumpSettings, LoadSettings};

const PAIRS: &str = "pairs of runs with R and a larger one";
const REPEATS_MOST: usize = 255;
/// Given up and unconfirmed: the verdicts that more repeats may change.
const CUT_OFF: [u8; 2] = [3, 4];

/// The host's timer alone.
const DEAD: Mix = Mix {
    weights: [0, 0, 0, 0, 0, 0, 1, 0],
    short: 20,
    resets: 0,
};

/// R, and a larger one.
type Limits = [usize; 2];
/// A part of a run: where its events are from, and how many at most.
type Part = (Mix, usize);

/// A host with a limit of repeats.
trait Repeating: End + Copy {
    fn with_repeats(self, repeats: u32) -> Self;
}

impl Repeating for Load<'_> {
    fn with_repeats(self, repeats: u32) -> Self {
        Load {
            settings: LoadSettings {
                repeats,
                ..self.settings
            },
            ..self
        }
    }
}

impl Repeating for Dump {
    fn with_repeats(self, repeats: u32) -> Self {
        Dump {
            settings: DumpSettings {
                repeats,
                ..self.settings
            },
        }
    }
}

/// The same run with R and with a larger one.
struct Pair<'a, H: End> {
    smaller: Link<'a, H>,
    larger: Link<'a, H>,
    /// Whether both are to be the same still.
    same: bool,
}

impl<H: End> Pair<'_, H> {
    /// One event in both; a reset leaves the same bytes. Gives the verdict of
    /// the run that lasts.
    fn event(&mut self, compare: &mut Compare, letter: char, room: usize) -> u8 {
        let left = compare.left_by(letter, &self.smaller.memory);
        for link in [&mut self.smaller, &mut self.larger] {
            link.event_leaving(compare, letter, room, &left);
        }
        self.check(compare);
        compare.tally.ends.same += u64::from(self.same);
        H::verdict(&self.larger.record)
    }

    fn events(&mut self, compare: &mut Compare, letters: &str) {
        for letter in letters.chars() {
            self.event(compare, letter, ROOM);
        }
    }

    fn parts(&mut self, compare: &mut Compare, parts: &[Part]) {
        for &(mix, events) in parts {
            compare.draw(mix, events, |compare, letter, room| {
                self.event(compare, letter, room)
            });
        }
    }

    /// Reports the first difference of a pair.
    fn check(&mut self, compare: &mut Compare) {
        let (smaller, larger) = (&self.smaller, &self.larger);
        self.same &= !CUT_OFF.contains(&H::verdict(&smaller.record));
        if !self.same {
            return;
        }
        if let Some(part) = smaller.difference(larger) {
            let what = format_args!("{part} of a {} with a larger R", H::NAME);
            let hosts = (smaller.host, larger.host);
            let input = (hosts, smaller.machine, &smaller.events, &larger.events);
            compare.report(what, input, shown(larger), shown(smaller));
            self.same = false;
        }
    }
}

/// What is told of a run that differs.
fn shown<H: End>(link: &Link<H>) -> impl Debug {
    let frame = link.taken.last();
    let frame = frame.map(|(side, bytes)| (side, Hex(bytes)));
    let ends = (link.record, link.state);
    (ends, Hex(&link.memory), Hex(&link.buffer), frame)
}

impl Compare {
    pub fn larger_limits(&mut self) {
        for version in VERSIONS {
            for job in self.short_jobs(version) {
                self.silent_at_every_stage(&job, "");
            }
            for job in self.short_jobs(version) {
                self.silent_at_every_stage(&job.restarting(), "r");
            }
        }
        self.larger_at_random();
        self.larger_of_long_loads();
    }

    /// After any number of events of a clean line it is silent for as long as R
    /// allows or longer, then clean again for none, some or enough events.
    fn silent_at_every_stage(&mut self, job: &Job, reset: &str) {
        let most = 2 * job.frames();
        for first in 0..=most {
            for second in [0, self.random.range(1, most), 2 * most + 8] {
                let reset = self.random.pick(&["", reset]);
                self.silent_between(job, &clean(first), &[reset, &clean(second)].concat());
            }
        }
    }

    /// A silence between these events, and silence behind them or none.
    fn silent_between(&mut self, job: &Job, before: &str, behind: &str) {
        let smaller = self.random.range(0, 2);
        let larger = smaller + self.random.range(1, 2);
        for (first, last) in [(smaller, 0), (smaller + 1, 0), (smaller + 1, larger + 1)] {
            let letters = [before, &silence(first), behind, &silence(last)].concat();
            self.tally.kind(PAIRS, "silent at every stage");
            self.load_pair(job, [smaller, larger], |compare, pair| {
                pair.events(compare, &letters);
            });
        }
    }

    fn larger_at_random(&mut self) {
        for round in 0..4000 {
            let job = self.any_sort_of_job();
            match round % 2 {
                0 => self.any_load_pair(&job.restarting(), &[0, 4, 10, 40]),
                _ => self.any_load_pair(&job, &[0]),
            }
        }
        for _ in 0..1000 {
            self.any_dump_pair();
        }
    }

    /// Numbers come round.
    fn larger_of_long_loads(&mut self) {
        for limits in [[20, 21], [20, REPEATS_MOST]] {
            for version in VERSIONS {
                self.tally.kind(PAIRS, "of 300 segments");
                let job = self.long_job(version, 300);
                self.load_pair(&job, limits, |compare, pair| {
                    pair.parts(compare, &[(LOSSY, 16 * job.frames())]);
                });
            }
        }
    }

    /// Any line; one event is a reset in one of these numbers.
    fn any_load_pair(&mut self, job: &Job, resets: &[u64]) {
        let limits = self.any_limits();
        let resets = self.random.pick(resets);
        let parts = self.any_parts(limits, resets, job.frames());
        self.load_pair(job, limits, |compare, pair| pair.parts(compare, &parts));
    }

    fn load_pair(
        &mut self,
        job: &Job,
        limits: Limits,
        run: impl FnOnce(&mut Compare, &mut Pair<Load>),
    ) {
        let string = job.string();
        let host = job.host(&string);
        let machine = self.machine_of(job);
        let verdicts = self.pair(host, limits, &machine, [&job.memory, &[]], run);
        self.tally.ends.pair(load_name(host.settings), verdicts);
    }

    fn any_dump_pair(&mut self) {
        let limits = self.any_limits();
        let length = self.random.range(1, 40);
        let bytes = [(); 2].map(|()| self.random.range(1, 20) as u32);
        let parts = self.any_parts(limits, 0, length / 4);
        let (host, machine, memory) = self.any_dump(length, bytes);
        let stores = [&memory[..], &self.random.bytes(length)];
        let verdicts = self.pair(host, limits, &machine, stores, |compare, pair| {
            pair.parts(compare, &parts);
        });
        self.tally.ends.pair(Dump::NAME, verdicts);
    }

    fn any_limits(&mut self) -> Limits {
        let smaller = self.random.pick(&[0, 0, 0, 1, 1, 2, 3, REPEATS_MOST - 1]);
        let some = smaller + self.random.range(2, 9);
        let (kind, larger) = self.random.pick(&[
            ("R + 1", smaller + 1),
            ("some more", some.min(REPEATS_MOST)),
            ("255", REPEATS_MOST),
        ]);
        self.tally.kind(PAIRS, kind);
        [smaller, larger]
    }

    /// Any line, then a silence that is too long for R or not, then any line
    /// again, and perhaps silence to the end.
    fn any_parts(&mut self, [smaller, larger]: Limits, resets: u64, frames: usize) -> [Part; 4] {
        let [first, second] = [(); 2].map(|()| Mix {
            resets,
            ..self.any_mix()
        });
        [
            (first, self.random.range(0, 8 + 6 * frames)),
            (DEAD, self.random.pick(&[0, smaller, smaller + 1, larger])),
            (second, self.random.range(0, 20 + 12 * frames)),
            (DEAD, self.random.pick(&[0, 0, larger + 2])),
        ]
    }

    /// A pair of runs between fresh ends, with the memory and the dump's buffer;
    /// gives both verdicts.
    fn pair<H: Repeating>(
        &mut self,
        host: H,
        limits: Limits,
        machine: &Machine,
        [memory, buffer]: [&[u8]; 2],
        run: impl FnOnce(&mut Compare, &mut Pair<H>),
    ) -> [u8; 2] {
        let [smaller, larger] = limits.map(|limit| host.with_repeats(limit as u32));
        let mut fresh = |host| Link::new(self, host, machine, memory, buffer);
        let mut pair = Pair {
            smaller: fresh(&smaller),
            larger: fresh(&larger),
            same: true,
        };
        pair.check(self);
        run(self, &mut pair);
        [&pair.smaller, &pair.larger].map(|link| H::verdict(&link.record))
    }
}

/// So many events of a line on which each frame is handed over.
fn clean(events: usize) -> String {
    "th".chars().cycle().take(events).collect()
}

/// So many times that the host's timer runs out.
fn silence(timers: usize) -> String {
    "m".repeat(timers)
}
