//! Compares steps on records with each count at its bounds, near them and
//! between (PROTOCOL 7, "Bad records").

use super::counts::{self, Counting, Four, TOP, named};
use super::dump::{self, five_bytes};
use super::load::{self, ended, example, running};
use super::load_parameters::example_with;
use super::{Case, Event, ROOM};
use crate::Compare;
use crate::make::VERSIONS;
use crate::tally::Hex;

const KIND: &str = "counts at and about their bounds";

/// Frames that begin, move on, reject or do nothing, and some that cannot be
/// read.
const FOR_LOAD: [&[u8]; 10] = [
    &[8, 0, 1, 2, 255, 0],
    &[8, 0, 1, 1, 255, 0],
    &[10, 1, 0],
    &[10, 1, 9],
    &[10, 2, 0],
    &[10, 2, 9],
    &[3],
    &[],
    &[10, 1, 0, 0],
    &[16],
];
const FOR_DUMP: [&[u8]; 8] = [
    &[12, 0, 1, 0, 0, 0, 0, 0],
    &[14, 7, 0, 0, 0, 1, 2, 3],
    &[14, 7, 0, 0, 0],
    &[14, 10, 0, 0, 0, 4, 5],
    &[3],
    &[],
    &[3, 0],
    &[16],
];

/// Records of a load of two segments, with the mark of a string or without.
fn load_records(mark: u8) -> [mop_proved::Load; 8] {
    [
        load::waiting(0),
        running(0, 0, 1),
        running(1, 1, 3),
        running(1 + u64::from(mark), 0, 2),
        ended(1, 2 + u64::from(mark), 0, 3),
        ended(2, 1, 0, 2),
        ended(3, 0, 1, 2),
        ended(4, 1, 1, 3),
    ]
}

/// Those of a dump of five bytes. No run has verdict 2.
fn dump_records() -> [mop_proved::Dump; 6] {
    [
        dump::waiting(0),
        dump::with(0, 0, 0, 0, 1),
        dump::with(0, 3, 1, 1, 3),
        dump::with(1, 5, 2, 0, 4),
        dump::with(2, 3, 1, 0, 2),
        dump::with(3, 0, 0, 1, 3),
    ]
}

impl Compare {
    pub fn count_cases(&mut self) {
        for version in VERSIONS {
            for mark in [0, 1] {
                self.load_counts(version, mark, 0);
                self.load_counts(version, mark, 1);
            }
            self.dump_counts(version);
        }
    }

    fn load_counts(&mut self, version: u8, mark: u8, restart: u8) {
        let file = example();
        let mut end = example_with(version, &file, mark, &[1, 1, 65]);
        end.settings.restart = restart;
        for record in load_records(mark) {
            self.about_bounds(&end, record, &FOR_LOAD, &[]);
        }
    }

    fn dump_counts(&mut self, version: u8) {
        for record in dump_records() {
            self.about_bounds(&five_bytes(version), record, &FOR_DUMP, &[9; 5]);
        }
    }

    fn about_bounds<E: Counting>(
        &mut self,
        end: &E,
        record: E::Record,
        frames: &[&[u8]],
        store: &[u8],
    ) {
        let waits = E::host(&record).is_some_and(|host| host.waits);
        for counts in self.one_about_bounds(waits) {
            let record = E::with_counts(record, named(counts));
            self.with_these_counts(end, record, frames, store);
        }
    }

    /// One count at a bound, near it or between; the others are good ones, and
    /// 0 if the host waits.
    fn one_about_bounds(&mut self, waits: bool) -> Vec<Four> {
        let between = self.random.below(TOP);
        let numbers = [0, 1, 7, between, TOP - 1, TOP];
        let places = (0..4).flat_map(|which| numbers.map(|number| (which, number)));
        let counts = places.map(|(which, number)| {
            let mut counts = match waits {
                true => [0; 4],
                false => counts::four(self.any_counts()),
            };
            counts[which] = number;
            counts
        });
        counts.collect()
    }

    /// Each frame and a timer, also with reply buffers that are too short: 10
    /// comes before 9. If the call raises a count to the top, every next one
    /// is refused.
    fn with_these_counts<E: Counting>(
        &mut self,
        end: &E,
        record: E::Record,
        frames: &[&[u8]],
        store: &[u8],
    ) {
        let bad = E::host(&record).map_or(0, counts::refusal);
        let events = frames.iter().map(|frame| Event::Frame(Hex(frame)));
        let events = events.chain([Event::Timer]);
        let calls = events.flat_map(|event| [ROOM, ROOM - 1, 0].map(|room| (event, room)));
        for (event, room) in calls {
            let case = Case::judged(KIND, end, record, event, room, bad);
            let mut store = store.to_vec();
            let after = self.step(case, &mut store).record;
            let full = E::host(&after).is_some_and(|host| host.counts.contains(&TOP));
            if full && bad == 0 {
                self.with_these_counts(end, after, frames, &store);
            }
        }
    }
}
