//! Whole runs of loads into a machine with a ROM window, and with a parameter
//! block over a region, beside it and beside the window.

use super::dump::ADDRESS_END;
use super::machine_windows::window;
use super::runs::{CLEAN, Job};
use crate::Compare;
use crate::images::Region;
use crate::make::{V2_1, V3_0};
use mop_proved::LoadSettings;

/// A version, the length of the machine's memory, the address from which the
/// regions lie, and what is tried. Under 2.1 the block begins at 0 in a memory
/// of 64 bytes, at 2 in one of 65 or 66, and at 16 in one of 80.
const MEMORIES: [(u8, usize, u32, &str); 7] = [
    (V3_0, 18, 3, "two regions"),
    (V2_1, 64, 3, "2.1: block over the regions"),
    (V2_1, 65, 3, "2.1: block over the regions"),
    (V2_1, 66, 0, "2.1: block over a part of a region"),
    (V2_1, 64, 14, "2.1: block just before a region"),
    (V2_1, 65, 16, "2.1: block just before a region"),
    (V2_1, 80, 5, "2.1: block just behind a region"),
];

impl Compare {
    pub fn window_runs(&mut self) {
        for (version, memory, address, kind) in MEMORIES {
            for start in 0..=20 {
                for length in [0, 1, 2, 8, ADDRESS_END - start] {
                    let job = self.two_regions(version, memory, address);
                    let job = job.with_window(window((start, length)));
                    self.clean_run(kind, &job);
                    let entries = self.any_entries(version);
                    self.clean_run(kind, &job.ending_with(entries));
                }
            }
        }
        // About the place where the numbers come round.
        for index in [0, 254, 255, 256, 257, 299] {
            let version = self.any_version();
            let job = self.long_job(version, 300);
            let (address, length) = job.place(index);
            let job = job.with_window(window((address + length - 1, 1)));
            self.clean_run("numbers that come round", &job);
        }
    }

    /// Two regions with a gap between them, in five segments, the first at
    /// this address.
    fn two_regions(&mut self, version: u8, memory: usize, address: u32) -> Job {
        let body = self.random.bytes(9);
        let regions = [(0, 0, 4), (6, 4, 5)].map(|(behind, offset, length)| Region {
            address: address + behind,
            offset,
            length,
        });
        let settings = LoadSettings {
            segment_size: 2,
            repeats: 1,
            with_parameters: 0,
            version,
            restart: 0,
        };
        let memory = self.random.bytes(memory);
        Job::new(&body, &regions, settings, memory)
    }

    /// Where nothing is lost, a load is finished if all its frames fit, and
    /// otherwise rejected at the first that does not.
    pub fn clean_run(&mut self, kind: &'static str, job: &Job) {
        self.tally.kind("loads where nothing is lost", kind);
        self.tally.kind("the same loads", job.sort());
        let record = self.load_run(job, CLEAN, 40 + 16 * job.frames());
        let seen = (record.verdict, record.position as usize);
        if seen != job.outcome() {
            let what = format_args!("verdict and position of a load where nothing is lost");
            self.report(what, job, seen, job.outcome());
        }
    }
}
