//! Whole runs of loads whose machine is reset: memory outside the ROM window is
//! any bytes then, both queues are empty but for its request, and the host hears
//! of it or not (PROTOCOL 6, "reset").

use super::link::{Link, Mix};
use super::load::{Load, RESTARTS_MOST};
use super::machine_windows::window;
use super::runs::{Job, has_heard};
use super::{ROOM, counts};
use crate::Compare;
use crate::images::Region;
use crate::make::{V2_1, V3_0, VERSIONS};
use mop_proved::LoadSettings;

const RUNS: &str = "loads with resets";
/// A frame may go out again after each of two resets at the first one.
const REPEATS: u32 = 2;

impl Compare {
    pub fn reset_runs(&mut self) {
        for version in VERSIONS {
            for job in self.short_jobs(version) {
                self.resets_at_every_stage(&job.restarting());
            }
        }
        self.resets_at_random();
        self.resets_of_long_loads();
        self.resets_to_the_most();
    }

    /// Loads of one to four frames, that fit or do not, with a window or without.
    pub fn short_jobs(&mut self, version: u8) -> Vec<Job> {
        let mut jobs = Vec::new();
        for segments in 1..=3 {
            for memory in [64, 70] {
                for place in [(0, 0), (0, 2), (7, 1), (9, 3)] {
                    let [with, without] = [(); 2].map(|()| {
                        let job = self.short_job(version, segments, memory, REPEATS);
                        job.with_window(window(place))
                    });
                    let entries = self.any_entries(version);
                    jobs.extend([with.ending_with(entries), without]);
                }
            }
        }
        jobs
    }

    /// A region of so many segments of two bytes, from address 3 on.
    fn short_job(&mut self, version: u8, segments: u32, memory: usize, repeats: u32) -> Job {
        let region = Region {
            address: 3,
            offset: 0,
            length: 2 * segments,
        };
        let settings = LoadSettings {
            segment_size: 2,
            repeats,
            with_parameters: 0,
            version,
            restart: 0,
        };
        let body = self.random.bytes(2 * segments as usize);
        let memory = self.random.bytes(memory);
        Job::new(&body, &[region], settings, memory)
    }

    /// One reset after any number of events of a clean run, and a second one
    /// after any number of the events that follow.
    fn resets_at_every_stage(&mut self, job: &Job) {
        const KIND: &str = "at every stage";
        let events = 2 * job.frames() + 3;
        for first in 0..=events {
            self.reset_stages(KIND, job, &[first]);
            for second in 0..=events {
                self.reset_stages(KIND, job, &[first, second]);
                self.reset_and_silence(job, first, second);
            }
        }
    }

    /// A reset after so many events, and after so many more the line is dead: the
    /// host gives up, or the last frame is unconfirmed, unless it is over.
    fn reset_and_silence(&mut self, job: &Job, first: usize, second: usize) {
        self.tally.kind(RUNS, "at every stage, then silence");
        let record = self.on_link(job, |compare, link| {
            compare.go_on(job, link, first);
            compare.reset(job, link);
            compare.go_on(job, link, second);
            for _ in 0..REPEATS + 2 {
                link.event(compare, 'm', ROOM);
                compare.claimed(job, link);
            }
            compare.ended(link);
        });
        let last = record.position as usize + 1 == job.frames();
        let silent = if last { 4 } else { 3 };
        if ![job.outcome().0, silent].contains(&record.verdict) && record.waiting == 0 {
            let what = format_args!("verdict of a load with a reset, then silence");
            self.report(what, (job, first, second), record, silent);
        }
    }

    /// A reset after each of these numbers of events, then clean to the end. It
    /// ends as without a reset; if the last one came half-way, that is a restart.
    fn reset_stages(&mut self, kind: &'static str, job: &Job, stages: &[usize]) {
        self.tally.kind(RUNS, kind);
        let mut restarts = 0;
        let record = self.on_link(job, |compare, link| {
            for &events in stages {
                compare.go_on(job, link, events);
                let half_way = link.record.verdict == 0 && link.record.position > 0;
                restarts = link.record.restarts + u32::from(half_way);
                compare.reset(job, link);
            }
            compare.go_on(job, link, 40 + 4 * job.frames());
            compare.ended(link);
        });
        let seen = (record.verdict, record.position as usize, record.restarts);
        let (verdict, position) = job.outcome();
        let wanted = (verdict, position, restarts);
        if seen != wanted {
            let what = format_args!("verdict, position and restarts of a load with resets");
            self.report(what, (job, stages), seen, wanted);
        }
    }

    /// So many events of a clean line: what is queued is handed over in turn, and
    /// the host's timer runs out where nothing is.
    fn go_on(&mut self, job: &Job, link: &mut Link<Load>, events: usize) {
        for _ in 0..events {
            let before = link.events.len();
            for letter in ['h', 't', 'm'] {
                if link.events.len() == before {
                    link.event(self, letter, ROOM);
                }
            }
            self.claimed(job, link);
            if link.record.verdict != 0 && link.is_quiet() {
                return;
            }
        }
    }

    fn reset(&mut self, job: &Job, link: &mut Link<Load>) {
        link.event(self, 'r', ROOM);
        self.claimed(job, link);
    }

    /// Checks the claim, and counts whether the host has heard of the last reset.
    fn claimed(&mut self, job: &Job, link: &Link<Load>) {
        self.check_claim(link, &|link| job.claim(link));
        if let Some(reset) = &link.reset {
            let heard = has_heard(&link.record, reset);
            self.tally.ends.after_reset(heard, link.record.verdict);
        }
    }

    /// A run has come to its end: no restart was without a reset.
    fn ended(&mut self, link: &Link<Load>) {
        self.tally.summed("with resets");
        if link.record.restarts > link.resets {
            let what = format_args!("restarts without a reset");
            self.report(what, &link.events, link.record.restarts, link.resets);
        }
    }

    /// Any load on any line, with few resets or many.
    fn resets_at_random(&mut self) {
        for _ in 0..3000 {
            let job = self.any_sort_of_job().restarting();
            let mix = Mix {
                resets: self.random.pick(&[0, 4, 10, 20, 40]),
                ..self.any_mix()
            };
            let events = self.random.range(0, 60 + 20 * job.frames());
            self.drive_with_resets("at random", &job, mix, events);
        }
    }

    pub fn drive_with_resets(&mut self, kind: &'static str, job: &Job, mix: Mix, events: usize) {
        self.tally.kind(RUNS, kind);
        self.on_link(job, |compare, link| {
            compare.drive(link, mix, events, |link| job.claim(link));
            compare.claimed(job, link);
            compare.ended(link);
        });
    }

    /// Loads of 255 and 256 frames, reset about their ends and in the middle.
    fn resets_of_long_loads(&mut self) {
        const KIND: &str = "of about 256 frames";
        for (segments, with_string) in [(255, false), (255, true), (256, false), (254, true)] {
            for version in VERSIONS {
                let mut job = self.long_job(version, segments).restarting();
                if with_string {
                    job = job.ending_with(self.any_entries(version));
                }
                let last = 2 * job.frames();
                let stages = [3, last / 2, last - 2, last - 1, last];
                self.reset_stages(KIND, &job, &stages);
                let mix = Mix {
                    resets: 300,
                    ..self.any_mix()
                };
                self.drive_with_resets(KIND, &job, mix, 40 * job.frames());
            }
        }
    }

    /// Two frames, no repeat, and a reset at each first answer, until no more
    /// restarts are left: the last reset is never heard of. As many frames went
    /// out as may.
    fn resets_to_the_most(&mut self) {
        let version = self.random.pick(&[V2_1, V3_0]);
        let job = self.short_job(version, 2, 64, 0).restarting();
        self.tally.kind(RUNS, "to the most restarts");
        let record = self.on_link(&job, |compare, link| {
            for _ in 0..=RESTARTS_MOST {
                compare.hand_over(link, "tht");
                link.event(compare, 'r', ROOM);
            }
            compare.claimed(&job, link);
            compare.hand_over(link, "tthm");
            compare.claimed(&job, link);
            compare.ended(link);
        });
        let all = u64::from(RESTARTS_MOST) + 1;
        let counts = [all, all, 1, 0];
        let seen = (record.restarts, record.sent, counts::four(record.counts));
        let wanted = (RESTARTS_MOST, 2 * all, counts);
        if seen != wanted || record.verdict != 4 {
            let what = format_args!("a load with as many restarts as there may be");
            self.report(what, &job, record, wanted);
        }
    }

    fn hand_over(&mut self, link: &mut Link<Load>, letters: &str) {
        for letter in letters.chars() {
            link.event(self, letter, ROOM);
        }
    }
}
