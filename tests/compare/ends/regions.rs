//! Loads of images of more than 64 regions, and of as many segments as there
//! can be.

use super::link::Mix;
use super::load::{Load, running};
use super::runs::Job;
use super::{Event, frames};
use crate::Compare;
use crate::images::{ADDRESS_END, Good, REGIONS_MOST};
use crate::regions::{mixed, segments_about_places, tiles};
use crate::tally::Hex;
use mop_proved::LoadSettings;

const KIND: &str = "more than 64 regions";

impl Compare {
    pub fn region_steps(&mut self) {
        for (count, steps) in [(65, 3000), (256, 1000), (65_536, 300), (REGIONS_MOST, 300)] {
            let size = self.random.range(2, 40);
            let good = mixed(&mut self.random, count, size);
            let file = good.file();
            for _ in 0..steps {
                let file = self.perhaps_spoilt_image(&file);
                self.any_load_step(KIND, &file);
            }
            self.frames_of_regions(&good, &file, size);
        }
        self.most_segments_steps();
    }

    /// The frames of the first and of the last segment of regions, sent again.
    fn frames_of_regions(&mut self, good: &Good, file: &[u8], size: usize) {
        let end = Load {
            settings: self.many_region_settings(size),
            file: Hex(file),
            parameters: Hex(&[]),
        };
        for (index, segment) in segments_about_places(good, size as u32) {
            let data = &file[segment.at..][..segment.length];
            let transfer = (segment.last == 1).then_some(good.transfer);
            let frame = frames::load(index as u8, segment.address, data, transfer);
            let wanted = (running(index, 1, 2), Some(&frame[..]), &[][..]);
            self.known_case(KIND, &end, running(index, 0, 1), Event::Timer, &[], wanted);
        }
    }

    fn many_region_settings(&mut self, size: usize) -> LoadSettings {
        LoadSettings {
            segment_size: size as u32,
            repeats: 20,
            with_parameters: 0,
            version: self.any_version(),
            restart: 0,
        }
    }

    /// In segments of one byte there are 2^32, and a frame more with a string.
    fn most_segments_steps(&mut self) {
        let mut good = tiles(&mut self.random, 257, ADDRESS_END);
        good.transfer = 5;
        let file = good.file();
        for _ in 0..6000 {
            self.any_load_step("as many segments as can be", &file);
        }
        let last = good.regions[256].length as usize - 1;
        self.end_of_load(&file, ADDRESS_END, good.body[last]);
    }

    /// Whole loads; up to 85 regions have no more frames than may begin again.
    pub fn region_runs(&mut self) {
        for count in [65, 256, 3000] {
            let job = self.many_region_job(count);
            self.clean_run(KIND, &job);
        }
        for _ in 0..10 {
            let count = self.random.range(65, 85);
            let job = self.many_region_job(count);
            let job = self.perhaps_with_parameters(job);
            let mix = self.any_mix();
            self.load_run(&job, mix, 12 * job.frames());
            let mix = Mix {
                resets: 100,
                ..self.any_mix()
            };
            let events = 40 * job.frames();
            self.drive_with_resets(KIND, &job.restarting(), mix, events);
        }
    }

    /// Regions of one to three segments, all of which fit.
    fn many_region_job(&mut self, count: usize) -> Job {
        let size = self.random.range(2, 9);
        let good = mixed(&mut self.random, count, size);
        let end = good.regions[count - 1].end() as usize;
        let settings = self.many_region_settings(size);
        let memory = self.memory_of(settings.version, end);
        Job::new(&good.body, &good.regions, settings, memory)
    }
}
