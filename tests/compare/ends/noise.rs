//! Sessions of a host on a noisy line: among the frames that it waits for are
//! doubled, spoilt and foreign ones. The test counts those that can be read and
//! come before the verdict, and the sum of the record's counts is to be the
//! same after each call (PROTOCOL 6, "the four counts").

use super::counts::{self, is_handed};
use super::dump::{Dump, asked};
use super::load::Load;
use super::{Case, End, Event, frames};
use crate::Compare;
use crate::images;
use crate::random::Random;
use crate::tally::Hex;
use mop_proved::{DumpSettings, LoadSettings};

const SESSIONS: usize = 800;
const KIND: &str = "in sessions on a noisy line";

/// A host with a machine that would answer it.
trait Answered: End {
    const NOISY: &'static str;

    /// The frame that begins a session or moves it on, rarely one that rejects
    /// or begins again.
    fn awaited(&self, record: &Self::Record, random: &mut Random) -> Vec<u8>;
}

impl Answered for Load<'_> {
    const NOISY: &'static str = "noisy load";

    fn awaited(&self, record: &Self::Record, random: &mut Random) -> Vec<u8> {
        let again = self.settings.restart == 1 && random.once_in(12);
        match record.waiting {
            1 => vec![8, 0, 1, 2, 255, 0],
            _ if again => vec![8, 0, 1, 2, 255, 0],
            _ => frames::request_load((record.position + 1) as u8, random.once_in(30).into()),
        }
    }
}

impl Answered for Dump {
    const NOISY: &'static str = "noisy dump";

    fn awaited(&self, record: &Self::Record, random: &mut Random) -> Vec<u8> {
        let place = self.settings.address.wrapping_add(record.filled as u32);
        let length = random.range(1, asked(self.settings, record.filled).max(1));
        match record.waiting {
            1 => vec![12, 0, 1, 0, 0, 0, 0, 0],
            _ => frames::dump_data(place, &random.bytes(length)),
        }
    }
}

impl Compare {
    pub fn noisy_sessions(&mut self) {
        for _ in 0..SESSIONS {
            self.noisy_load();
            self.noisy_dump();
        }
    }

    /// Of so many segments, with a string or without, and perhaps begun again.
    fn noisy_load(&mut self) {
        let segments = self.random.pick(&[1, 2, 5, 12]);
        let file = images::shared(&self.random.bytes(segments), 1, 5);
        let version = self.any_version();
        let string = self.any_entries(version).concat();
        let end = Load {
            settings: LoadSettings {
                segment_size: 1,
                repeats: self.random.pick(&[0, 1, 3, 255]),
                with_parameters: self.random.pick(&[0, 1]),
                version,
                restart: self.random.pick(&[0, 1]),
            },
            file: Hex(&file),
            parameters: Hex(&string),
        };
        self.noisy_session(&end, &mut []);
    }

    fn noisy_dump(&mut self) {
        let length = self.random.range(1, 40);
        let end = Dump {
            settings: DumpSettings {
                length: length as u64,
                address: self.random.pick(&[0, 7, u32::MAX - 39]),
                request_bytes: self.random.pick(&[1, 3, 8, 1495]),
                repeats: self.random.pick(&[0, 1, 3, 255]),
                version: self.any_version(),
            },
        };
        let mut buffer = self.random.bytes(length);
        self.noisy_session(&end, &mut buffer);
    }

    fn noisy_session<E: Answered>(&mut self, end: &E, store: &mut [u8]) {
        let mut record = end.begun();
        let mut last = Vec::new();
        let mut handed = 0;
        for _ in 0..self.random.range(0, 120) {
            let frame = self.noise(end, &record, last);
            let event = match self.random.once_in(12) {
                true => Event::Timer,
                false => Event::Frame(Hex(&frame)),
            };
            let room = self.any_reply_room();
            let case = Case::judged(KIND, end, record, event, room, 0);
            handed += u64::from(is_handed(&case));
            record = self.step(case, store).record;
            self.check_sum::<E>(&record, handed);
            last = frame;
        }
        self.tally.summed("alone on a noisy line");
        self.tally.ends.run(E::NOISY, E::verdict(&record), 0);
    }

    /// The frame that comes next, after this one.
    fn noise<E: Answered>(&mut self, end: &E, record: &E::Record, last: Vec<u8>) -> Vec<u8> {
        let awaited = end.awaited(record, &mut self.random);
        match self.random.below(10) {
            0..=2 => last,
            3 => self.any_good_frame(),
            4 => self.damage(&awaited),
            _ => self.perhaps_spoilt(awaited),
        }
    }

    fn check_sum<E: End>(&mut self, record: &E::Record, handed: u64) {
        if let Err(wanted) = counts::claim::<E>(record, handed) {
            let what = format_args!("counts of a {} on a noisy line", E::NAME);
            self.report(what, handed, record, wanted);
        }
    }
}
