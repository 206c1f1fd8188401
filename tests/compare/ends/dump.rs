//! Compares the steps of the host's dump.

use super::counts::{self, ADVANCES, Counting, Host, IGNORED, STARTS, TOP};
use super::{Case, End, Event, frames};
use crate::Compare;
use crate::make::{self, NO_VERSIONS, V3_0, VERSIONS};
use crate::tally::Hex;
use mop_plain::dump::{self, Progress, Session};
use mop_plain::step::Sent;
use mop_plain::version::Version;
use mop_proved::{Counts, DumpSettings, Step, Written};

pub const ADDRESS_END: u64 = 1 << 32;

#[derive(Clone, Copy, Debug)]
pub struct Dump {
    pub settings: DumpSettings,
}

impl End for Dump {
    type Record = mop_proved::Dump;
    const NAME: &'static str = "dump";
    const STEPS: &'static str = "dump steps";

    fn plain(
        &self,
        record: Self::Record,
        event: Event,
        buffer: &mut [u8],
        reply: &mut [u8],
    ) -> Result<(Self::Record, Sent), u8> {
        if matches!(event, Event::Start) {
            return Ok((numbers(Session::FRESH), None));
        }
        let settings = dump::Settings {
            length: self.settings.length,
            address: self.settings.address,
            most: self.settings.request_bytes,
            repeats: self.settings.repeats,
            version: Version::from_number(self.settings.version)?,
        };
        let mut session = Session::from_numbers(
            record.waiting,
            record.verdict,
            record.filled,
            record.replies,
            record.repeats,
            record.sent,
            counts::plain(record.counts),
        )?;
        let sent = match event {
            Event::Frame(Hex(bytes)) => dump::frame(settings, &mut session, bytes, buffer, reply)?,
            _ => dump::timer(settings, &mut session, buffer, reply)?,
        };
        Ok((numbers(session), sent))
    }

    fn proved(
        &self,
        record: Self::Record,
        event: Event,
        buffer: &mut [u8],
        reply: &mut [u8],
    ) -> Step<Self::Record> {
        match event {
            Event::Start => Step {
                record: mop_proved::dump_start(),
                ..Default::default()
            },
            Event::Frame(Hex(bytes)) => {
                mop_proved::dump_frame(self.settings, record, bytes, buffer, reply)
            }
            Event::Timer => mop_proved::dump_timer(self.settings, record, buffer, reply),
        }
    }

    fn in_place(
        &self,
        record: &mut Self::Record,
        event: Event,
        buffer: &mut [u8],
        reply: &mut [u8],
    ) -> Option<Written> {
        let settings = self.settings;
        Some(match event {
            Event::Start => return None,
            Event::Frame(Hex(bytes)) => {
                mop_proved::dump_update_frame(settings, record, bytes, buffer, reply)
            }
            Event::Timer => mop_proved::dump_update_timer(settings, record, buffer, reply),
        })
    }

    fn begun(&self) -> Self::Record {
        mop_proved::dump_start()
    }

    fn verdict(record: &Self::Record) -> u8 {
        record.verdict
    }

    fn host(record: &Self::Record) -> Option<Host> {
        Some(Host {
            waits: record.waiting == 1,
            verdict: record.verdict,
            progress: record.filled,
            taken: record.replies,
            restarts: 0,
            counts: counts::four(record.counts),
        })
    }

    fn version(&self) -> u8 {
        self.settings.version
    }
}

impl Counting for Dump {
    fn with_counts(record: mop_proved::Dump, counts: Counts) -> mop_proved::Dump {
        mop_proved::Dump { counts, ..record }
    }
}

fn numbers(session: Session) -> mop_proved::Dump {
    match session {
        Session::Waiting { ignored } => waiting(ignored),
        Session::Begun(Progress {
            verdict,
            filled,
            replies,
            repeats,
            sent,
            counts,
        }) => mop_proved::Dump {
            counts: counts::from_plain(counts),
            ..with(verdict as u8, filled, replies, repeats, sent)
        },
    }
}

/// Waiting, so many frames ignored.
pub fn waiting(ignored: u64) -> mop_proved::Dump {
    mop_proved::Dump {
        counts: counts::only_ignored(ignored),
        waiting: 1,
        ..Default::default()
    }
}

/// With this verdict or none, and no frame counted.
pub fn with(verdict: u8, filled: u64, replies: u64, repeats: u32, sent: u64) -> mop_proved::Dump {
    mop_proved::Dump {
        filled,
        replies,
        sent,
        counts: Counts::default(),
        repeats,
        waiting: 0,
        verdict,
    }
}

impl Compare {
    pub fn dump_steps(&mut self) {
        for version in VERSIONS {
            self.dump_set_cases(version);
        }
        self.dump_rooms();
        for _ in 0..60_000 {
            self.any_dump_step();
        }
    }

    /// What the protocol says outright of these five bytes.
    fn dump_set_cases(&mut self, version: u8) {
        let end = five_bytes(version);
        let waiting = waiting(0);
        let begun = with(0, 0, 0, 1, 2);
        let more = with(0, 3, 1, 1, 4);
        let given_up = with(3, 0, 0, 1, 3);
        let frame = |frame| Event::Frame(Hex(frame));
        let timer = Event::Timer;
        let offer = frame(&[12, 0, 1, 0, 0, 0, 0, 0]);
        let start: Option<&[u8]> = Some(&[4, 7, 0, 0, 0, 3, 0]);
        let rest: Option<&[u8]> = Some(&[4, 10, 0, 0, 0, 2, 0]);
        let end_mark: Option<&[u8]> = Some(&[1]);
        let old = [9; 5];
        #[rustfmt::skip]
        let cases = [
            (waiting, offer, with(0, 0, 0, 0, 1), start, old, Some(STARTS)),
            (waiting, frame(&[14, 7, 0, 0, 0, 1]), waiting, None, old, Some(IGNORED)),
            (waiting, timer, waiting, None, old, None),
            (begun, offer, begun, None, old, Some(IGNORED)),
            (begun, frame(&[14, 7, 0, 0, 0, 1, 2, 3]), with(0, 3, 1, 0, 3), rest, [1, 2, 3, 9, 9], Some(ADVANCES)),
            (more, frame(&[14, 10, 0, 0, 0, 4, 5]), with(1, 5, 2, 0, 5), end_mark, [9, 9, 9, 4, 5], Some(ADVANCES)),
            // More than was asked for, none, and from elsewhere.
            (more, frame(&[14, 10, 0, 0, 0, 4, 5, 6]), more, None, old, Some(IGNORED)),
            (more, frame(&[14, 10, 0, 0, 0]), more, None, old, Some(IGNORED)),
            (more, frame(&[14, 7, 0, 0, 0, 1, 2]), more, None, old, Some(IGNORED)),
            (with(0, 0, 0, 0, 1), timer, begun, start, old, None),
            (begun, timer, given_up, end_mark, old, None),
            (more, timer, with(3, 3, 1, 1, 5), end_mark, old, None),
            (given_up, frame(&[14, 7, 0, 0, 0, 1]), given_up, None, old, None),
        ];
        for (before, event, after, frame, buffer, raised) in cases {
            let wanted = (after, frame, &buffer[..]);
            self.counted_case(&end, before, event, &old, wanted, raised);
        }
    }

    fn good_dump(&mut self) -> Dump {
        let length = match self.random.below(8) {
            0 => 1,
            1 => self.random.range(1400, 3100) as u64,
            _ => self.random.range(1, 60) as u64,
        };
        let any = self.random.below(ADDRESS_END - length + 1);
        let address = self.random.pick(&[0, 1, any, ADDRESS_END - length]);
        let small = self.random.range(1, 40) as u32;
        let any = self.random.range(0, 255) as u32;
        Dump {
            settings: DumpSettings {
                length,
                address: address as u32,
                request_bytes: self.random.pick(&[1, small, small, 1494, 1495]),
                repeats: self.random.pick(&[0, 0, 1, 2, 254, 255, any]),
                version: self.any_version(),
            },
        }
    }

    /// A record that is not bad, also such as no run has.
    fn good_dump_record(&mut self, settings: DumpSettings) -> mop_proved::Dump {
        if self.random.once_in(8) {
            return waiting(self.any_count());
        }
        let verdict = self.random.pick(&[0, 0, 0, 0, 0, 0, 0, 1, 2, 3]);
        let length = settings.length;
        let any = self.random.below(length);
        let near = length.saturating_sub(settings.request_bytes.into());
        let filled = match verdict {
            1 => length,
            _ => self.random.pick(&[0, any, any, near, length - 1]),
        };
        let any = self.random.below(filled + 1);
        let replies = self.random.pick(&[0, filled, any]);
        let most = sent_most(settings, replies);
        let any = self.random.below(most + 1);
        mop_proved::Dump {
            filled,
            replies,
            sent: self.random.pick(&[0, 1, most - 1, most, any]),
            counts: self.any_counts(),
            repeats: self.any_repeats(settings.repeats),
            waiting: 0,
            verdict,
        }
    }

    fn any_dump_step(&mut self) {
        let mut end = self.good_dump();
        let mut record = self.good_dump_record(end.settings);
        let mut buffer = self.random.bytes(end.settings.length as usize);
        let frame = self.frame_for_dump(end.settings, record.filled);
        let event = match self.random.below(4) {
            0 => Event::Timer,
            _ => Event::Frame(Hex(&frame)),
        };
        let mut early = 0;
        if self.faulty() {
            early = 10;
            match self.random.once_in(2) {
                true => self.dump_setting_fault(&mut end.settings, &mut buffer),
                false => self.dump_record_fault(end.settings, &mut record),
            }
        }
        let room = self.any_reply_room();
        let case = Case::judged("any record and frame", &end, record, event, room, early);
        self.step(case, &mut buffer);
    }

    /// Breaks a setting, the range or the buffer's length.
    fn dump_setting_fault(&mut self, settings: &mut DumpSettings, buffer: &mut Vec<u8>) {
        let length = settings.length;
        match self.random.below(9) {
            8 => settings.version = self.random.pick(&NO_VERSIONS),
            0 => settings.request_bytes = self.random.pick(&[0, 1496, 65_537, u32::MAX]),
            1 => settings.repeats = self.random.pick(&[256, 65_536, u32::MAX]),
            2 => {
                settings.length = 0;
                buffer.clear();
            }
            3 if length > 1 => settings.address = (ADDRESS_END - length + 1) as u32,
            4 => {
                buffer.pop();
            }
            5 => buffer.push(0),
            6 => settings.length += self.random.pick(&[1 << 32, 1 << 33, 1 << 63]),
            _ => settings.length = u64::MAX - self.random.below(3),
        }
    }

    fn dump_record_fault(&mut self, settings: DumpSettings, record: &mut mop_proved::Dump) {
        let length = settings.length;
        let far = self.random.pick(&[1, 256, 1 << 32]);
        if self.random.once_in(3) {
            self.waiting_dump_fault(record);
            return;
        }
        record.waiting = 0;
        match self.random.below(8) {
            0 => record.verdict = self.number_from(4),
            1 => record.repeats = settings.repeats + self.random.pick(&[1, 255, 1 << 16]),
            2 => record.filled = self.random.pick(&[length + far, u64::MAX]),
            3 => record.replies = self.random.pick(&[record.filled + far, u64::MAX]),
            4 => {
                let most = sent_most(settings, record.replies);
                record.sent = self.random.pick(&[most + far, u64::MAX]);
            }
            5 => {
                record.verdict = 1;
                record.filled = record.filled.min(length - 1);
                record.replies = record.replies.min(record.filled);
            }
            6 => record.counts = self.full_counts(),
            _ => {
                record.verdict = self.random.pick(&[0, 2, 3]);
                record.filled = length;
            }
        }
    }

    /// A waiting mark that cannot be, or beside a number that is not 0.
    fn waiting_dump_fault(&mut self, record: &mut mop_proved::Dump) {
        *record = waiting(self.any_count());
        match self.random.below(8) {
            0 => record.waiting = self.number_from(2),
            1 => record.verdict = self.number_from(1),
            2 => record.filled = 1,
            3 => record.replies = self.random.pick(&[1, 1 << 32]),
            4 => record.sent = self.random.pick(&[1, 1 << 32]),
            5 => record.counts = self.begun_counts(),
            6 => record.counts = counts::only_ignored(TOP),
            _ => record.repeats = self.random.pick(&[1, 256]),
        }
    }

    /// A frame that may matter to a dump that has so many bytes.
    fn frame_for_dump(&mut self, settings: DumpSettings, filled: u64) -> Vec<u8> {
        let frame = match self.random.below(8) {
            0 => make::frame(&mut self.random, V3_0, 12),
            1..=6 => self.any_dump_data(settings, filled),
            _ => self.any_good_frame(),
        };
        self.perhaps_spoilt(frame)
    }

    fn any_dump_data(&mut self, settings: DumpSettings, filled: u64) -> Vec<u8> {
        let right = settings.address.wrapping_add(filled as u32);
        let any = self.random.u32();
        let wrong = [
            right.wrapping_add(1),
            right.wrapping_sub(1),
            settings.address,
            right ^ 1 << 31,
            any,
        ];
        let address = match self.random.once_in(4) {
            true => self.random.pick(&wrong),
            false => right,
        };
        let asked = asked(settings, filled);
        let any = self.random.range(0, asked);
        let over = (asked + 1).min(1495);
        let length = self.random.pick(&[0, 1, any, any, asked, asked, over]);
        frames::dump_data(address, &self.random.bytes(length))
    }

    fn dump_rooms(&mut self) {
        let end = Dump {
            settings: DumpSettings {
                length: 40,
                address: 7,
                request_bytes: 30,
                repeats: 1,
                version: self.any_version(),
            },
        };
        let running = mop_proved::Dump {
            sent: 1,
            ..Default::default()
        };
        let finished = mop_proved::Dump {
            filled: 40,
            verdict: 1,
            ..running
        };
        let buffer = self.random.bytes(40);
        let data = frames::dump_data(7, &[1, 2, 3]);
        for record in [waiting(0), running, finished] {
            for frame in [&[12, 0, 1, 0, 0, 0, 0, 0], &data[..], &[3]] {
                self.rooms(&end, record, Event::Frame(Hex(frame)), &buffer);
            }
            self.rooms(&end, record, Event::Timer, &buffer);
        }
    }
}

/// A dump of five bytes from 7 on, three at a time.
pub fn five_bytes(version: u8) -> Dump {
    Dump {
        settings: DumpSettings {
            length: 5,
            address: 7,
            request_bytes: 3,
            repeats: 1,
            version,
        },
    }
}

/// The bytes that are asked for when so many have come.
pub fn asked(settings: DumpSettings, filled: u64) -> usize {
    (settings.length - filled).min(settings.request_bytes.into()) as usize
}

/// The most frames that may have been sent.
pub fn sent_most(settings: DumpSettings, replies: u64) -> u64 {
    (replies + 1) * (u64::from(settings.repeats) + 1) + 1
}
