//! Compares the steps of the host's loop test.

use super::machine::{IDLE, state};
use super::runs::loadable;
use super::{Case, End, Event, Outcome, ROOM, first, read, room_refusal};
use crate::Compare;
use crate::beyond::BEYOND;
use crate::make::{NO_VERSIONS, V3_0, VERSIONS};
use crate::tally::Hex;
use mop_plain::looping::{self, Session, Settings};
use mop_plain::step::Sent;
use mop_plain::version::Version;
use mop_proved::{LoopSettings, Step};

#[derive(Clone, Copy, Debug)]
pub struct Loop<'a> {
    pub settings: LoopSettings,
    pub data: Hex<'a>,
}

impl End for Loop<'_> {
    type Record = mop_proved::Loop;
    const NAME: &'static str = "loop";
    const STEPS: &'static str = "loop steps";

    fn plain(
        &self,
        record: Self::Record,
        event: Event,
        _: &mut [u8],
        reply: &mut [u8],
    ) -> Result<(Self::Record, Sent), u8> {
        let Hex(data) = self.data;
        let settings = Settings {
            repeats: self.settings.repeats,
            receipt: self.settings.receipt,
            data,
            version: Version::from_number(self.settings.version)?,
        };
        let mut session = Session::from_numbers(record.verdict, record.repeats, record.sent)?;
        let sent = match event {
            Event::Start => {
                let (fresh, sent) = looping::start(settings, reply)?;
                session = fresh;
                sent
            }
            Event::Frame(Hex(bytes)) => looping::frame(settings, &mut session, bytes, reply)?,
            Event::Timer => looping::timer(settings, &mut session, reply)?,
        };
        Ok((numbers(session), sent))
    }

    fn proved(
        &self,
        record: Self::Record,
        event: Event,
        _: &mut [u8],
        reply: &mut [u8],
    ) -> Step<Self::Record> {
        let (settings, Hex(data)) = (self.settings, self.data);
        match event {
            Event::Start => mop_proved::loop_start(settings, data, reply),
            Event::Frame(Hex(bytes)) => {
                mop_proved::loop_frame(settings, record, data, bytes, reply)
            }
            Event::Timer => mop_proved::loop_timer(settings, record, data, reply),
        }
    }

    fn begun(&self) -> Self::Record {
        mop_proved::Loop {
            sent: 1,
            ..Default::default()
        }
    }

    fn verdict(record: &Self::Record) -> u8 {
        record.verdict
    }

    fn version(&self) -> u8 {
        self.settings.version
    }
}

fn numbers(session: Session) -> mop_proved::Loop {
    mop_proved::Loop {
        sent: session.sent,
        repeats: session.repeats,
        verdict: session.verdict as u8,
    }
}

impl Compare {
    pub fn all_loops(&mut self) {
        self.loop_steps();
        self.loop_runs();
    }

    fn loop_steps(&mut self) {
        for version in VERSIONS {
            self.loop_set_cases(version);
        }
        self.loop_rooms();
        for _ in 0..30_000 {
            self.any_loop_step();
        }
    }

    fn any_loop_data(&mut self) -> Vec<u8> {
        let length = match self.random.below(10) {
            0 => 0,
            1 => self.random.range(1480, 1497),
            2 => self.random.range(0, 1497),
            _ => self.random.range(1, 40),
        };
        self.random.bytes(length)
    }

    /// What the protocol says outright.
    fn loop_set_cases(&mut self, version: u8) {
        let end = test(version, 1, 515, &[1, 2]);
        let again: Option<&[u8]> = Some(&[24, 3, 2, 1, 2]);
        let reply = |frame| Event::Frame(Hex(frame));
        let with = |verdict, repeats, sent| mop_proved::Loop {
            sent,
            repeats,
            verdict,
        };
        let open = with(0, 0, 1);
        for (before, event, after, frame) in [
            (with(0, 0, 0), Event::Start, open, again),
            (open, reply(&[26, 3, 2, 1, 2]), with(1, 0, 1), None),
            (open, reply(&[24, 3, 2, 1, 2]), with(2, 0, 1), None),
            (open, reply(&[26, 3, 2, 1]), open, None),
            (open, reply(&[26, 3, 2, 1, 2, 0]), open, None),
            (open, reply(&[26, 2, 2, 1, 2]), open, None),
            (open, reply(&[3]), open, None),
            (open, Event::Timer, with(0, 1, 2), again),
            (with(0, 0, 0), Event::Timer, with(0, 1, 1), again),
            (with(0, 1, 2), Event::Timer, with(3, 1, 2), None),
            (with(3, 1, 2), reply(&[26, 3, 2, 1, 2]), with(3, 1, 2), None),
        ] {
            self.set_case(&end, before, event, &[], (after, frame, &[]));
        }
    }

    fn any_loop_step(&mut self) {
        let mut data = self.any_loop_data();
        let any = self.random.range(0, 255) as u32;
        let mut settings = LoopSettings {
            repeats: self.random.pick(&[0, 0, 1, 2, 254, 255, any]),
            receipt: self.random.u16(),
            version: self.any_version(),
        };
        let mut record = self.good_loop_record(settings.repeats);
        let frame = self.frame_for_loop(settings.receipt, &data);
        let event = match self.random.below(8) {
            0 => Event::Start,
            1 | 2 => Event::Timer,
            _ => Event::Frame(Hex(&frame)),
        };
        let start = matches!(event, Event::Start);
        if start {
            record = Default::default();
        }
        let early = match self.faulty() {
            true => 10,
            false => 0,
        };
        if early != 0 && !start && self.random.once_in(2) {
            self.loop_record_fault(settings.repeats, &mut record);
        } else if early != 0 {
            self.loop_setting_fault(&mut settings, &mut data);
        }
        let end = Loop {
            settings,
            data: Hex(&data),
        };
        let room = self.any_reply_room();
        let case = Case {
            kind: "any record and frame",
            end: &end,
            record,
            event,
            room,
            wanted: first(&[early, room_refusal(room), event.refusal(&end)]),
        };
        self.step(case, &mut []);
    }

    fn loop_setting_fault(&mut self, settings: &mut LoopSettings, data: &mut Vec<u8>) {
        match self.random.below(3) {
            0 => settings.repeats = self.random.pick(&[256, 65_536, u32::MAX]),
            1 => settings.version = self.random.pick(&NO_VERSIONS),
            _ => {
                let length = self.random.pick(&[1498, 1499, 1500, 1501, 67_033]);
                *data = self.random.bytes(length);
            }
        }
    }

    fn loop_record_fault(&mut self, repeats: u32, record: &mut mop_proved::Loop) {
        let most = u64::from(repeats) + 1;
        match self.random.below(3) {
            0 => record.repeats = self.random.pick(&[repeats + 1, repeats + 256, u32::MAX]),
            1 => record.sent = self.random.pick(&[most + 1, most + (1 << 32), u64::MAX]),
            _ => record.verdict = self.number_from(4),
        }
    }

    fn good_loop_record(&mut self, repeats: u32) -> mop_proved::Loop {
        let most = u64::from(repeats) + 1;
        let any = self.random.below(most + 1);
        mop_proved::Loop {
            sent: self.random.pick(&[0, 1, most, any]),
            repeats: self.any_repeats(repeats),
            verdict: self.random.pick(&[0, 0, 0, 0, 0, 1, 2, 3]),
        }
    }

    /// The test's own data come back, or with a difference.
    fn frame_for_loop(&mut self, receipt: u16, data: &[u8]) -> Vec<u8> {
        let code = self.random.pick(&[24, 26]);
        let frame = match self.random.below(8) {
            0..=3 => loop_data(code, receipt, data),
            4 => loop_data(code, receipt ^ 1 << self.random.below(16), data),
            5 => {
                let shorter = data.len().saturating_sub(1);
                loop_data(code, receipt, &data[..shorter])
            }
            6 => {
                let mut frame = loop_data(code, receipt, data);
                let at = self.random.range(1, frame.len() - 1);
                frame[at] = self.random.other_than(frame[at]);
                frame
            }
            _ => self.any_good_frame(),
        };
        self.perhaps_spoilt(frame)
    }

    fn loop_rooms(&mut self) {
        let end = test(self.any_version(), 1, 515, &[1, 2, 3]);
        for verdict in 0..=3 {
            let record = mop_proved::Loop {
                sent: 1,
                repeats: 0,
                verdict,
            };
            for frame in [
                [26, 3, 2, 1, 2, 3],
                [24, 3, 2, 1, 2, 3],
                [26, 3, 2, 1, 2, 4],
            ] {
                self.rooms(&end, record, Event::Frame(Hex(&frame)), &[]);
            }
            self.rooms(&end, record, Event::Timer, &[]);
        }
        self.rooms(&end, Default::default(), Event::Start, &[]);
    }

    /// Loop tests, answered by an idle machine, by a plug, or not at all.
    fn loop_runs(&mut self) {
        for _ in 0..2000 {
            let length = self.random.pick(&[0, 1, 7, 300, 1497]);
            let data = self.random.bytes(length);
            let repeats = self.random.pick(&[0, 1, 2, 5]);
            let host = test(self.any_version(), repeats, self.random.u16(), &data);
            self.loop_run(&host);
        }
    }

    fn loop_run(&mut self, host: &Loop) {
        let mut record = Default::default();
        let mut answer: Option<Vec<u8>> = None;
        let mut sent = 0;
        for turn in 0..self.random.range(1, 10) {
            let event = match &answer {
                _ if turn == 0 => Event::Start,
                Some(frame) => Event::Frame(Hex(frame)),
                None => Event::Timer,
            };
            let outcome = self.loop_call(host, record, event);
            record = outcome.record;
            sent += outcome.frame.iter().len() as u64;
            answer = outcome
                .frame
                .and_then(|frame| self.loop_answer(host, frame));
        }
        if record.sent != sent || sent > u64::from(host.settings.repeats) + 1 {
            let what = format_args!("claim of a loop test");
            self.report(what, host, record, sent);
        }
        self.tally.ends.run(Loop::NAME, record.verdict, sent);
    }

    fn loop_call<E: End>(
        &mut self,
        end: &E,
        record: E::Record,
        event: Event,
    ) -> Outcome<E::Record> {
        let case = Case {
            kind: "in loop tests",
            end,
            record,
            event,
            room: ROOM,
            wanted: 0,
        };
        self.step(case, &mut [0; 64])
    }

    /// What comes back for a test's frame.
    fn loop_answer(&mut self, host: &Loop, frame: Vec<u8>) -> Option<Vec<u8>> {
        match self.random.below(6) {
            0 => Some(frame),
            1 => {
                let event = Event::Frame(Hex(&frame));
                let machine = loadable(host.version(), 0, 0);
                self.loop_call(&machine, state(IDLE), event).frame
            }
            2 => Some(self.damage(&frame)).filter(|frame| read(host, frame).is_ok()),
            _ => None,
        }
    }

    /// Frames and loop data whose low 32 bits say 0 to 9.
    pub fn loops_beyond(&mut self, bytes: &mut [u8]) {
        self.refused(&once(&bytes[..BEYOND]), Event::Start, 10);
        self.refused(&once(&bytes[..BEYOND + 9]), Event::Timer, 10);
        bytes[0] = 24;
        self.refused(&once(&[1]), Event::Frame(Hex(&bytes[..BEYOND + 4])), 2);
        bytes[0] = 0;
    }
}

pub fn test(version: u8, repeats: u32, receipt: u16, data: &[u8]) -> Loop<'_> {
    Loop {
        settings: LoopSettings {
            repeats,
            receipt,
            version,
        },
        data: Hex(data),
    }
}

/// A test of these data with one repeat.
fn once(data: &[u8]) -> Loop<'_> {
    test(V3_0, 1, 0, data)
}

/// Code 24 or 26.
fn loop_data(code: u8, receipt: u16, data: &[u8]) -> Vec<u8> {
    let mut frame = vec![code];
    frame.extend(receipt.to_le_bytes());
    frame.extend(data);
    frame
}
