//! Compares the steps of the host's load, with and without a parameter string.

use super::counts::{self, ADVANCES, Counting, Host, IGNORED, REJECTIONS, STARTS};
use super::{Case, End, Event, ROOM, first, frames, room_refusal};
use crate::Compare;
use crate::images::{self, Good, Region};
use crate::make::{NO_VERSIONS, V3_0};
use crate::tally::Hex;
use mop_plain::image;
use mop_plain::load::{self, Progress, Session};
use mop_plain::step::Sent;
use mop_plain::version::Version;
use mop_proved::{Counts, LoadSettings, Step, Written};

/// The most frames of a load that may begin again.
const RESTARTING_MOST: u64 = 256;
/// The most restarts.
pub const RESTARTS_MOST: u32 = 65_535;

#[derive(Clone, Copy, Debug)]
pub struct Load<'a> {
    pub settings: LoadSettings,
    pub file: Hex<'a>,
    /// The parameter string, which only a load with parameters looks at.
    pub parameters: Hex<'a>,
}

impl Load<'_> {
    /// n, the frames of a load of so many segments.
    pub fn frames(&self, segments: u64) -> u64 {
        segments + u64::from(self.settings.with_parameters == 1)
    }
}

impl End for Load<'_> {
    type Record = mop_proved::Load;
    const NAME: &'static str = "load";
    const STEPS: &'static str = "load steps";

    fn plain(
        &self,
        record: Self::Record,
        event: Event,
        _: &mut [u8],
        reply: &mut [u8],
    ) -> Result<(Self::Record, Sent), u8> {
        if matches!(event, Event::Start) {
            return Ok((numbers(Session::FRESH), None));
        }
        let (Hex(file), Hex(string)) = (self.file, self.parameters);
        let settings = load::Settings {
            segment_size: self.settings.segment_size,
            repeats: self.settings.repeats,
            parameters: load::given(self.settings.with_parameters, string)?,
            version: Version::from_number(self.settings.version)?,
            restart: load::restart(self.settings.restart)?,
        };
        let mut session = Session::from_numbers(
            record.waiting,
            record.verdict,
            record.position,
            record.repeats,
            record.restarts,
            record.sent,
            counts::plain(record.counts),
        )?;
        let sent = match event {
            Event::Frame(Hex(bytes)) => load::frame(settings, &mut session, file, bytes, reply)?,
            _ => load::timer(settings, &mut session, file, reply)?,
        };
        Ok((numbers(session), sent))
    }

    fn proved(
        &self,
        record: Self::Record,
        event: Event,
        _: &mut [u8],
        reply: &mut [u8],
    ) -> Step<Self::Record> {
        let (settings, Hex(file), Hex(string)) = (self.settings, self.file, self.parameters);
        match event {
            Event::Start => Step {
                record: mop_proved::load_start(),
                ..Default::default()
            },
            Event::Frame(Hex(bytes)) => {
                mop_proved::load_frame(settings, record, file, string, bytes, reply)
            }
            Event::Timer => mop_proved::load_timer(settings, record, file, string, reply),
        }
    }

    fn in_place(
        &self,
        record: &mut Self::Record,
        event: Event,
        _: &mut [u8],
        reply: &mut [u8],
    ) -> Option<Written> {
        let (settings, Hex(file), Hex(string)) = (self.settings, self.file, self.parameters);
        Some(match event {
            Event::Start => return None,
            Event::Frame(Hex(bytes)) => {
                mop_proved::load_update_frame(settings, record, file, string, bytes, reply)
            }
            Event::Timer => mop_proved::load_update_timer(settings, record, file, string, reply),
        })
    }

    fn begun(&self) -> Self::Record {
        mop_proved::load_start()
    }

    fn verdict(record: &Self::Record) -> u8 {
        record.verdict
    }

    fn host(record: &Self::Record) -> Option<Host> {
        Some(Host {
            waits: record.waiting == 1,
            verdict: record.verdict,
            progress: record.position,
            taken: record.position,
            restarts: record.restarts.into(),
            counts: counts::four(record.counts),
        })
    }

    fn version(&self) -> u8 {
        self.settings.version
    }
}

impl Counting for Load<'_> {
    fn with_counts(record: mop_proved::Load, counts: Counts) -> mop_proved::Load {
        mop_proved::Load { counts, ..record }
    }
}

fn numbers(session: Session) -> mop_proved::Load {
    match session {
        Session::Waiting { ignored } => waiting(ignored),
        Session::Begun(Progress {
            verdict,
            position,
            repeats,
            restarts,
            sent,
            counts,
        }) => mop_proved::Load {
            counts: counts::from_plain(counts),
            restarts,
            ..ended(verdict as u8, position, repeats, sent)
        },
    }
}

/// Waiting, so many frames ignored.
pub fn waiting(ignored: u64) -> mop_proved::Load {
    mop_proved::Load {
        counts: counts::only_ignored(ignored),
        waiting: 1,
        ..Default::default()
    }
}

/// The rehearsal's example: three bytes at 2, in two segments.
pub fn example() -> Vec<u8> {
    let region = Region {
        address: 2,
        offset: 0,
        length: 3,
    };
    images::build(&[10, 11, 12], &[region], 2)
}

pub const EXAMPLE_SETTINGS: LoadSettings = LoadSettings {
    segment_size: 2,
    repeats: 1,
    with_parameters: 0,
    version: V3_0,
    restart: 0,
};

/// Not over, c frames answered.
pub fn running(position: u64, repeats: u32, sent: u64) -> mop_proved::Load {
    ended(0, position, repeats, sent)
}

/// With this verdict, never begun again, and no frame counted.
pub fn ended(verdict: u8, position: u64, repeats: u32, sent: u64) -> mop_proved::Load {
    mop_proved::Load {
        position,
        sent,
        counts: Counts::default(),
        repeats,
        restarts: 0,
        waiting: 0,
        verdict,
    }
}

/// The most frames sent in a load of so many, begun again so often.
pub fn sent_most(settings: LoadSettings, restarts: u32, frames: u64) -> u64 {
    (u64::from(restarts) + 1) * frames * (u64::from(settings.repeats) + 1)
}

/// 12 for a load that may begin again and has this many frames, or 0.
pub fn many(settings: LoadSettings, frames: u64) -> u8 {
    match settings.restart == 1 && frames > RESTARTING_MOST {
        true => 12,
        false => 0,
    }
}

impl Compare {
    pub fn load_steps(&mut self) {
        self.load_set_cases();
        self.load_rooms();
        self.load_answers();
        self.load_parameters();
        for _ in 0..1500 {
            let count = self.random.pick(&[1, 1, 2, 3, 64, 65, 200]);
            let file = Good::new(&mut self.random, count).file();
            for _ in 0..40 {
                let file = self.perhaps_spoilt_image(&file);
                self.any_load_step("any record, image and frame", &file);
            }
        }
    }

    /// The steps of the rehearsal's example, and what the protocol says outright.
    fn load_set_cases(&mut self) {
        let file = example();
        let end = Load {
            settings: EXAMPLE_SETTINGS,
            file: Hex(&file),
            parameters: Hex(&[]),
        };
        let waiting = waiting(0);
        let with = ended;
        let frame = |frame| Event::Frame(Hex(frame));
        let timer = Event::Timer;
        let request = frame(&[8, 0, 1, 2, 255, 0]);
        let first: Option<&[u8]> = Some(&[2, 0, 2, 0, 0, 0, 10, 11]);
        let last: Option<&[u8]> = Some(&[0, 1, 4, 0, 0, 0, 12, 2, 0, 0, 0]);
        #[rustfmt::skip]
        let cases = [
            (waiting, request, with(0, 0, 0, 1), first, Some(STARTS)),
            (waiting, frame(&[8, 0, 1, 1, 255, 0]), waiting, None, Some(IGNORED)),
            (waiting, frame(&[10, 1, 0]), waiting, None, Some(IGNORED)),
            (waiting, timer, waiting, None, None),
            (with(0, 0, 1, 2), request, with(0, 0, 1, 2), None, Some(IGNORED)),
            (with(0, 0, 1, 2), frame(&[10, 1, 0]), with(0, 1, 0, 3), last, Some(ADVANCES)),
            (with(0, 0, 1, 2), frame(&[10, 1, 9]), with(2, 0, 1, 2), None, Some(REJECTIONS)),
            (with(0, 0, 1, 2), frame(&[10, 2, 9]), with(0, 0, 1, 2), None, Some(IGNORED)),
            // A doubled reply sends nothing.
            (with(0, 1, 0, 3), frame(&[10, 1, 0]), with(0, 1, 0, 3), None, Some(IGNORED)),
            (with(0, 1, 1, 3), frame(&[10, 2, 0]), with(1, 2, 0, 3), None, Some(ADVANCES)),
            (with(0, 0, 0, 1), timer, with(0, 0, 1, 2), first, None),
            (with(0, 0, 1, 2), timer, with(3, 0, 1, 2), None, None),
            // The last segment's silence is not a failure.
            (with(0, 1, 1, 3), timer, with(4, 1, 1, 3), None, None),
            (with(3, 0, 1, 2), frame(&[10, 1, 0]), with(3, 0, 1, 2), None, None),
            (with(4, 1, 0, 2), timer, with(4, 1, 0, 2), None, None),
        ];
        for (before, event, after, frame, raised) in cases {
            self.counted_case(&end, before, event, &[], (after, frame, &[]), raised);
        }
    }

    /// Good settings; the string, of this version, is given or not.
    fn good_load<'a>(&mut self, version: u8, file: &'a [u8], string: &'a [u8]) -> Load<'a> {
        let any = self.random.range(1, 1490) as u32;
        let small = self.random.range(1, 40) as u32;
        let segment_size = self.random.pick(&[1, 2, small, 1490, any]);
        let any = self.random.range(0, 255) as u32;
        Load {
            settings: LoadSettings {
                segment_size,
                repeats: self.random.pick(&[0, 0, 1, 2, 254, 255, any]),
                with_parameters: self.random.pick(&[0, 1]),
                version,
                restart: self.random.pick(&[0, 1]),
            },
            file: Hex(file),
            parameters: Hex(string),
        }
    }

    /// A record that is not bad: waiting, running or with a verdict, also such
    /// as no run has.
    fn good_load_record(&mut self, settings: LoadSettings, frames: u64) -> mop_proved::Load {
        if self.random.once_in(8) {
            return waiting(self.any_count());
        }
        let verdict = self.random.pick(&[0, 0, 0, 0, 0, 0, 0, 1, 2, 3, 4]);
        let last = frames - 1;
        let any = self.random.below(frames);
        let round = any / 256 * 256 + self.random.pick(&[0, 254, 255]);
        let near = last.saturating_sub(1);
        let position = self.random.pick(&[0, near, last, any, round.min(last)]);
        let restarts = self.any_restarts(settings.restart);
        let most = sent_most(settings, restarts, frames);
        let any = self.random.below(most + 1);
        mop_proved::Load {
            position: if verdict == 1 { frames } else { position },
            sent: self.random.pick(&[0, 1, most - 1, most, any]),
            counts: self.any_counts(),
            repeats: self.any_repeats(settings.repeats),
            restarts,
            waiting: 0,
            verdict,
        }
    }

    /// Restarts of a load that may begin again, else none.
    fn any_restarts(&mut self, restart: u8) -> u32 {
        let any = self.random.u16().into();
        let allowed = [0, 0, 1, any, RESTARTS_MOST - 1, RESTARTS_MOST];
        self.random.pick(&allowed) * u32::from(restart)
    }

    /// Repeats used, of those allowed.
    pub fn any_repeats(&mut self, allowed: u32) -> u32 {
        let any = self.random.below(u64::from(allowed) + 1) as u32;
        self.random
            .pick(&[0, allowed, allowed.saturating_sub(1), any])
    }

    pub fn any_load_step(&mut self, kind: &'static str, file: &[u8]) {
        let version = self.any_version();
        let (string, refusal) = self.any_string(version);
        let mut end = self.good_load(version, file, &string);
        let image = image::check(file, end.settings.segment_size);
        let frames = end.frames(image.as_ref().map_or(9, image::Image::segments));
        let bad_string = refusal * end.settings.with_parameters;
        let mut record = self.good_load_record(end.settings, frames);
        let frame = self.frame_for_load(record.position);
        let event = match self.random.below(4) {
            0 => Event::Timer,
            _ => Event::Frame(Hex(&frame)),
        };
        let mut late = 0;
        if self.faulty() {
            record = self.late_load_fault(end.settings, frames);
            late = 10;
        }
        let mut early = 0;
        if self.faulty() {
            self.early_load_fault(&mut end.settings, &mut record);
            early = 10;
        }
        let room = self.any_reply_room();
        let case = Case {
            kind,
            end: &end,
            record,
            event,
            room,
            wanted: first(&[
                early,
                room_refusal(room),
                image.err().unwrap_or(0),
                many(end.settings, frames),
                late,
                bad_string,
                event.refusal(&end),
            ]),
        };
        self.step(case, &mut []);
    }

    /// The image file, or now and then one with a byte of directory or trailer
    /// changed, or cut.
    pub fn perhaps_spoilt_image(&mut self, file: &[u8]) -> Vec<u8> {
        let mut file = file.to_vec();
        let tail = file.len().min(40);
        match self.random.below(16) {
            0 | 1 => {
                let at = file.len() - self.random.range(1, tail);
                file[at] = self.random.other_than(file[at]);
            }
            2 => file.truncate(self.random.range(0, tail)),
            _ => {}
        }
        file
    }

    /// Breaks a rule that is judged before the reply buffer and the image.
    fn early_load_fault(&mut self, settings: &mut LoadSettings, record: &mut mop_proved::Load) {
        let high = self.random.pick(&[1, 255, 1 << 16]);
        match self.random.below(17) {
            0 => settings.segment_size = self.random.pick(&[0, 1491, 65_537, u32::MAX]),
            1 => settings.repeats = self.random.pick(&[256, 257, 65_536, u32::MAX]),
            2 => record.repeats = settings.repeats + high,
            3 => record.repeats = u32::MAX,
            4 => (record.waiting, record.verdict) = (0, self.number_from(5)),
            5 => record.waiting = self.number_from(2),
            6 => (record.waiting, record.position) = (1, self.random.pick(&[1, 1 << 32])),
            7 => (record.waiting, record.sent) = (1, self.random.pick(&[1, 1 << 32])),
            8 => settings.with_parameters = self.number_from(2),
            9 => settings.version = self.random.pick(&NO_VERSIONS),
            10 => record.counts = self.full_counts(),
            11 => (record.waiting, record.counts) = (1, self.begun_counts()),
            12 => settings.restart = self.number_from(2),
            13 => record.restarts = RESTARTS_MOST + high,
            14 => (settings.restart, record.restarts) = (0, self.random.pick(&[1, 65_535])),
            15 => (record.waiting, record.restarts) = (1, self.random.pick(&[1, 65_535])),
            _ => {
                *record = waiting(self.any_count());
                match self.random.once_in(2) {
                    true => record.verdict = self.number_from(1),
                    false => record.repeats = self.random.pick(&[1, 256]),
                }
            }
        }
    }

    /// A record that breaks only a rule that needs the number of frames.
    fn late_load_fault(&mut self, settings: LoadSettings, frames: u64) -> mop_proved::Load {
        let mut record = self.good_load_record(settings, frames);
        record.waiting = 0;
        let most = sent_most(settings, record.restarts, frames);
        let open = self.random.pick(&[0, 2, 3, 4]);
        match self.random.below(4) {
            0 => {
                let high = [frames + 1, frames + 256, frames + (1 << 32), u64::MAX];
                record.position = self.random.pick(&high);
            }
            1 => {
                let high = [most + 1, most + 256, most + (1 << 32), u64::MAX];
                record.sent = self.random.pick(&high);
            }
            2 => (record.verdict, record.position) = (1, self.random.below(frames)),
            _ => (record.verdict, record.position) = (open, frames),
        }
        record
    }

    /// A frame that may matter to a load at this position.
    fn frame_for_load(&mut self, position: u64) -> Vec<u8> {
        let wanted = (position + 1) as u8;
        let any = self.random.u8();
        let frame = match self.random.below(8) {
            0 | 1 => self.any_request(),
            2..=6 => {
                let near = [wanted, wanted.wrapping_sub(1), wanted.wrapping_add(1), any];
                let number = self.random.pick(&[[wanted; 4], near].concat());
                frames::request_load(number, self.random.pick(&[0, 0, 0, 1, 255, any]))
            }
            _ => self.any_good_frame(),
        };
        self.perhaps_spoilt(frame)
    }

    fn load_rooms(&mut self) {
        let file = Good::new(&mut self.random, 3).file();
        for mark in [0, 1] {
            let version = self.any_version();
            let string = self.any_entries(version).concat();
            let mut end = self.good_load(version, &file, &string);
            end.settings.with_parameters = mark;
            let image = image::check(&file, end.settings.segment_size);
            let frames = end.frames(image.map_or(0, |image| image.segments()));
            end.settings.restart = (frames <= RESTARTING_MOST).into();
            let request = [8, 0, 1, 2, 255, 0];
            for record in [waiting(0), running(0, 0, 1), ended(1, frames, 0, 1)] {
                for frame in [&request[..], &[10, 1, 0], &[3]] {
                    self.rooms(&end, record, Event::Frame(Hex(frame)), &[]);
                }
                self.rooms(&end, record, Event::Timer, &[]);
            }
        }
    }

    /// Every number and many errors, at positions about the numbers' wrap.
    fn load_answers(&mut self) {
        let file = images::shared(&self.random.bytes(600), 1, 5);
        let version = self.any_version();
        let string = self.any_entries(version).concat();
        let mut end = Load {
            settings: LoadSettings {
                segment_size: 1,
                repeats: 3,
                with_parameters: 0,
                version,
                restart: 0,
            },
            file: Hex(&file),
            parameters: Hex(&string),
        };
        self.every_answer(&end, &[0, 1, 254, 255, 256, 257, 510, 511, 512, 598, 599]);
        end.settings.with_parameters = 1;
        self.every_answer(&end, &[0, 255, 256, 598, 599, 600]);
    }

    fn every_answer(&mut self, end: &Load, positions: &[u64]) {
        for &position in positions {
            for number in 0..=255 {
                for error in [0, 1, 128] {
                    let frame = frames::request_load(number, error);
                    let case = Case {
                        kind: "every number answered",
                        end,
                        record: running(position, 2, position + 1),
                        event: Event::Frame(Hex(&frame)),
                        room: ROOM,
                        wanted: 0,
                    };
                    self.step(case, &mut []);
                }
            }
        }
    }
}
