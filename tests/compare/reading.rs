//! Compares the readers.

use crate::Compare;
use crate::make::{self, NO_VERSIONS, V2_1, V3_0, VERSIONS, entry_fits};
use crate::tally::{CODES, Hex};
use mop_plain::frame::{self, Frame};
use mop_plain::version::Version;

impl Compare {
    /// Reads a frame with both implementations and compares every field; an
    /// accepted one is written again. `wanted` is the answer by the protocol,
    /// where the case's maker knows it: 0, or the refusal.
    pub fn read(&mut self, version: u8, kind: &'static str, bytes: &[u8], wanted: Option<u8>) {
        let plain = Version::from_number(version).and_then(|version| frame::read(version, bytes));
        let expected = fields(plain, bytes);
        let seen = mop_proved::read(version, bytes);
        self.tally.frame(kind, bytes, expected.refusal);
        if seen != expected {
            let what = format_args!("reader, version {version}, {kind}");
            self.tally.differ(what, Hex(bytes), seen, expected);
        }
        if wanted.is_some_and(|wanted| wanted != expected.refusal) {
            let what = format_args!("plain reader against the protocol, version {version}, {kind}");
            self.tally
                .differ(what, Hex(bytes), expected.refusal, wanted);
        }
        if let Ok(frame) = plain {
            self.rewrite(version, &frame, bytes);
        }
    }

    /// The same under both versions, which give one answer.
    pub fn read_alike(&mut self, kind: &'static str, bytes: &[u8], wanted: Option<u8>) {
        for version in VERSIONS {
            self.read(version, kind, bytes, wanted);
        }
    }

    pub fn any_version(&mut self) -> u8 {
        self.random.pick(&VERSIONS)
    }

    pub fn all_readers(&mut self) {
        self.set_cases();
        self.first_bytes();
        self.whole_frames();
        self.cut_frames();
        self.software_forms();
        for version in VERSIONS {
            self.entry_types(version);
            self.entry_lengths(version);
            self.swallowing_entries(version);
            self.long_parameters(version);
            self.times(version);
            self.cut_times(version);
        }
        self.offsets();
        self.random_frames();
        self.random_entries();
        self.versions_that_are_none();
    }

    /// Paper 01's set cases K1 to K5 and K11, and what its text says outright.
    fn set_cases(&mut self) {
        const TIME: [u8; 10] = [20, 26, 2, 31, 23, 59, 59, 99, 0, 0];
        let load = |length| vec![0; length];
        let unlisted = [&[16][..], &[0; 1999]].concat();
        let bad_form = [&[8, 0, 1, 2, 17][..], &[0; 1496]].concat();
        let time = |hours: i8, minutes: i8| {
            let offset = [hours as u8, minutes as u8];
            [&[20, 0, 5, 10][..], &TIME[..8], &offset, &[0; 5]].concat()
        };
        for (frame, wanted) in [
            (vec![], 1),
            (vec![10, 1, 0], 0),
            (vec![10, 1], 1),
            (vec![10, 1, 0, 0], 2),
            (vec![16], 3),
            (load(10), 0),
            (load(9), 1),
            (unlisted, 3),
            (bad_form, 2),
            (vec![8, 0, 1, 3, 16, 0], 4),
            (vec![8, 0, 1, 2, 16, 0], 1),
            (vec![8, 0, 1, 2, 253, 0], 4),
            (vec![20, 0, 0, 1, 2, 3, 4], 0),
            (vec![20, 0, 0, 1, 2, 3, 4, 5], 2),
            (vec![20, 0, 1, 0, 0, 1, 2, 3], 1),
            (vec![20, 0, 1, 0, 3, 0, 6], 4),
        ] {
            self.read_alike("set cases", &frame, Some(wanted));
        }
        for (frame, wanted) in [
            (time(0, -30), 0),
            (time(1, -30), 4),
            (time(-1, 30), 4),
            (time(-12, -59), 0),
            (time(13, 59), 0),
            (vec![20, 0, 1, 0, 3, 0, 5], 1),
        ] {
            self.read(V3_0, "set cases", &frame, Some(wanted));
            self.read(V2_1, "set cases", &frame, Some(4));
        }
        let (number, error) = (1, 0);
        let wanted = Ok(Frame::RequestLoad { number, error });
        let seen = frame::read(Version::V2_1, &[10, 1, 0]);
        if seen != wanted {
            let what = format_args!("plain reader, K2");
            self.tally.differ(what, Hex(&[10, 1, 0]), seen, wanted);
        }
    }

    /// Every first byte at lengths about the bounds.
    fn first_bytes(&mut self) {
        for first in 0..=255u8 {
            let listed = CODES.iter().find(|listed| listed.code == first);
            let least = listed.map_or(6, |listed| listed.least);
            for length in [1, 2, least - 1, least, least + 1, 1499, 1500, 1501, 2000] {
                let mut zeros = vec![0; length];
                let mut any = self.random.bytes(length);
                for frame in [&mut zeros, &mut any] {
                    let Some(byte) = frame.first_mut() else {
                        continue;
                    };
                    *byte = first;
                    let wanted = if listed.is_none() { Some(3) } else { None };
                    self.read_alike("every first byte at many lengths", frame, wanted);
                }
            }
        }
    }

    /// Good frames of every code, damaged by one byte, and extended.
    fn whole_frames(&mut self) {
        for round in 0..4000 {
            let version = VERSIONS[round % 2];
            for listed in &CODES {
                let frame = make::frame(&mut self.random, version, listed.code);
                self.read(version, "good", &frame, Some(0));
                for _ in 0..3 {
                    let damaged = self.damage(&frame);
                    self.read(version, "damaged by one byte", &damaged, None);
                }
                self.extend(version, &frame, listed.most);
            }
        }
    }

    pub fn damage(&mut self, frame: &[u8]) -> Vec<u8> {
        let mut damaged = frame.to_vec();
        let near = damaged.len().min(24);
        let reach = self.random.pick(&[near, near, near, damaged.len()]);
        let place = self.random.range(0, reach - 1);
        damaged[place] = self.random.other_than(damaged[place]);
        damaged
    }

    fn extend(&mut self, version: u8, frame: &[u8], most: usize) {
        let count = self.random.pick(&[1, 1, 2, 4, 5, 500]);
        let mut extended = frame.to_vec();
        extended.extend(self.random.bytes(count));
        let refused = frame[0] == 20 || extended.len() > most;
        let wanted = if refused { 2 } else { 0 };
        self.read(version, "extended", &extended, Some(wanted));
    }

    /// Good frames, cut at every length.
    fn cut_frames(&mut self) {
        for round in 0..40 {
            let version = VERSIONS[round % 2];
            for listed in &CODES {
                let frame = make::frame(&mut self.random, version, listed.code);
                if frame.len() > 200 && round >= 8 {
                    continue;
                }
                let needed = needed(&frame, listed.least);
                for length in 0..=frame.len() {
                    let wanted = if length < needed { 1 } else { 0 };
                    let part = &frame[..length];
                    self.read(version, "cut at every length", part, Some(wanted));
                }
            }
        }
    }

    /// Every form and program type, the id whole and cut.
    fn software_forms(&mut self) {
        for form in 0..=255u8 {
            let id = if form <= 16 { usize::from(form) } else { 0 };
            let listed = matches!(form, 0..=16 | 254 | 255);
            for program in [0, 1, 2, 3] {
                for length in 6..=25 {
                    let mut frame = self.random.bytes(length);
                    (frame[0], frame[3], frame[4]) = (8, program, form);
                    let wanted = match program <= 2 && listed {
                        false => 4,
                        true if length < 6 + id => 1,
                        true => 0,
                    };
                    let version = self.any_version();
                    self.read(version, "every software form", &frame, Some(wanted));
                }
            }
        }
        for program in 0..=255u8 {
            let frame = [8, 0, 1, program, 0, 0];
            let wanted = if program <= 2 { 0 } else { 4 };
            self.read_alike("every program type", &frame, Some(wanted));
        }
    }

    /// Every entry type, with lengths about the bounds, first or behind
    /// another entry, whole or cut behind the type or the length.
    fn entry_types(&mut self, version: u8) {
        for kind in 0..=255u8 {
            for length in [0, 1, 2, 3, 5, 6, 7, 9, 10, 11, 15, 16, 17, 255] {
                let time = make::time(&mut self.random);
                let value = if kind == 5 && length == 10 {
                    time.to_vec()
                } else {
                    self.random.bytes(length)
                };
                let entry = make::with_head(kind, value);
                let wanted = match kind {
                    0 => None,
                    _ if entry_fits(version, kind, length) => Some(0),
                    _ => Some(4),
                };
                let before = make::entry(&mut self.random, version);
                for entries in [entry.clone(), [before, entry.clone()].concat()] {
                    let frame = make::parameters(&mut self.random, &entries);
                    self.read(version, "every entry type", &frame, wanted);
                }
                self.entry_cut(version, &entry);
            }
        }
    }

    /// A frame that ends behind an entry's type, and behind its length.
    fn entry_cut(&mut self, version: u8, entry: &[u8]) {
        let (kind, length) = (entry[0], usize::from(entry[1]));
        let before = make::with_head(3, self.random.bytes(5));
        let start = [&[20, 0][..], &before].concat();
        let known = kind <= if version == V2_1 { 4 } else { 5 };
        let fits = kind == 0 || entry_fits(version, kind, length);
        for (part, good) in [(&entry[..1], known), (&entry[..2], fits)] {
            let wanted = if good { 1 } else { 4 };
            let frame = [&start, part].concat();
            self.read(
                version,
                "ends behind an entry's type or length",
                &frame,
                Some(wanted),
            );
        }
    }

    /// Every length byte of types 1 to 5; the last is not listed under 2.1.
    fn entry_lengths(&mut self, version: u8) {
        for kind in 1..=5u8 {
            for length in 0..=255usize {
                let value = match (kind, length) {
                    (5, 10) => make::time(&mut self.random).to_vec(),
                    _ => self.random.bytes(length),
                };
                let entries = make::with_head(kind, value);
                let frame = make::parameters(&mut self.random, &entries);
                let wanted = if entry_fits(version, kind, length) {
                    0
                } else {
                    4
                };
                let kind = match (version, kind) {
                    (V2_1, 5) => "2.1: host times of every length",
                    (V2_1, _) => "2.1: names and addresses of every length",
                    _ => "every entry length",
                };
                self.read(version, kind, &frame, Some(wanted));
            }
        }
    }

    /// Entries that take the end mark and transfer address for their value:
    /// the walk runs out.
    fn swallowing_entries(&mut self, version: u8) {
        const KIND: &str = "entries that swallow the end";
        for (kind, most) in make::short_types(version) {
            for length in 1..=most {
                for present in 0..length {
                    let mut frame = vec![20, 0, 1, 3, 7, 7, 7, kind, length as u8];
                    frame.extend(self.random.bytes(present));
                    self.read(version, KIND, &frame, Some(1));
                    frame.extend(self.random.bytes(length - present));
                    self.read(version, KIND, &frame, Some(1));
                }
            }
        }
    }

    /// Code 20 about its greatest length, with good entries and a bad one: the
    /// excess is found before the bad entry.
    fn long_parameters(&mut self, version: u8) {
        for length in [1498, 1499, 1500, 1501, 1502, 2000] {
            let entries = make::filling(&mut self.random, version, length - 7).concat();
            let mut frame = make::parameters(&mut self.random, &entries);
            for (kind, answer) in [(1, 0), (6, 4)] {
                frame[2] = kind;
                let wanted = if length > 1500 { 2 } else { answer };
                self.read(version, "code 20 about 1,500 bytes", &frame, Some(wanted));
            }
        }
    }

    /// Every value of each time field, the others good.
    fn times(&mut self, version: u8) {
        for field in 0..8 {
            let (least, most) = make::TIME_BOUNDS[field];
            for value in 0..=255u8 {
                for _ in 0..2 {
                    let mut time = make::time(&mut self.random);
                    time[field] = value;
                    let good = least <= value && value <= most;
                    self.time(version, "every value of each time field", &time, good);
                }
            }
        }
    }

    /// Every pair of offset hours and minutes, under 3.0.0.
    fn offsets(&mut self) {
        let mut time = make::time(&mut self.random);
        for hours in -128..=127i8 {
            for minutes in -128..=127i8 {
                (time[8], time[9]) = (hours as u8, minutes as u8);
                let good = make::offset_is_good(hours, minutes);
                self.time(V3_0, "every pair of offset hours and minutes", &time, good);
            }
        }
    }

    /// `good` says whether 3.0.0 has this time; 2.1 has none.
    fn time(&mut self, version: u8, kind: &'static str, time: &[u8; 10], good: bool) {
        let entries = make::with_head(5, time.to_vec());
        let frame = make::parameters(&mut self.random, &entries);
        let wanted = if good && version == V3_0 { 0 } else { 4 };
        self.read(version, kind, &frame, Some(wanted));
    }

    /// Times that end early, with one field bad or none: a bad field that is
    /// there is found before the end, and under 2.1 their type before both.
    fn cut_times(&mut self, version: u8) {
        const BAD: [u8; 10] = [128, 101, 13, 0, 24, 60, 60, 100, 14, 60];
        for bad in 0..=10 {
            for present in 0..=10 {
                let mut time = make::time(&mut self.random);
                if bad < 10 {
                    time[bad] = BAD[bad];
                }
                let start = [20, 0, 3, 2, 65, 66, 5, 10];
                let frame = [&start, &time[..present]].concat();
                let early = bad < present || version == V2_1;
                let wanted = if early { 4 } else { 1 };
                self.read(version, "times cut short", &frame, Some(wanted));
            }
        }
    }

    /// Random bytes, mostly behind a listed code.
    fn random_frames(&mut self) {
        for _ in 0..100_000 {
            let length = match self.random.below(50) {
                0 => self.random.range(1400, 2100),
                1..=10 => self.random.range(0, 300),
                _ => self.random.range(0, 24),
            };
            let mut frame = self.random.bytes(length);
            let code = CODES[self.random.range(0, CODES.len() - 1)].code;
            if let Some(first) = frame.first_mut().filter(|first| **first >= 16) {
                *first = code;
            }
            let version = self.any_version();
            self.read(version, "random bytes", &frame, None);
        }
    }

    /// Code 20 with bytes that often make entries, to walk far.
    fn random_entries(&mut self) {
        for _ in 0..100_000 {
            let length = self.random.range(0, 60);
            let mut frame = vec![20, self.random.u8()];
            for _ in 0..length {
                let any = self.random.u8();
                let small = any % 8;
                let byte = self.random.pick(&[0, 1, 2, 3, 4, small, 16, 17, any]);
                frame.push(byte);
            }
            let version = self.any_version();
            self.read(version, "random bytes that make entries", &frame, None);
        }
    }

    /// Frames of every sort under numbers of no version: 10 before all else.
    fn versions_that_are_none(&mut self) {
        const KIND: &str = "versions that are none";
        for version in 0..=255 {
            let wanted = if VERSIONS.contains(&version) { 0 } else { 10 };
            self.read(version, "every version number", &[10, 1, 0], Some(wanted));
        }
        for version in NO_VERSIONS {
            for frame in [&[][..], &[16], &[10, 1], &[20, 0, 6, 0, 0, 0, 0]] {
                self.read(version, KIND, frame, Some(10));
            }
            for listed in &CODES {
                let made_for = self.any_version();
                let frame = make::frame(&mut self.random, made_for, listed.code);
                let damaged = self.damage(&frame);
                let longer = [&frame[..], &[0; 1500]].concat();
                for frame in [&frame[..], &frame[..1], &damaged, &longer] {
                    self.read(version, KIND, frame, Some(10));
                }
            }
        }
    }
}

/// How many bytes of a good frame are enough to be read.
fn needed(frame: &[u8], least: usize) -> usize {
    match frame[0] {
        8 if frame[4] <= 16 => 6 + usize::from(frame[4]),
        20 => frame.len(),
        _ => least,
    }
}

/// A plain reader's answer in the shape of mop.h.
fn fields(answer: Result<Frame, u8>, bytes: &[u8]) -> mop_proved::Fields {
    let mut c = mop_proved::Fields::default();
    let frame = match answer {
        Ok(frame) => frame,
        Err(refusal) => {
            (c.refusal, c.code) = (refusal, 255);
            return c;
        }
    };
    c.code = frame.code();
    match frame {
        Frame::DumpComplete | Frame::Volunteer => {}
        Frame::LoadTransfer {
            number,
            address,
            data,
            transfer,
        } => {
            (c.number, c.address, c.transfer) = (number, address, transfer);
            (c.data_at, c.data_length) = place(data, bytes);
        }
        Frame::Load {
            number,
            address,
            data,
        } => {
            (c.number, c.address) = (number, address);
            (c.data_at, c.data_length) = place(data, bytes);
        }
        Frame::RequestDump { address, count } => (c.address, c.count) = (address, count),
        Frame::RequestProgram {
            device,
            format,
            program,
            form,
            id,
            processor,
            info,
        } => {
            (c.device, c.format, c.program) = (device, format, program);
            (c.form, c.processor) = (form, processor);
            (c.id_at, c.id_length) = place(id, bytes);
            (c.data_at, c.data_length) = place(info, bytes);
        }
        Frame::RequestLoad { number, error } => (c.number, c.error) = (number, error),
        Frame::RequestDumpService {
            device,
            format,
            memory_size,
            compatibility,
            info,
        } => {
            (c.device, c.format) = (device, format);
            (c.memory_size, c.compatibility) = (memory_size, compatibility);
            (c.data_at, c.data_length) = place(info, bytes);
        }
        Frame::DumpData { address, data } => {
            c.address = address;
            (c.data_at, c.data_length) = place(data, bytes);
        }
        Frame::Parameters {
            number,
            entries,
            transfer,
        } => {
            (c.number, c.transfer) = (number, transfer);
            (c.data_at, c.data_length) = place(entries, bytes);
        }
        Frame::Loop { receipt, data } | Frame::Looped { receipt, data } => {
            c.receipt = receipt;
            (c.data_at, c.data_length) = place(data, bytes);
        }
    }
    c
}

/// Where a part stands in the whole that it was borrowed from, and its length.
pub fn place(part: &[u8], whole: &[u8]) -> (usize, usize) {
    let at = part.as_ptr().addr() - whole.as_ptr().addr();
    (at, part.len())
}
