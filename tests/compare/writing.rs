//! Compares the writers.

use std::fmt::Debug;

use crate::make::{self, NO_VERSIONS, VERSIONS, entry_fits};
use crate::tally::Hex;
use crate::{Compare, Wanted};
use mop_plain::frame::{self, Frame};
use mop_plain::version::Version;
use mop_proved::Written;

/// Bytes kept before and behind an output buffer, to see that they stay.
const MARGIN: usize = 24;

impl Compare {
    /// An accepted frame's fields, written again: into a buffer of exactly
    /// its length, one byte short, and longer.
    pub fn rewrite(&mut self, version: u8, frame: &Frame, bytes: &[u8]) {
        let exact = bytes.len();
        let more = exact + self.random.range(1, 60);
        for (kind, room, wanted) in [
            ("again, exact buffer", exact, Wanted::Bytes(bytes)),
            ("again, one byte short", exact - 1, Wanted::Refusal(9)),
            ("again, longer buffer", more, Wanted::Bytes(bytes)),
        ] {
            self.write(version, kind, frame, room, wanted);
        }
    }

    /// Writes a frame with both implementations into a buffer of `room`
    /// bytes, and compares the answers and everything in and around it. Only
    /// the writer of code 20 is told the version.
    pub fn write(
        &mut self,
        version: u8,
        kind: &'static str,
        frame: &Frame,
        room: usize,
        wanted: Wanted,
    ) {
        let before = self.random.bytes(MARGIN + room + MARGIN);
        let mut plain = before.clone();
        let mut proved = before.clone();
        let known = Version::from_number(version);
        let answer = known.and_then(|known| frame.write(known, &mut plain[MARGIN..][..room]));
        let seen = write_proved(version, frame, &mut proved[MARGIN..][..room]);
        self.tally
            .write(kind, frame.code(), answer.err().unwrap_or(0));

        let expected = written(answer);
        if seen != expected {
            self.differ_in_writer(version, kind, frame, room, seen, expected);
        }
        if proved != plain {
            self.differ_in_writer(version, kind, frame, room, Hex(&proved), Hex(&plain));
        }
        let right = wanted_buffer(known, frame, answer, wanted, &before, &plain);
        if let Err(wanted) = right {
            let seen = (answer, Hex(&plain));
            self.differ_in_writer(version, kind, frame, room, seen, wanted);
        }
    }

    fn differ_in_writer(
        &mut self,
        version: u8,
        kind: &str,
        frame: &Frame,
        room: usize,
        seen: impl Debug,
        wanted: impl Debug,
    ) {
        let shown: &dyn Debug = match frame.length() {
            ..100_000 => frame,
            _ => &"more bytes than can be shown",
        };
        let code = frame.code();
        let what = format_args!(
            "writer of code {code}, version {version}, {kind}, buffer of {room} bytes"
        );
        self.tally.differ(what, shown, seen, wanted);
    }

    /// Writers given arguments of all sorts.
    pub fn all_writers(&mut self) {
        self.any_arguments();
        self.long_arguments();
        self.software_ids();
        self.entry_strings();
        for version in VERSIONS {
            self.entries_of_every_length(version);
            self.long_entry_strings(version);
        }
        self.strings_of_no_version();
    }

    fn any_arguments(&mut self) {
        for _ in 0..3000 {
            for code in [0, 1, 2, 3, 4, 8, 10, 12, 14, 20, 24, 26] {
                let version = self.any_version();
                let data = match code == 20 && self.random.once_in(2) {
                    true => make::entries(&mut self.random, version, 200).concat(),
                    false => self.any_data(),
                };
                let id = self.any_id();
                let frame = self.any_fields(code, &id, &data);
                let room = self.any_room(frame.length());
                self.write(version, "any arguments", &frame, room, Wanted::Agreement);
            }
        }
    }

    fn any_data(&mut self) -> Vec<u8> {
        let length = match self.random.below(4) {
            0 => self.random.range(1480, 1510),
            1 => self.random.range(0, 3000),
            _ => self.random.range(0, 40),
        };
        self.random.bytes(length)
    }

    fn any_id(&mut self) -> Vec<u8> {
        let length = self.random.range(0, 18);
        self.random.bytes(length)
    }

    fn any_room(&mut self, length: usize) -> usize {
        let any = self.random.range(0, 2000);
        self.random.pick(&[
            length,
            length,
            length + 1,
            length.saturating_sub(1),
            0,
            1500,
            any,
        ])
    }

    /// A frame of this code with these strings and any numbers.
    fn any_fields<'a>(&mut self, code: u8, id: &'a [u8], data: &'a [u8]) -> Frame<'a> {
        let random = &mut self.random;
        let number = random.u8();
        let address = random.u32();
        let transfer = random.u32();
        let receipt = random.u16();
        let device = random.u8();
        let format = random.u8();
        match code {
            0 => Frame::LoadTransfer {
                number,
                address,
                data,
                transfer,
            },
            1 => Frame::DumpComplete,
            2 => Frame::Load {
                number,
                address,
                data,
            },
            3 => Frame::Volunteer,
            4 => Frame::RequestDump {
                address,
                count: receipt,
            },
            8 => Frame::RequestProgram {
                device,
                format,
                program: random.pick(&[0, 1, 2, 2, number]),
                form: random.pick(&[0, id.len() as u8, id.len() as u8, 255, number]),
                id,
                processor: random.u8(),
                info: data,
            },
            10 => Frame::RequestLoad {
                number,
                error: device,
            },
            12 => Frame::RequestDumpService {
                device,
                format,
                memory_size: transfer,
                compatibility: number,
                info: data,
            },
            14 => Frame::DumpData { address, data },
            20 => Frame::Parameters {
                number,
                entries: data,
                transfer,
            },
            24 => Frame::Loop { receipt, data },
            _ => Frame::Looped { receipt, data },
        }
    }

    /// Frames about and far above 1,500 bytes: 2 comes before 9.
    fn long_arguments(&mut self) {
        for code in [0, 2, 8, 12, 14, 24, 26] {
            for length in [1498, 1499, 1500, 1501, 1502, 1756, 2000, 65_536, 67_036] {
                let overhead = self.any_fields(code, &[], &[]).length();
                let data = self.random.bytes(length - overhead);
                let mut frame = self.any_fields(code, &[], &data);
                if let Frame::RequestProgram { program, form, .. } = &mut frame {
                    (*program, *form) = (2, 255);
                }
                for room in [0, 1, 1499, 1500, 1501, length - 1, length, length + 1] {
                    let (version, wanted) = (self.any_version(), wanted(true, length, room));
                    self.write(version, "about and above 1,500 bytes", &frame, room, wanted);
                }
            }
        }
    }

    /// Every form with ids that fit it and that do not, every program type.
    fn software_ids(&mut self) {
        for form in 0..=255u8 {
            let fits = if form <= 16 { usize::from(form) } else { 0 };
            for id_length in [0, 1, 15, 16, 17, fits, fits + 1, 256 + fits, form.into()] {
                for program in [0, 2, 3, 255] {
                    self.software_id(form, id_length, program);
                }
            }
        }
        for program in 0..=255 {
            self.software_id(1, 1, program);
        }
    }

    fn software_id(&mut self, form: u8, id_length: usize, program: u8) {
        let listed = matches!(form, 0..=16 | 254 | 255);
        let fits = if form <= 16 { usize::from(form) } else { 0 };
        let good = listed && id_length == fits && program <= 2;
        let id = self.random.bytes(id_length);
        let to_the_end = 1494usize.saturating_sub(id_length);
        for info_length in [0, 3, to_the_end, to_the_end + 1] {
            let info = self.random.bytes(info_length);
            let frame = Frame::RequestProgram {
                device: self.random.u8(),
                format: self.random.u8(),
                program,
                form,
                id: &id,
                processor: self.random.u8(),
                info: &info,
            };
            let length = 6 + id_length + info_length;
            for room in [0, length - 1, length] {
                let (version, wanted) = (self.any_version(), wanted(good, length, room));
                self.write(version, "software ids", &frame, room, wanted);
            }
        }
    }

    /// Entry strings: good ones, with an end mark or a bad byte put in, cut.
    fn entry_strings(&mut self) {
        for round in 0..400 {
            let version = VERSIONS[round % 2];
            let entries = make::entries(&mut self.random, version, 60);
            self.entry_string(version, "entries", &entries.concat(), true);
            let place = self.random.range(0, entries.len());
            for kind in [0, 6, 255] {
                let mut spoilt = entries.clone();
                spoilt.insert(place, vec![kind]);
                self.entry_string(
                    version,
                    "entries with an end mark or bad type",
                    &spoilt.concat(),
                    false,
                );
            }
            self.cut_entries(version, &entries);
        }
    }

    fn cut_entries(&mut self, version: u8, entries: &[Vec<u8>]) {
        let whole = entries.concat();
        let mut ends = vec![0];
        for entry in entries {
            ends.push(ends[ends.len() - 1] + entry.len());
        }
        for length in 0..=whole.len() {
            self.entry_string(
                version,
                "entries cut short",
                &whole[..length],
                ends.contains(&length),
            );
        }
    }

    /// An entry of every type and of every length about the versions' bounds.
    fn entries_of_every_length(&mut self, version: u8) {
        for kind in 1..=6 {
            for length in 0..=20 {
                let value = match (kind, length) {
                    (5, 10) => make::time(&mut self.random).to_vec(),
                    _ => self.random.bytes(length),
                };
                let entry = make::with_head(kind, value);
                let good = entry_fits(version, kind, length);
                self.entry_string(version, "entries of every length", &entry, good);
            }
        }
    }

    /// Entries that fill a frame to about 1,500 bytes: 4, then 2, then 9.
    fn long_entry_strings(&mut self, version: u8) {
        const ABOUT: &str = "entries about 1,500 bytes";
        const FAR_ABOVE: &str = "entries far above 1,500 bytes";
        for length in 1480..1520 {
            let mut entries = make::filling(&mut self.random, version, length).concat();
            self.entry_string(version, ABOUT, &entries, true);
            entries.push(5);
            self.entry_string(version, ABOUT, &entries, false);
        }
        let many = make::with_head(3, self.random.bytes(6)).repeat(11_000);
        self.entry_string(version, FAR_ABOVE, &many, true);
        self.entry_string(version, FAR_ABOVE, &many[..many.len() - 1], false);
    }

    fn entry_string(&mut self, version: u8, kind: &'static str, entries: &[u8], good: bool) {
        let frame = self.any_fields(20, &[], entries);
        let length = frame.length();
        for room in [0, length - 1, length, length + 20] {
            self.write(version, kind, &frame, room, wanted(good, length, room));
        }
    }

    /// Strings of every sort under numbers of no version: 10 before all else.
    fn strings_of_no_version(&mut self) {
        for version in NO_VERSIONS {
            let made_for = self.any_version();
            let good = make::entries(&mut self.random, made_for, 60).concat();
            let long = make::filling(&mut self.random, made_for, 1494).concat();
            for entries in [&[][..], &good, &long, &[6, 0], &[0]] {
                let frame = self.any_fields(20, &[], entries);
                for room in [0, frame.length(), 2000] {
                    let wanted = Wanted::Refusal(10);
                    self.write(version, "versions that are none", &frame, room, wanted);
                }
            }
        }
    }
}

/// A writer's answer by the protocol: 4, then 2, then 9.
fn wanted(good: bool, length: usize, room: usize) -> Wanted<'static> {
    if !good {
        Wanted::Refusal(4)
    } else if length > 1500 {
        Wanted::Refusal(2)
    } else if room < length {
        Wanted::Refusal(9)
    } else {
        Wanted::Refusal(0)
    }
}

/// Checks the plain writer's answer and buffer by themselves: what was wanted,
/// all else in its place, and the frame read back to its fields.
fn wanted_buffer(
    version: Result<Version, u8>,
    frame: &Frame,
    answer: Result<usize, u8>,
    wanted: Wanted,
    before: &[u8],
    after: &[u8],
) -> Result<(), String> {
    let length = answer.unwrap_or(0);
    let (start, end) = (MARGIN, MARGIN + length);
    let bytes = &after[start..end];
    if before[..start] != after[..start] || before[end..] != after[end..] {
        return Err("all other bytes stay".to_string());
    }
    let read = version.and_then(|version| frame::read(version, bytes));
    if answer.is_ok() && read != Ok(*frame) {
        return Err("the frame reads back to its fields".to_string());
    }
    let right = match wanted {
        Wanted::Agreement => true,
        Wanted::Refusal(refusal) => answer.err().unwrap_or(0) == refusal,
        Wanted::Bytes(wanted) => answer.is_ok() && bytes == wanted,
    };
    if right {
        Ok(())
    } else {
        Err(format!("{wanted:02X?}"))
    }
}

fn written(answer: Result<usize, u8>) -> Written {
    match answer {
        Ok(length) => Written { length, refusal: 0 },
        Err(refusal) => Written { length: 0, refusal },
    }
}

/// The proved writer of the frame's code, given its fields.
pub fn write_proved(version: u8, frame: &Frame, out: &mut [u8]) -> Written {
    match *frame {
        Frame::LoadTransfer {
            number,
            address,
            data,
            transfer,
        } => mop_proved::write_load_transfer(number, address, data, transfer, out),
        Frame::DumpComplete => mop_proved::write_dump_complete(out),
        Frame::Load {
            number,
            address,
            data,
        } => mop_proved::write_load(number, address, data, out),
        Frame::Volunteer => mop_proved::write_volunteer(out),
        Frame::RequestDump { address, count } => {
            mop_proved::write_request_dump(address, count, out)
        }
        Frame::RequestProgram {
            device,
            format,
            program,
            form,
            id,
            processor,
            info,
        } => mop_proved::write_request_program(
            device, format, program, form, id, processor, info, out,
        ),
        Frame::RequestLoad { number, error } => mop_proved::write_request_load(number, error, out),
        Frame::RequestDumpService {
            device,
            format,
            memory_size,
            compatibility,
            info,
        } => mop_proved::write_request_dump_service(
            device,
            format,
            memory_size,
            compatibility,
            info,
            out,
        ),
        Frame::DumpData { address, data } => mop_proved::write_dump_data(address, data, out),
        Frame::Parameters {
            number,
            entries,
            transfer,
        } => mop_proved::write_parameters(version, number, entries, transfer, out),
        Frame::Loop { receipt, data } => mop_proved::write_loop(receipt, data, out),
        Frame::Looped { receipt, data } => mop_proved::write_looped(receipt, data, out),
    }
}
