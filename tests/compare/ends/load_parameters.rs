//! Compares loads that end with parameters: their last frames, strings of every
//! sort in every call, and the order of refusals.

use super::counts::{ADVANCES, IGNORED, REJECTIONS, STARTS, TOP};
use super::load::{EXAMPLE_SETTINGS, Load, ended, example, many, running, waiting};
use super::strings::{Judged, set_strings};
use super::{Case, Event, ROOM, first, frames, room_refusal};
use crate::images::{self, Region};
use crate::make::{V2_1, VERSIONS};
use crate::tally::Hex;
use crate::{Compare, Wanted};
use mop_plain::frame::Frame;
use mop_proved::LoadSettings;

pub const REQUEST: [u8; 6] = [8, 0, 1, 2, 255, 0];

/// Frames, each with its refusal.
const FRAMES: [(&[u8], u8); 10] = [
    (&REQUEST, 0),
    (&[10, 1, 0], 0),
    (&[10, 2, 0], 0),
    (&[10, 3, 0], 0),
    (&[10, 3, 1], 0),
    (&[20, 0, 0, 1, 2, 3, 4], 0),
    (&[], 1),
    (&[10, 1, 0, 0], 2),
    (&[16], 3),
    (&[8, 0, 1, 3, 0, 0], 4),
];

/// A code 20 with a name of seven bytes, which 2.1 does not have.
const LONG_NAME: [u8; 16] = [20, 0, 3, 7, 1, 2, 3, 4, 5, 6, 7, 0, 1, 2, 3, 4];

/// Settings and records that break a rule before all else is judged.
type Early = fn(&mut LoadSettings, &mut mop_proved::Load);
const EARLY: [(Early, u8); 18] = [
    (|_, _| (), 0),
    (|settings, _| settings.segment_size = 0, 10),
    (|settings, _| settings.repeats = 256, 10),
    (|settings, _| settings.with_parameters = 2, 10),
    (|settings, _| settings.with_parameters = 255, 10),
    (|settings, _| settings.version = 0, 10),
    (|settings, _| settings.version = 22, 10),
    (|settings, _| settings.restart = 2, 10),
    (|settings, _| settings.restart = 255, 10),
    (|_, record| record.restarts = 65_536, 10),
    (
        |settings, record| (settings.restart, record.restarts) = (0, 1),
        10,
    ),
    (|_, record| record.verdict = 5, 10),
    (|_, record| record.repeats = 2, 10),
    (|_, record| record.waiting = 2, 10),
    (|_, record| record.counts.starts = TOP, 10),
    (|_, record| record.counts.advances = TOP, 10),
    (|_, record| record.counts.ignored = TOP, 10),
    (|_, record| record.counts.rejections = TOP, 10),
];

/// The rehearsal's example, with this version, mark and string: 2 segments.
pub fn example_with<'a>(version: u8, file: &'a [u8], mark: u8, string: &'a [u8]) -> Load<'a> {
    Load {
        settings: LoadSettings {
            with_parameters: mark,
            version,
            ..EXAMPLE_SETTINGS
        },
        file: Hex(file),
        parameters: Hex(string),
    }
}

/// The same settings, but for segments of one byte.
pub fn one_byte<'a>(version: u8, file: &'a [u8], mark: u8, string: &'a [u8]) -> Load<'a> {
    let mut end = example_with(version, file, mark, string);
    end.settings.segment_size = 1;
    end
}

/// Images, each with its refusal; the first is the example.
fn images() -> [(Vec<u8>, u8); 5] {
    let region = |length| Region {
        address: 0,
        offset: 0,
        length,
    };
    [
        (example(), 0),
        (vec![], 5),
        (images::build(&[7], &[], 0), 6),
        (images::build(&[7], &[region(0)], 0), 7),
        (images::build(&[7], &[region(1), region(1)], 0), 8),
    ]
}

impl Compare {
    pub fn load_parameters(&mut self) {
        for version in VERSIONS {
            self.parameters_set_cases(version);
        }
        for segments in [1, 255, 256, 257, 512] {
            let body = self.random.bytes(segments as usize);
            let file = images::shared(&body, 1, 5);
            self.end_of_load(&file, segments, body[body.len() - 1]);
        }
        for version in VERSIONS {
            let strings = set_strings(&mut self.random, version);
            for (string, refusal) in &strings {
                self.string_in_every_call(version, string, *refusal);
                self.string_tried(version, string, *refusal);
            }
            self.order_of_refusals(version, &strings);
        }
    }

    /// The rehearsal's example with a name, then with the empty string.
    fn parameters_set_cases(&mut self, version: u8) {
        let file = example();
        let end = example_with(version, &file, 1, &[1, 2, 65, 66]);
        let frame = |frame| Event::Frame(Hex(frame));
        let timer = Event::Timer;
        let waiting = waiting(0);
        let first: Option<&[u8]> = Some(&[2, 0, 2, 0, 0, 0, 10, 11]);
        let second: Option<&[u8]> = Some(&[2, 1, 4, 0, 0, 0, 12]);
        let last: Option<&[u8]> = Some(&[20, 2, 1, 2, 65, 66, 0, 2, 0, 0, 0]);
        #[rustfmt::skip]
        let cases = [
            (waiting, frame(&REQUEST), running(0, 0, 1), first, Some(STARTS)),
            (waiting, timer, waiting, None, None),
            (running(0, 1, 2), frame(&[10, 1, 0]), running(1, 0, 3), second, Some(ADVANCES)),
            (running(1, 1, 3), frame(&[10, 2, 0]), running(2, 0, 4), last, Some(ADVANCES)),
            (running(2, 0, 4), frame(&[10, 2, 0]), running(2, 0, 4), None, Some(IGNORED)),
            (running(2, 1, 4), frame(&[10, 3, 0]), ended(1, 3, 0, 4), None, Some(ADVANCES)),
            (running(2, 1, 4), frame(&[10, 3, 9]), ended(2, 2, 1, 4), None, Some(REJECTIONS)),
            (running(1, 0, 3), timer, running(1, 1, 4), second, None),
            // Silence after the last segment is a failure: a frame is missing.
            (running(1, 1, 3), timer, ended(3, 1, 1, 3), None, None),
            (running(2, 0, 4), timer, running(2, 1, 5), last, None),
            (running(2, 1, 4), timer, ended(4, 2, 1, 4), None, None),
            (ended(1, 3, 0, 4), timer, ended(1, 3, 0, 4), None, None),
            (ended(1, 3, 0, 4), frame(&[10, 3, 0]), ended(1, 3, 0, 4), None, None),
            // A record at its bound of frames sent is not bad.
            (running(2, 0, 6), timer, running(2, 1, 7), last, None),
        ];
        for (before, event, after, frame, raised) in cases {
            self.counted_case(&end, before, event, &[], (after, frame, &[]), raised);
        }
        let empty = example_with(version, &file, 1, &[]);
        let wanted = (running(2, 1, 5), Some(&[20, 2, 0, 2, 0, 0, 0][..]), &[][..]);
        self.set_case(&empty, running(2, 0, 4), timer, &[], wanted);
    }

    /// The end of a load of so many segments of a byte, from address 0 on. The
    /// transfer address is 5; the last byte is given.
    pub fn end_of_load(&mut self, file: &[u8], segments: u64, byte: u8) {
        self.last_frames(file, segments, byte);
        for mark in [0, 1] {
            let version = self.any_version();
            let string = self.any_entries(version).concat();
            self.last_records(&one_byte(version, file, mark, &string), segments);
        }
    }

    /// What goes out, by the protocol: the numbers come round at 256.
    fn last_frames(&mut self, file: &[u8], segments: u64, byte: u8) {
        let version = self.any_version();
        let string = self.any_entries(version).concat();
        let index = segments - 1;
        let address = (index as u32).to_le_bytes();
        let last = [&[index as u8], &address[..], &[byte]].concat();
        self.last_with_parameters(&one_byte(version, file, 1, &string), segments, &last);
        self.last_without(&one_byte(version, file, 0, &string), segments, &last);
    }

    /// `segment` is the last one's frame behind its code.
    fn last_with_parameters(&mut self, end: &Load, segments: u64, segment: &[u8]) {
        let (last, number) = (segments - 1, segments as u8);
        let Hex(string) = end.parameters;
        let segment = [&[2], segment].concat();
        let parameters = frames::parameters(number, string, 5);
        let [in_turn, over] = [number, number.wrapping_add(1)].map(|number| [10, number, 0]);
        let (timer, in_turn) = (Event::Timer, Event::Frame(Hex(&in_turn)));
        let over = Event::Frame(Hex(&over));
        #[rustfmt::skip]
        let cases = [
            (running(last, 0, 1), timer, running(last, 1, 2), Some(&segment[..]), None),
            (running(last, 1, 1), timer, ended(3, last, 1, 1), None, None),
            (running(last, 0, 1), in_turn, running(segments, 0, 2), Some(&parameters), Some(ADVANCES)),
            (running(segments, 0, 1), timer, running(segments, 1, 2), Some(&parameters), None),
            (running(segments, 1, 1), timer, ended(4, segments, 1, 1), None, None),
            (running(segments, 1, 1), over, ended(1, segments + 1, 0, 1), None, Some(ADVANCES)),
        ];
        for (before, event, after, frame, raised) in cases {
            self.counted_case(end, before, event, &[], (after, frame, &[]), raised);
        }
    }

    fn last_without(&mut self, end: &Load, segments: u64, segment: &[u8]) {
        let last = segments - 1;
        let segment = [&[0], segment, &[5, 0, 0, 0]].concat();
        let answer = [10, segments as u8, 0];
        let (timer, answer) = (Event::Timer, Event::Frame(Hex(&answer)));
        #[rustfmt::skip]
        let cases = [
            (running(last, 0, 1), timer, running(last, 1, 2), Some(&segment[..]), None),
            (running(last, 1, 1), timer, ended(4, last, 1, 1), None, None),
            (running(last, 1, 1), answer, ended(1, segments, 0, 1), None, Some(ADVANCES)),
        ];
        for (before, event, after, frame, raised) in cases {
            self.counted_case(end, before, event, &[], (after, frame, &[]), raised);
        }
    }

    /// Records about the end of a load and at its start, good and bad: a string
    /// that is dropped or comes up in the middle is among them.
    fn last_records(&mut self, end: &Load, segments: u64) {
        let frames = end.frames(segments);
        let most = frames * 2;
        for position in (segments - 1..=segments + 2).chain([0, 1]) {
            for verdict in 0..=4 {
                for sent in [0, most - 1, most, most + 1] {
                    for repeats in [0, 1] {
                        let at_end = position == frames;
                        let bad = position > frames || sent > most || (verdict == 1) != at_end;
                        let record = ended(verdict, position, repeats, sent);
                        self.about_the_end(end, record, if bad { 10 } else { 0 });
                    }
                }
            }
        }
    }

    fn about_the_end(&mut self, end: &Load, record: mop_proved::Load, wanted: u8) {
        let number = (record.position + 1) as u8;
        let frames = [
            [10, number, 0],
            [10, number, 7],
            [10, number.wrapping_sub(1), 0],
            [10, number.wrapping_add(1), 0],
        ];
        let events = frames.iter().map(|frame| Event::Frame(Hex(frame)));
        for event in events.chain([Event::Timer]) {
            let case = Case {
                kind: "records about the end",
                end,
                record,
                event,
                room: ROOM,
                wanted,
            };
            self.step(case, &mut []);
        }
    }

    /// The string is judged in every call, before the frame; with the mark 0
    /// in none.
    fn string_in_every_call(&mut self, version: u8, string: &[u8], refusal: u8) {
        let kind = match version {
            V2_1 => "2.1: strings in every call",
            _ => "strings in every call",
        };
        let file = example();
        let given = example_with(version, &file, 1, string);
        let absent = example_with(version, &file, 0, string);
        for record in [
            waiting(0),
            waiting(7),
            running(0, 0, 1),
            running(1, 1, 3),
            running(2, 0, 4),
            ended(1, 3, 0, 4),
            ended(2, 1, 0, 2),
            ended(3, 0, 1, 2),
            ended(4, 2, 1, 4),
        ] {
            self.every_event(kind, &given, record, ROOM, refusal);
            let too_far = record.position >= 2;
            self.every_event(kind, &absent, record, ROOM, if too_far { 10 } else { 0 });
        }
        self.every_event(kind, &absent, ended(1, 2, 0, 3), ROOM, 0);
    }

    /// A timer and all frames; `earlier` is the refusal that comes before
    /// theirs, 0 for none.
    pub fn every_event(
        &mut self,
        kind: &'static str,
        end: &Load,
        record: mop_proved::Load,
        room: usize,
        earlier: u8,
    ) {
        let frames = FRAMES.map(|(frame, refusal)| (Event::Frame(Hex(frame)), refusal));
        let long_name = if end.settings.version == V2_1 { 4 } else { 0 };
        let others = [
            (Event::Frame(Hex(&LONG_NAME)), long_name),
            (Event::Timer, 0),
        ];
        for (event, refusal) in frames.into_iter().chain(others) {
            let case = Case {
                kind,
                end,
                record,
                event,
                room,
                wanted: first(&[earlier, refusal]),
            };
            self.step(case, &mut []);
        }
    }

    /// The writer refuses of a string what a load's step does.
    fn string_tried(&mut self, version: u8, string: &[u8], refusal: u8) {
        let frame = Frame::Parameters {
            number: self.random.u8(),
            entries: string,
            transfer: self.random.u32(),
        };
        let wanted = Wanted::Refusal(refusal);
        self.write(version, "strings of loads", &frame, ROOM, wanted);
    }

    /// A fault in each stage in which a step is judged, or none: every
    /// combination.
    fn order_of_refusals(&mut self, version: u8, strings: &[Judged]) {
        let of = |refusal| strings.iter().filter(move |string| string.1 == refusal);
        let picked = [of(0).next(), of(4).next(), of(4).last(), of(2).next()];
        for (string, refusal) in picked.into_iter().flatten() {
            for (file, image) in &images() {
                let absent = example_with(version, file, 0, string);
                self.records_and_events(&absent, 2, [*image, 0]);
                let given = example_with(version, file, 1, string);
                self.records_and_events(&given, 2, [*image, *refusal]);
            }
        }
    }

    /// Records and settings with a fault or without, at an image of so many
    /// segments and a string with these refusals.
    pub fn records_and_events(&mut self, end: &Load, segments: u64, [image, string]: [u8; 2]) {
        const KIND: &str = "several faults at once";
        let frames = end.frames(segments);
        let image = first(&[image, many(end.settings, frames)]);
        let records = [
            (running(0, 0, 1), 0),
            (running(frames, 0, 1), 10),
            (running(frames + 1, 0, 1), 10),
            (running(0, 0, 2 * frames + 1), 10),
            (ended(1, frames - 1, 0, 1), 10),
        ];
        for (early, refusal) in EARLY {
            for (mut record, late) in records {
                let mut end = *end;
                early(&mut end.settings, &mut record);
                for room in [ROOM, ROOM - 1] {
                    let earlier = [refusal, room_refusal(room), image, late, string];
                    self.every_event(KIND, &end, record, room, first(&earlier));
                }
            }
        }
    }
}
