//! Compares loads that may begin again: a request at every position, records
//! about the bounds of restarts and of frames sent, loads of about 256 frames,
//! and 12 among the other refusals (PROTOCOL 5, "Load"; 7, "The order").

use super::counts::{ADVANCES, IGNORED, REJECTIONS, STARTS};
use super::load::{Load, RESTARTS_MOST, ended, example, many, running, sent_most, waiting};
use super::load_parameters::{REQUEST, example_with, one_byte};
use super::strings::{Judged, set_strings};
use super::{Case, Event, ROOM, first, room_refusal};
use crate::Compare;
use crate::images::{self, Region};
use crate::make::VERSIONS;
use crate::tally::Hex;

/// Requests for an operating system: every other field may be anything.
const REQUESTS: [&[u8]; 5] = [
    &REQUEST,
    &[8, 255, 0, 2, 0, 255],
    &[8, 5, 1, 2, 254, 0, 1, 2, 3],
    &[8, 37, 1, 2, 2, 65, 66, 9],
    &[8, 0, 1, 2, 1, 2, 7, 2],
];
/// Those for a loader.
const OTHERS: [&[u8]; 4] = [
    &[8, 0, 1, 0, 255, 0],
    &[8, 0, 1, 1, 255, 0],
    &[8, 2, 2, 0, 2, 2, 2, 2],
    &[8, 2, 2, 1, 0, 2, 2, 2],
];

/// The first frame of the rehearsal's example.
const FIRST: Option<&[u8]> = Some(&[2, 0, 2, 0, 0, 0, 10, 11]);

/// Restarts at their bounds and near them.
const RESTARTS: [u32; 12] = [
    0,
    1,
    2,
    255,
    256,
    RESTARTS_MOST - 1,
    RESTARTS_MOST,
    RESTARTS_MOST + 1,
    RESTARTS_MOST + 2,
    131_071,
    1 << 24,
    u32::MAX,
];

/// The record, begun again so often.
fn again(restarts: u32, record: mop_proved::Load) -> mop_proved::Load {
    mop_proved::Load { restarts, ..record }
}

/// The same load with the restart setting.
fn restarting(mut end: Load<'_>) -> Load<'_> {
    end.settings.restart = 1;
    end
}

fn frame(bytes: &[u8]) -> Event<'_> {
    Event::Frame(Hex(bytes))
}

/// An image, its refusal, and how many segments of two bytes it has.
type Counted = (Vec<u8>, u8, u64);

/// Images of few segments, of 256 and of 257, and bad ones, whose first region
/// has too many.
fn images() -> [Counted; 7] {
    let region = |address, length| Region {
        address,
        offset: 0,
        length,
    };
    let body = [7; 600];
    let build = |regions: &[Region]| images::build(&body, regions, 5);
    [
        (example(), 0, 2),
        (build(&[region(0, 512)]), 0, 256),
        (build(&[region(0, 513)]), 0, 257),
        (vec![], 5, 2),
        (build(&[]), 6, 2),
        (build(&[region(0, 600), region(900, 0)]), 7, 2),
        (build(&[region(0, 600), region(599, 1)]), 8, 2),
    ]
}

impl Compare {
    pub fn restart_steps(&mut self) {
        for version in VERSIONS {
            for mark in [0, 1] {
                self.restart_set_cases(version, mark);
                self.asked_again(version, mark);
                self.after_a_verdict(version, mark);
                self.restart_settings(version, mark);
            }
            self.order_with_restarts(version);
        }
        for segments in [1, 2, 3, 254, 255, 256, 257, 258, 511, 512, 513] {
            for mark in [0, 1] {
                self.about_256_frames(segments, mark);
                self.asked_at_every_position(segments, mark);
            }
        }
        self.sent_at_its_bound();
    }

    /// The rehearsal's example, with a string or without.
    fn restart_set_cases(&mut self, version: u8, mark: u8) {
        let file = example();
        let end = restarting(example_with(version, &file, mark, &[1, 2, 65, 66]));
        let second: Option<&[u8]> = match mark {
            0 => Some(&[0, 1, 4, 0, 0, 0, 12, 2, 0, 0, 0]),
            _ => Some(&[2, 1, 4, 0, 0, 0, 12]),
        };
        let last = 1 + u64::from(mark);
        let over = [10, 2 + mark, 0];
        let (waiting, timer) = (waiting(0), Event::Timer);
        #[rustfmt::skip]
        let cases = [
            // It begins once, which is no restart.
            (waiting, frame(&REQUEST), running(0, 0, 1), FIRST, Some(STARTS)),
            // The repeats begin anew as well.
            (running(1, 1, 3), frame(&REQUEST), again(1, running(0, 0, 4)), FIRST, Some(STARTS)),
            (again(7, running(1, 0, 9)), frame(&REQUEST), again(8, running(0, 0, 10)), FIRST, Some(STARTS)),
            (running(last, 1, 3), frame(&REQUEST), again(1, running(0, 0, 4)), FIRST, Some(STARTS)),
            // The restart that makes 65,535 happens, the next does not.
            (again(65_534, running(1, 1, 3)), frame(&REQUEST), again(65_535, running(0, 0, 4)), FIRST, Some(STARTS)),
            (again(65_535, running(1, 1, 3)), frame(&REQUEST), again(65_535, running(1, 1, 3)), None, Some(IGNORED)),
            // At its first frame the load has nothing to begin again with: repeats that are used stay used.
            (running(0, 1, 2), frame(&REQUEST), running(0, 1, 2), None, Some(IGNORED)),
            (again(9, running(0, 1, 2)), frame(&REQUEST), again(9, running(0, 1, 2)), None, Some(IGNORED)),
            // What else happens leaves the restarts.
            (again(9, running(0, 1, 2)), frame(&[10, 1, 0]), again(9, running(1, 0, 3)), second, Some(ADVANCES)),
            (again(9, running(0, 1, 2)), frame(&[10, 0, 0]), again(9, running(0, 1, 2)), None, Some(IGNORED)),
            (again(9, running(1, 1, 2)), frame(&[10, 2, 4]), again(9, ended(2, 1, 1, 2)), None, Some(REJECTIONS)),
            (again(9, running(1, 0, 2)), timer, again(9, running(1, 1, 3)), second, None),
            (again(9, running(0, 1, 2)), timer, again(9, ended(3, 0, 1, 2)), None, None),
            (again(9, running(last, 1, 2)), timer, again(9, ended(4, last, 1, 2)), None, None),
            (again(9, running(last, 1, 2)), frame(&over), again(9, ended(1, last + 1, 0, 2)), None, Some(ADVANCES)),
        ];
        for (before, event, after, frame, raised) in cases {
            self.counted_case(&end, before, event, &[], (after, frame, &[]), raised);
        }
    }

    /// Requests that begin a load again, and such as do not: without the setting,
    /// and those for a loader.
    fn asked_again(&mut self, version: u8, mark: u8) {
        let file = example();
        let end = example_with(version, &file, mark, &[]);
        for request in REQUESTS {
            let (before, request) = (running(1, 1, 3), frame(request));
            let after = (again(1, running(0, 0, 4)), FIRST, &[][..]);
            self.counted_case(&restarting(end), before, request, &[], after, Some(STARTS));
        }
        for record in [running(0, 1, 2), running(1, 1, 3)] {
            let ignored = (record, None, &[][..]);
            for request in REQUESTS {
                let raised = Some(IGNORED);
                self.counted_case(&end, record, frame(request), &[], ignored, raised);
            }
            for request in OTHERS {
                for end in [end, restarting(end)] {
                    let raised = Some(IGNORED);
                    self.counted_case(&end, record, frame(request), &[], ignored, raised);
                }
            }
        }
    }

    /// After a verdict a request does nothing, and is not counted.
    fn after_a_verdict(&mut self, version: u8, mark: u8) {
        let file = example();
        let end = restarting(example_with(version, &file, mark, &[]));
        let frames = end.frames(2);
        for restarts in [0, 1, RESTARTS_MOST - 1, RESTARTS_MOST] {
            for record in [
                ended(1, frames, 0, 3),
                ended(2, 0, 1, 2),
                ended(2, 1, 0, 2),
                ended(3, 0, 1, 2),
                ended(4, frames - 1, 1, 2),
            ] {
                let record = again(restarts, record);
                for request in REQUESTS.iter().chain(&OTHERS) {
                    let stays = (record, None, &[][..]);
                    self.counted_case(&end, record, frame(request), &[], stays, None);
                }
            }
        }
    }

    /// Every number as the restart setting, and restarts about their bounds: 10
    /// before 9, in every call.
    fn restart_settings(&mut self, version: u8, mark: u8) {
        let file = example();
        let mut end = example_with(version, &file, mark, &[]);
        let frames = end.frames(2);
        for restart in 0..=255 {
            end.settings.restart = restart;
            let wanted = if restart > 1 { 10 } else { 0 };
            self.judged_restarts(&end, waiting(0), Event::Timer, wanted);
        }
        for restart in [0, 1, 2, 255] {
            end.settings.restart = restart;
            for restarts in RESTARTS {
                for record in [
                    waiting(3),
                    running(0, 0, 1),
                    running(1, 1, 3),
                    ended(1, frames, 0, 3),
                    ended(2, 1, 0, 2),
                    ended(3, 0, 1, 2),
                    ended(4, frames - 1, 1, 2),
                ] {
                    self.about_their_bounds(&end, again(restarts, record));
                }
            }
        }
    }

    fn about_their_bounds(&mut self, end: &Load, record: mop_proved::Load) {
        let most = match end.settings.restart {
            1 if record.waiting == 0 => RESTARTS_MOST,
            _ => 0,
        };
        let bad = end.settings.restart > 1 || record.restarts > most;
        let wanted = if bad { 10 } else { 0 };
        for bytes in [
            &REQUEST[..],
            OTHERS[1],
            &[10, 2, 0],
            &[10, 2, 1],
            &[3],
            &[16],
        ] {
            self.judged_restarts(end, record, frame(bytes), wanted);
        }
        self.judged_restarts(end, record, Event::Timer, wanted);
    }

    fn judged_restarts(&mut self, end: &Load, record: mop_proved::Load, event: Event, wanted: u8) {
        const KIND: &str = "restarts at and about their bounds";
        for room in [ROOM, ROOM - 1] {
            let case = Case::judged(KIND, end, record, event, room, wanted);
            self.step(case, &mut []);
        }
    }

    /// Loads with the restart setting and without: 12 above 256 frames, in every
    /// call, before the string is looked at.
    fn about_256_frames(&mut self, segments: u64, mark: u8) {
        const KIND: &str = "loads of about 256 frames";
        let file = images::shared(&self.random.bytes(segments as usize), 1, 5);
        let version = self.any_version();
        for (string, refusal) in [(&[1, 1, 65][..], 0), (&[6], 4)] {
            for restart in [0, 1] {
                let mut end = one_byte(version, &file, mark, string);
                end.settings.restart = restart;
                let frames = end.frames(segments);
                let (many, string) = (many(end.settings, frames), refusal * mark);
                for (record, late) in [
                    (waiting(1), 0),
                    (running(0, 0, 1), 0),
                    (running(frames - 1, 1, frames), 0),
                    (ended(1, frames, 0, frames), 0),
                    (ended(3, 0, 1, 2), 0),
                    (running(frames, 0, 1), 10),
                    (running(frames + 1, 0, 1), 10),
                    (ended(1, 0, 0, 1), 10),
                    (running(0, 0, 2 * frames + 1), 10),
                ] {
                    for room in [ROOM, ROOM - 1] {
                        let earlier = first(&[room_refusal(room), many, late, string]);
                        self.every_event(KIND, &end, record, room, earlier);
                    }
                }
            }
        }
    }

    /// What a request of each program type comes to at every position.
    fn asked_at_every_position(&mut self, segments: u64, mark: u8) {
        const KIND: &str = "asked at every position";
        let body = self.random.bytes(segments as usize);
        let file = images::shared(&body, 1, 5);
        let version = self.any_version();
        let end = restarting(one_byte(version, &file, mark, &[]));
        let frames = end.frames(segments);
        if many(end.settings, frames) != 0 {
            return;
        }
        let first = [2, 0, 0, 0, 0, 0, body[0]];
        for position in 0..frames {
            for program in 0..=2 {
                let request = [8, 0, 1, program, 0, 0];
                let mut before = again(3, running(position, 1, position + 1));
                before.counts = self.any_counts();
                let mut after = before;
                let begins = program == 2 && position > 0;
                if begins {
                    after = again(4, running(0, 0, position + 2));
                    after.counts = before.counts;
                    after.counts.starts += 1;
                } else {
                    after.counts.ignored += 1;
                }
                let sent = Some(&first[..]).filter(|_| begins);
                let wanted = (after, sent, &[][..]);
                self.known_case(KIND, &end, before, frame(&request), &[], wanted);
            }
        }
    }

    /// Frames sent at their bound, (restarts + 1) x n x (R + 1), and about it.
    fn sent_at_its_bound(&mut self) {
        for segments in [1, 2, 255, 256] {
            let file = images::shared(&self.random.bytes(segments as usize), 1, 5);
            for mark in [0, 1] {
                for repeats in [0, 1, 2, 254, 255] {
                    for restarts in [0, 1, 2, 255, RESTARTS_MOST - 1, RESTARTS_MOST] {
                        let version = self.any_version();
                        let mut end = restarting(one_byte(version, &file, mark, &[]));
                        end.settings.repeats = repeats;
                        self.about_its_bound(&end, segments, restarts);
                    }
                }
            }
        }
    }

    fn about_its_bound(&mut self, end: &Load, segments: u64, restarts: u32) {
        const KIND: &str = "frames sent at and about their bound";
        let frames = end.frames(segments);
        let most = sent_most(end.settings, restarts, frames);
        let many = many(end.settings, frames);
        for (sent, late) in [
            (most - 1, 0),
            (most, 0),
            (most + 1, 10),
            (most + 256, 10),
            (most + (1 << 32), 10),
            (u64::MAX, 10),
        ] {
            for (verdict, position) in [(0, frames - 1), (1, frames), (2, 0), (4, frames - 1)] {
                let record = again(restarts, ended(verdict, position, 0, sent));
                self.every_event(KIND, end, record, ROOM, first(&[many, late]));
            }
        }
    }

    /// 12 behind the image's refusals and before a position above n and the
    /// string's, with a fault in each stage or none.
    fn order_with_restarts(&mut self, version: u8) {
        let strings = set_strings(&mut self.random, version);
        for refusal in [0, 4, 2] {
            let of_this = |string: &&Judged| string.1 == refusal;
            let (string, _) = strings.iter().find(of_this).expect("a string of each");
            for (file, image, segments) in &images() {
                let absent = restarting(example_with(version, file, 0, string));
                self.records_and_events(&absent, *segments, [*image, 0]);
                let given = restarting(example_with(version, file, 1, string));
                self.records_and_events(&given, *segments, [*image, refusal]);
            }
        }
    }
}
