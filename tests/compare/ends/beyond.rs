//! The ends with lengths above 32 bits, and a dump of all 4,294,967,296 bytes.

use super::dump::Dump;
use super::load::Load;
use super::machine::{Machine, OFFERING, Purpose, state};
use super::{Case, End, Event, Outcome, ROOM, frames, in_c};
use crate::Compare;
use crate::beyond::{BEYOND, Zeros};
use crate::images;
use crate::make::{V2_1, V3_0, VERSIONS};
use crate::tally::Hex;
use mop_proved::{DumpSettings, LoadSettings, MachineSettings, Step, Written};

const KIND: &str = "above 32 bits";

impl Compare {
    pub fn ends_beyond_32_bits(&mut self) {
        if size_of::<usize>() < 8 {
            return;
        }
        let Some(mut zeros) = Zeros::new() else {
            println!("  ends above 32 bits left out: no room for them");
            return;
        };
        let bytes = zeros.bytes();
        self.inputs_beyond(bytes);
        self.loops_beyond(bytes);
        self.memory_beyond(bytes);
        self.dump_beyond(bytes);
        self.reply_beyond(bytes);
    }

    /// Frames and an image file whose low 32 bits say 4 to 40.
    fn inputs_beyond(&mut self, bytes: &mut [u8]) {
        let file = images::smallest();
        bytes[0] = 24;
        let event = Event::Frame(Hex(&bytes[..BEYOND + 4]));
        self.refused(&machine(V3_0), event, 2);
        self.refused(&loading(&file), event, 2);
        bytes[0] = 0;

        let length = file.len();
        bytes[..length].copy_from_slice(&file);
        self.refused(&loading(&bytes[..BEYOND + length]), Event::Timer, 5);
        bytes[..length].fill(0);
        bytes[BEYOND..BEYOND + length].copy_from_slice(&file);
        self.refused(&loading(&bytes[..BEYOND + length]), Event::Timer, 5);
        bytes[BEYOND..BEYOND + length].fill(0);
        self.strings_beyond(bytes);
    }

    /// Parameter strings that are good entries only in their low 32 bits.
    fn strings_beyond(&mut self, bytes: &mut [u8]) {
        let file = images::smallest();
        let entries = [1, 2, 65, 66, 2, 0];
        bytes[..entries.len()].copy_from_slice(&entries);
        for length in [BEYOND, BEYOND + entries.len()] {
            let mut end = loading(&file);
            end.parameters = Hex(&bytes[..length]);
            // Not looked at.
            self.refused(&end, Event::Timer, 0);
            end.settings.with_parameters = 1;
            self.refused(&end, Event::Timer, 4);
            self.refused(&end, Event::Frame(Hex(&[10, 1, 0])), 4);
        }
        bytes[..entries.len()].fill(0);
    }

    pub fn refused<E: End>(&mut self, end: &E, event: Event, refusal: u8) {
        let case = Case {
            kind: KIND,
            end,
            record: Default::default(),
            event,
            room: ROOM,
            wanted: refusal,
        };
        self.step(case, &mut []);
    }

    /// Memories that are short enough only in their low 32 bits.
    fn memory_beyond(&mut self, bytes: &mut [u8]) {
        let frame = frames::load(0, 0, &[1, 2], None);
        for length in [BEYOND, BEYOND + 8] {
            let memory = &mut bytes[..length];
            for end in VERSIONS.map(machine) {
                for event in [Event::Start, Event::Timer, Event::Frame(Hex(&frame))] {
                    self.in_place(&end, Default::default(), event, memory, 0, 10);
                }
            }
        }
    }

    /// The longest dump that there is, at its start, middle and end; and ranges
    /// and buffers that are good only in the low 32 bits.
    fn dump_beyond(&mut self, bytes: &mut [u8]) {
        let whole = Dump {
            settings: DumpSettings {
                length: 1 << 32,
                address: 0,
                request_bytes: 1495,
                repeats: 255,
                version: V3_0,
            },
        };
        let offer = [12, 0, 1, 0, 0, 0, 1, 0];
        let waiting = mop_proved::Dump {
            waiting: 1,
            ..Default::default()
        };
        let buffer = &mut bytes[..BEYOND];
        self.in_place(&whole, waiting, Event::Frame(Hex(&offer)), buffer, 0, 0);
        let end = 1 << 32;
        for (filled, length) in [(0, 1495), (1 << 31, 9), (end - 1495, 1495), (end - 2, 1)] {
            let data = self.random.bytes(length);
            let frame = frames::dump_data(filled as u32, &data);
            let record = mop_proved::Dump {
                filled,
                replies: filled,
                sent: (filled + 1) * 256 + 1,
                ..Default::default()
            };
            let at = filled as usize;
            self.in_place(&whole, record, Event::Frame(Hex(&frame)), buffer, at, 0);
            self.in_place(&whole, record, Event::Timer, buffer, at, 0);
        }

        for (length, address, room) in [
            (8, 0, BEYOND + 8),
            (1 << 32, 1, BEYOND),
            ((1 << 32) + 8, 0, BEYOND + 8),
        ] {
            let mut bad = whole;
            (bad.settings.length, bad.settings.address) = (length, address);
            let buffer = &mut bytes[..room];
            self.in_place(&bad, waiting, Event::Timer, buffer, 0, 10);
        }
    }

    /// One call with a store that is too long to be copied: the bytes from
    /// `at` on are compared, and put back.
    fn in_place<E: End>(
        &mut self,
        end: &E,
        record: E::Record,
        event: Event,
        store: &mut [u8],
        at: usize,
        refusal: u8,
    ) {
        let case = Case {
            kind: KIND,
            end,
            record,
            event,
            room: ROOM,
            wanted: refusal,
        };
        let (expected, bytes) = excerpt(store, at, |store, reply| {
            in_c(&case, end.plain(record, event, store, reply))
        });
        let (seen, seen_bytes) = excerpt(store, at, |store, reply| {
            end.proved(record, event, store, reply)
        });
        let right = expected.answer.refusal == refusal;
        if seen != expected || seen_bytes != bytes || !right {
            let what = format_args!("{} {}, {KIND}", E::NAME, event.name());
            let wanted = (expected, Hex(&bytes));
            self.report(
                what,
                (&case, store.len(), at),
                (seen, Hex(&seen_bytes)),
                wanted,
            );
        }
        let length = expected.answer.length;
        let outcome = Outcome {
            record: expected.record,
            refusal: expected.answer.refusal,
            frame: Some(bytes[..length].to_vec()).filter(|frame| !frame.is_empty()),
        };
        self.tally.step(&case, &outcome);
    }

    /// Reply buffers that are long enough only in all of their bits.
    fn reply_beyond(&mut self, bytes: &mut [u8]) {
        let reply = &mut bytes[..BEYOND + 3];
        let seen = machine(V2_1).proved(state(OFFERING), Event::Timer, &mut [0; 71], reply);
        let wanted = Written {
            length: 8,
            refusal: 0,
        };
        let frame = [12, 0, 1, 71, 0, 0, 0, 0, 0];
        if seen.answer != wanted || reply[..9] != frame {
            let what = format_args!("machine timer, reply buffer above 32 bits");
            self.report(what, Hex(&reply[..9]), seen, wanted);
        }
        reply[..9].fill(0);
    }
}

/// Makes a call, and gives with its answer the reply buffer and the store's
/// bytes from `at` on, which are then put back.
fn excerpt<R>(
    store: &mut [u8],
    at: usize,
    call: impl FnOnce(&mut [u8], &mut [u8]) -> Step<R>,
) -> (Step<R>, Vec<u8>) {
    let part = at..store.len().min(at + 2000);
    let before = store[part.clone()].to_vec();
    let mut reply = vec![0xA5; ROOM];
    let step = call(store, &mut reply);
    reply.extend_from_slice(&store[part.clone()]);
    store[part].copy_from_slice(&before);
    (step, reply)
}

fn machine(version: u8) -> Machine {
    Machine {
        settings: MachineSettings {
            reply_bytes: 9,
            version,
            ..Default::default()
        },
        purpose: Purpose::Load,
    }
}

fn loading(file: &[u8]) -> Load<'_> {
    Load {
        settings: LoadSettings {
            segment_size: 1,
            repeats: 1,
            with_parameters: 0,
            version: V3_0,
            restart: 0,
        },
        file: Hex(file),
        parameters: Hex(&[]),
    }
}
