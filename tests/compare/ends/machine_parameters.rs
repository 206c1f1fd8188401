//! Compares the machine's steps on code 20: what it takes, and what it keeps.

use super::blocks::{Block, MEMORY_LEAST, memory_least};
use super::machine::{
    IDLE, LOADING, Machine, OFFERING, REQUESTING, STARTED, keeping, loading, started, state,
};
use super::machine_windows::window;
use super::strings::{good_lists, kept, set_strings};
use super::{Case, Event, ROOM, frames};
use crate::Compare;
use crate::make::{V2_1, V3_0, VERSIONS};
use crate::tally::Hex;
use mop_proved::{Parameters, Value};

/// Longer than any value; no list of entries gives it.
const FULL: Value = Value {
    length: 16,
    bytes: [0xEE; 16],
};

/// What stands in a record before, in all places.
pub const OLD: Parameters = Parameters {
    target_name: FULL,
    target_address: FULL,
    host_name: FULL,
    host_address: FULL,
    host_time: FULL,
};

/// A host's name and a target's, as entries.
const ENTRIES: [&[u8]; 2] = [&[3, 2, 72, 73], &[1, 1, 65]];

/// What a code 20 with these entries and transfer address 5 makes of a record
/// and of memory if it is taken, and the reply; `next` is the number after it.
fn taken_with(
    end: &Machine,
    memory: &[u8],
    next: u8,
) -> (mop_proved::Machine, Vec<u8>, Option<[u8; 3]>) {
    let entries = ENTRIES.map(<[u8]>::to_vec);
    let block = Block::new(end.settings.version, &entries, memory.len());
    match block.fits(end.settings.window) {
        true => {
            let after = keeping(started(5), kept(&entries));
            (after, block.over(memory), Some([10, next, 0]))
        }
        false => {
            let after = keeping(loading(next, 1), OLD);
            (after, memory.to_vec(), Some([10, next, 1]))
        }
    }
}

impl Compare {
    pub fn machine_parameters(&mut self) {
        let [fitting, other] = [V2_1, V3_0].map(|version| self.without_window(version));
        let mut rejecting = fitting;
        rejecting.settings.window = window((Block::start(MEMORY_LEAST), 1));
        let ends = [fitting, rejecting, other];
        for end in &ends {
            self.code_20_set_cases(end);
        }
        for version in VERSIONS {
            self.entries_kept(version);
            self.entries_read(version);
        }
        self.code_20_numbers(&ends);
    }

    /// Code 20 in every state and with every kind of number: taken, the last
    /// reply again, ignored.
    fn code_20_set_cases(&mut self, end: &Machine) {
        #[rustfmt::skip]
        let cases = [
            (state(IDLE), 0, Some(1)),
            (state(REQUESTING), 0, Some(1)),
            (loading(9, 1), 0, Some(1)),
            (loading(9, 1), 9, Some(10)),
            (loading(255, 0), 255, Some(0)),
            (loading(0, 1), 0, Some(1)),
            // Number 0 is never a repeat.
            (loading(1, 1), 0, Some(1)),
            (loading(1, 0), 0, Some(1)),
            (loading(9, 1), 7, None),
            (loading(9, 1), 10, None),
            (state(IDLE), 1, None),
            (state(REQUESTING), 255, None),
            (state(OFFERING), 0, None),
            (started(3), 0, None),
            (started(3), 1, None),
        ];
        let memory = self.random.bytes(MEMORY_LEAST);
        for (before, number, taken) in cases {
            let record = keeping(before, OLD);
            let (after, laid, reply) = match taken {
                Some(next) => taken_with(end, &memory, next),
                None => (record, memory.clone(), None),
            };
            let frame = frames::parameters(number, &ENTRIES.concat(), 5);
            let (event, reply) = (Event::Frame(Hex(&frame)), reply.as_ref());
            let wanted = (after, reply.map(|reply| &reply[..]), &laid[..]);
            self.set_case(end, record, event, &memory, wanted);
        }
        for (expected, error, number) in [(9, 1, 8), (9, 0, 8), (0, 1, 255)] {
            let record = keeping(loading(expected, error), OLD);
            let frame = frames::parameters(number, &ENTRIES.concat(), 5);
            let (event, reply) = (Event::Frame(Hex(&frame)), [10, expected, error]);
            self.set_case(end, record, event, &memory, (record, Some(&reply), &memory));
        }
    }

    /// Entries of every sort over records that keep nothing, and that keep
    /// more: all five values are set, the last of each type, and zeros behind.
    fn entries_kept(&mut self, version: u8) {
        let end = self.without_window(version);
        let memory = self.random.bytes(memory_least(version));
        for list in good_lists(&mut self.random, version) {
            let laid = Block::new(version, &list, memory.len()).over(&memory);
            let frame = frames::parameters(9, &list.concat(), 77);
            let event = Event::Frame(Hex(&frame));
            for before in [Parameters::default(), OLD, self.any_kept()] {
                let after = keeping(started(77), kept(&list));
                let reply: Option<&[u8]> = Some(&[10, 10, 0]);
                let loading = keeping(loading(9, 1), before);
                self.set_case(&end, loading, event, &memory, (after, reply, &laid));
            }
            // A number that is not taken leaves them.
            let loading = keeping(loading(10, 1), OLD);
            let wanted = (loading, Some(&[10, 10, 1][..]), &memory[..]);
            self.set_case(&end, loading, event, &memory, wanted);
        }
    }

    /// Strings of every sort, good and bad, in every state.
    fn entries_read(&mut self, version: u8) {
        let end = self.good_machine(version);
        for (string, _) in set_strings(&mut self.random, version) {
            let frame = frames::parameters(0, &string, 3);
            let event = Event::Frame(Hex(&frame));
            for number in IDLE..=STARTED {
                let case = Case {
                    kind: "entries in every state",
                    end: &end,
                    record: keeping(state(number), OLD),
                    event,
                    room: ROOM,
                    wanted: event.refusal(&end),
                };
                let mut memory = self.random.bytes(memory_least(version));
                self.step(case, &mut memory);
            }
        }
    }

    /// Every number of a code 20 against every expected one.
    fn code_20_numbers(&mut self, ends: &[Machine]) {
        for expected in 0..=255 {
            for number in 0..=255 {
                let (end, error) = (self.random.pick(ends), self.random.pick(&[0, 1]));
                self.code_20(&end, keeping(loading(expected, error), OLD), number);
            }
        }
        for number in 0..=255 {
            for other in (IDLE..=STARTED).filter(|&other| other != LOADING) {
                let end = self.random.pick(ends);
                self.code_20(&end, keeping(state(other), OLD), number);
            }
        }
    }

    fn code_20(&mut self, end: &Machine, record: mop_proved::Machine, number: u8) {
        let frame = frames::parameters(number, &[1, 2, 65, 66, 4, 0], 77);
        let case = Case {
            kind: "every number of a code 20",
            end,
            record,
            event: Event::Frame(Hex(&frame)),
            room: ROOM,
            wanted: 0,
        };
        self.step(case, &mut [7; MEMORY_LEAST]);
    }

    /// What a record may keep: nothing, much, or anything at all, since no
    /// record is bad for it.
    pub fn any_kept(&mut self) -> Parameters {
        let mut any = || Value {
            length: self.random.u8(),
            bytes: std::array::from_fn(|_| self.random.u8()),
        };
        let other = Parameters {
            target_name: any(),
            target_address: any(),
            host_name: any(),
            host_address: any(),
            host_time: any(),
        };
        self.random
            .pick(&[Parameters::default(), OLD, other, other])
    }

    /// Code 20 with a number that may matter to a machine that expects this
    /// one.
    pub fn any_parameters(&mut self, version: u8, expected: u8) -> Vec<u8> {
        let any = self.random.u8();
        let numbers = [0, expected, expected, expected.wrapping_sub(1), any];
        let number = self.random.pick(&numbers);
        let entries = self.any_entries(version).concat();
        frames::parameters(number, &entries, self.random.u32())
    }
}
