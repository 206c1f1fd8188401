//! Compares the machine's steps with a ROM window: loads about its ends, what
//! it leaves alone, and windows that are refused.

use super::blocks;
use super::dump::ADDRESS_END;
use super::machine::{IDLE, Machine, OFFERING, Purpose, REQUESTING, loading, started, state};
use super::{Case, Event, ROOM, frames, read};
use crate::Compare;
use crate::make::{V3_0, VERSIONS};
use crate::tally::Hex;
use mop_plain::frame::Frame;
use mop_proved::{MachineSettings, Window};

/// The bytes of the memory that most windows here are for.
const LENGTH: usize = 16;

/// D.
const REPLY_BYTES: usize = 4;

/// W and V of windows that are accepted.
const ACCEPTED: [(u64, u64); 26] = [
    // At memory's start, inside, at its end, and all of it.
    (0, 1),
    (0, 5),
    (6, 1),
    (6, 5),
    (12, 4),
    (15, 1),
    (0, 16),
    // Across its end.
    (15, 2),
    (12, 5),
    (6, ADDRESS_END - 6),
    (1, ADDRESS_END - 1),
    (0, ADDRESS_END),
    // Beyond it.
    (16, 1),
    (17, 3),
    (16, ADDRESS_END - 16),
    (ADDRESS_END - 4, 4),
    (ADDRESS_END - 1, 1),
    // Inside it only in their low bits.
    ((1 << 16) + 6, 5),
    ((1 << 24) + 6, 5),
    ((1 << 31) + 6, 5),
    // None, wherever it would begin.
    (0, 0),
    (6, 0),
    (16, 0),
    (ADDRESS_END, 0),
    (ADDRESS_END + 6, 0),
    (u64::MAX, 0),
];

/// W and V of windows that end too high.
pub const REFUSED: [(u64, u64); 17] = [
    (0, ADDRESS_END + 1),
    (1, ADDRESS_END),
    (ADDRESS_END - 1, 2),
    (ADDRESS_END, 1),
    // Good in their low 32 bits.
    (6, ADDRESS_END + 5),
    (ADDRESS_END + 6, 5),
    (ADDRESS_END, ADDRESS_END),
    (1 << 33, 5),
    // Far too high.
    (1 << 63, 1),
    (0, u64::MAX),
    (u64::MAX, u64::MAX),
    // Good in the low 64 bits of the sum.
    (1, u64::MAX),
    (6, u64::MAX),
    (u64::MAX, 1),
    (u64::MAX, 7),
    (u64::MAX - 3, 9),
    (1 << 63, 1 << 63),
];

pub fn window((start, length): (u64, u64)) -> Window {
    Window { start, length }
}

/// A machine of version 3.0.0 with this window.
pub fn with_window(bounds: (u64, u64)) -> Machine {
    Machine {
        settings: MachineSettings {
            reply_bytes: REPLY_BYTES as u32,
            version: V3_0,
            window: window(bounds),
            ..Default::default()
        },
        purpose: Purpose::Load,
    }
}

/// Whether some address of a load lies in the window.
pub fn touches(window: Window, address: u64, length: usize) -> bool {
    let inside = |address| address >= window.start && address - window.start < window.length;
    (address..).take(length).any(inside)
}

/// Lays data over memory if it fits, and says whether it does.
fn lay(window: Window, address: u32, data: &[u8], memory: &mut [u8]) -> bool {
    let start = address as usize;
    let place = memory.get_mut(start..start + data.len());
    let place = place.filter(|_| !touches(window, address.into(), data.len()));
    let fits = place.is_some();
    if let Some(place) = place {
        place.copy_from_slice(data);
    }
    fits
}

/// The address and length that a frame speaks of to a machine, or 0.
pub fn place_of(end: &Machine, bytes: &[u8], memory: usize) -> (u64, u64) {
    match read(end, bytes) {
        Ok(Frame::Load { address, data, .. } | Frame::LoadTransfer { address, data, .. }) => {
            (address.into(), data.len() as u64)
        }
        Ok(Frame::RequestDump { address, count }) => (address.into(), count.into()),
        Ok(Frame::Parameters { .. }) => blocks::place(end.settings.version, memory),
        _ => (0, 0),
    }
}

impl Compare {
    pub fn machine_windows(&mut self) {
        self.window_set_cases();
        for bounds in ACCEPTED {
            let end = with_window(bounds);
            self.loads_against(&end);
            self.dumps_across(&end);
            self.states_with(&end);
        }
        self.windows_judged();
        for _ in 0..10_000 {
            self.any_load_against_a_window();
        }
    }

    /// What PROTOCOL 4 says outright, with a window of two bytes at 3.
    fn window_set_cases(&mut self) {
        let end = with_window((3, 2));
        let (idle, requesting) = (state(IDLE), state(REQUESTING));
        let load = |number, address, data: &[u8]| frames::load(number, address, data, None);
        let last = |number, address, data: &[u8]| frames::load(number, address, data, Some(5));
        let old = [0, 1, 2, 3, 4, 5, 6, 7];
        #[rustfmt::skip]
        let cases = [
            // It ends where the window begins, or begins where it ends.
            (requesting, load(0, 1, &[8, 9]), loading(1, 0), &[10, 1, 0][..], [0, 8, 9, 3, 4, 5, 6, 7]),
            (requesting, load(0, 5, &[8, 9]), loading(1, 0), &[10, 1, 0], [0, 1, 2, 3, 4, 8, 9, 7]),
            // One byte nearer, around the window, and inside.
            (requesting, load(0, 2, &[8, 9]), loading(1, 1), &[10, 1, 1], old),
            (requesting, load(0, 4, &[8, 9]), loading(1, 1), &[10, 1, 1], old),
            (requesting, load(0, 0, &[9; 8]), loading(1, 1), &[10, 1, 1], old),
            (requesting, load(0, 3, &[8, 9]), loading(1, 1), &[10, 1, 1], old),
            (requesting, load(0, 4, &[9]), loading(1, 1), &[10, 1, 1], old),
            // Without data.
            (requesting, load(0, 4, &[]), loading(1, 0), &[10, 1, 0], old),
            (loading(7, 1), last(7, 3, &[]), started(5), &[10, 8, 0], old),
            // The machine starts only if the load fits; its error stays.
            (loading(7, 0), last(7, 2, &[8, 9]), loading(8, 1), &[10, 8, 1], old),
            (loading(8, 1), last(7, 2, &[8, 9]), loading(8, 1), &[10, 8, 1], old),
            (loading(8, 1), last(8, 6, &[8, 9]), started(5), &[10, 9, 0], [0, 1, 2, 3, 4, 5, 8, 9]),
            // What is no load.
            (loading(8, 1), frames::parameters(8, &[], 5), started(5), &[10, 9, 0], old),
            (idle, frames::request_dump(2, 4), idle, &[14, 2, 0, 0, 0, 2, 3, 4, 5], old),
        ];
        for (before, frame, after, reply, memory) in cases {
            let event = Event::Frame(Hex(&frame));
            self.set_case(&end, before, event, &old, (after, Some(reply), &memory));
        }
    }

    /// Every load into a small memory, with addresses and lengths beyond it,
    /// and at the last addresses.
    fn loads_against(&mut self, end: &Machine) {
        let old: Vec<u8> = (0..).take(LENGTH).collect();
        let data: Vec<u8> = (100..).take(LENGTH + 2).collect();
        let beyond = LENGTH as u32 + 2;
        for address in (0..=beyond).chain(u32::MAX - 4..=u32::MAX) {
            for length in 0..=data.len() {
                for transfer in [None, Some(77)] {
                    self.load_twice(end, &old, address, &data[..length], transfer);
                }
            }
        }
    }

    /// A load of any length inside memory.
    fn any_load_against_a_window(&mut self) {
        let length = match self.random.below(8) {
            0 => 0,
            1 => self.random.range(0, 1490),
            _ => self.random.range(1, 20),
        };
        let version = self.any_version();
        let least = blocks::memory_least(version);
        let (few, behind) = (self.random.range(1, 20), self.random.range(0, 20) + least);
        let address = match self.random.below(128) {
            0 => 65_536 + few,
            1..=40 => 0,
            _ => few,
        };
        let old = self.random.bytes(address + length + behind);
        let data = self.random.bytes(length);
        let mut end = self.good_machine(version);
        end.settings.window = self.window_about((address as u64, length as u64), old.len());
        let transfer = self.random.pick(&[None, Some(77)]);
        self.load_twice(&end, &old, address as u32, &data, transfer);
    }

    /// A load, then the same frame again: it gets the same reply, unless the
    /// machine has started.
    fn load_twice(
        &mut self,
        end: &Machine,
        old: &[u8],
        address: u32,
        data: &[u8],
        transfer: Option<u32>,
    ) {
        const KIND: &str = "loads about a window";
        let frame = frames::load(6, address, data, transfer);
        let event = Event::Frame(Hex(&frame));
        let mut memory = old.to_vec();
        let fits = lay(end.settings.window, address, data, &mut memory);
        let error = if fits { 0 } else { 1 };
        let (after, again) = match transfer {
            Some(transfer) if fits => (started(transfer), false),
            _ => (loading(7, error), true),
        };
        let reply: &[u8] = &[10, 7, error];
        let wanted = (after, Some(reply), &memory[..]);
        self.known_case(KIND, end, loading(6, 1 - error), event, old, wanted);
        let wanted = (after, Some(reply).filter(|_| again), &memory[..]);
        self.known_case(KIND, end, after, event, &memory, wanted);
    }

    /// Code 4 about the window and memory's end, in both states that answer.
    fn dumps_across(&mut self, end: &Machine) {
        let memory: Vec<u8> = (50..).take(LENGTH).collect();
        for address in 0..=LENGTH + 2 {
            for count in [0, 1, 3, 4, 5, 1500] {
                let frame = frames::request_dump(address as u32, count as u16);
                let there = memory.iter().skip(address).copied();
                let data = there.chain([0; REPLY_BYTES]).take(count.min(REPLY_BYTES));
                let reply = frames::dump_data(address as u32, &data.collect::<Vec<u8>>());
                for number in [IDLE, OFFERING] {
                    let (record, event) = (state(number), Event::Frame(Hex(&frame)));
                    let wanted = (record, Some(&reply[..]), &memory[..]);
                    self.known_case("dumps across a window", end, record, event, &memory, wanted);
                }
            }
        }
    }

    /// Every state, and codes 0, 2 and 20 with every sort of number.
    fn states_with(&mut self, end: &Machine) {
        let Window { start, length } = end.settings.window;
        let bounds = [start, start.saturating_add(length)];
        let mut events = Vec::new();
        for number in [0, 7, 8, 9] {
            events.push(frames::parameters(number, &[1, 1, 65], 5));
            for bound in bounds {
                for address in [bound.saturating_sub(2), bound.saturating_sub(1), bound] {
                    let address = address.min(ADDRESS_END - 1) as u32;
                    let load = |transfer| frames::load(number, address, &[100, 101], transfer);
                    events.extend([None, Some(3)].map(load));
                }
            }
        }
        events.extend([vec![1], vec![3], vec![24, 1, 2, 3], vec![26, 1, 2]]);
        let records = [IDLE, OFFERING, REQUESTING].map(state);
        let busy = [loading(8, 0), loading(8, 1), loading(0, 1), started(9)];
        for record in records.into_iter().chain(busy) {
            for event in events.iter().map(|frame| Event::Frame(Hex(frame))) {
                let case = Case {
                    kind: "every state with a window",
                    end,
                    record,
                    event,
                    room: ROOM,
                    wanted: 0,
                };
                let mut memory = self.random.bytes(LENGTH);
                self.step(case, &mut memory);
            }
        }
    }

    /// Every window in every call, with other faults and without.
    fn windows_judged(&mut self) {
        const KIND: &str = "windows in every call";
        let good = ACCEPTED.map(|bounds| (bounds, 0));
        let bad = REFUSED.map(|bounds| (bounds, 10));
        for (bounds, refusal) in good.into_iter().chain(bad) {
            for version in VERSIONS {
                let mut end = with_window(bounds);
                end.settings.version = version;
                for room in [ROOM, ROOM - 1] {
                    self.every_call(KIND, end, refusal, blocks::MEMORY_LEAST, room);
                }
            }
        }
    }

    /// A window that begins or ends about the ends of a load at this address,
    /// of this length, or of memory; or none.
    pub fn window_about(&mut self, (address, length): (u64, u64), memory: usize) -> Window {
        let random = &mut self.random;
        if random.once_in(6) {
            let start = random.pick(&[address, ADDRESS_END, u64::MAX]);
            return window((start, 0));
        }
        let (behind, any) = (address + length, random.below(ADDRESS_END));
        let near = random.pick(&[address, address, behind, behind, memory as u64, 0, any]);
        let bound = (near + random.below(3)).saturating_sub(1).min(ADDRESS_END);
        let few = 1 + random.below(20);
        let (above, below) = ((bound + few).min(ADDRESS_END), bound.saturating_sub(few));
        let other = random.pick(&[bound + 1, above, above, below, below, 0, ADDRESS_END]);
        let (start, end) = (bound.min(other), bound.max(other).min(ADDRESS_END));
        window((start, end - start))
    }
}
