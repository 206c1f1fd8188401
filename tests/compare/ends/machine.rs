//! Compares the machine's steps.

use super::blocks::{memory_least, small_memory};
use super::machine_parameters::OLD;
use super::machine_windows::{REFUSED, place_of, window, with_window};
use super::{Case, End, Event, ROOM, first, frames, room_refusal};
use crate::Compare;
use crate::make::{self, NO_VERSIONS, V2_1, V3_0, VERSIONS};
use crate::tally::Hex;
use mop_plain::entries::{self, Kept};
use mop_plain::machine::{self, State};
use mop_plain::step::Sent;
use mop_plain::version::Version;
use mop_proved::{MachineSettings, Parameters, Step, Value, Window};

const MEMORY_MOST: usize = 16_777_216;

pub const IDLE: u8 = 0;
pub const OFFERING: u8 = 1;
pub const REQUESTING: u8 = 2;
pub const LOADING: u8 = 3;
pub const STARTED: u8 = 4;

/// What a machine starts for.
#[derive(Clone, Copy, Debug)]
pub enum Purpose {
    Load,
    Dump,
}

#[derive(Clone, Copy, Debug)]
pub struct Machine {
    pub settings: MachineSettings,
    pub purpose: Purpose,
}

impl End for Machine {
    type Record = mop_proved::Machine;
    const NAME: &'static str = "machine";
    const STEPS: &'static str = "machine steps";

    fn plain(
        &self,
        record: Self::Record,
        event: Event,
        memory: &mut [u8],
        reply: &mut [u8],
    ) -> Result<(Self::Record, Sent), u8> {
        let settings = machine::Settings {
            dump_most: self.settings.reply_bytes,
            device: self.settings.device,
            processor: self.settings.processor,
            version: Version::from_number(self.settings.version)?,
            window: plain_window(self.settings.window),
        };
        let mut machine = machine::Machine {
            state: State::from_numbers(
                record.state,
                record.expected,
                record.error,
                record.transfer,
            )?,
            kept: plain_kept(record.parameters),
        };
        let sent = match (event, self.purpose) {
            (Event::Start, purpose) => {
                let start = match purpose {
                    Purpose::Load => machine::start_load,
                    Purpose::Dump => machine::start_dump,
                };
                let (fresh, sent) = start(settings, memory, reply)?;
                machine = fresh;
                sent
            }
            (Event::Frame(Hex(bytes)), _) => {
                machine::frame(settings, &mut machine, bytes, memory, reply)?
            }
            (Event::Timer, _) => machine::timer(settings, &machine, memory, reply)?,
        };
        Ok((numbers(machine), sent))
    }

    fn proved(
        &self,
        record: Self::Record,
        event: Event,
        memory: &mut [u8],
        reply: &mut [u8],
    ) -> Step<Self::Record> {
        let settings = self.settings;
        let step = match (event, self.purpose) {
            (Event::Start, Purpose::Load) => {
                mop_proved::machine_start_load(settings, memory, reply)
            }
            (Event::Start, Purpose::Dump) => {
                mop_proved::machine_start_dump(settings, memory, reply)
            }
            (Event::Frame(Hex(bytes)), _) => {
                mop_proved::machine_frame(settings, record, bytes, memory, reply)
            }
            (Event::Timer, _) => mop_proved::machine_timer(settings, record, memory, reply),
        };
        match step.answer.refusal {
            0 => Step {
                record: own(step.record),
                ..step
            },
            _ => step,
        }
    }

    fn begun(&self) -> Self::Record {
        match self.purpose {
            Purpose::Load => state(REQUESTING),
            Purpose::Dump => state(OFFERING),
        }
    }

    fn verdict(record: &Self::Record) -> u8 {
        record.state
    }

    fn version(&self) -> u8 {
        self.settings.version
    }
}

/// The record without the numbers that are not its state's own: they mean
/// nothing, and the plain state has no place for them.
fn own(record: mop_proved::Machine) -> mop_proved::Machine {
    let own = match record.state {
        LOADING => loading(record.expected, record.error),
        STARTED => started(record.transfer),
        other => state(other),
    };
    keeping(own, record.parameters)
}

/// A state's number, what it keeps, and the parameters; all else is 0.
fn numbers(machine: machine::Machine) -> mop_proved::Machine {
    let numbers = match machine.state {
        State::Idle => state(IDLE),
        State::Offering => state(OFFERING),
        State::Requesting => state(REQUESTING),
        State::Loading { expected, error } => loading(expected, error),
        State::Started { transfer } => started(transfer),
    };
    keeping(numbers, proved_kept(machine.kept))
}

fn plain_window(window: Window) -> machine::Window {
    machine::Window {
        start: window.start,
        length: window.length,
    }
}

fn proved_kept(kept: Kept) -> Parameters {
    let value = |value: entries::Value| Value {
        length: value.length,
        bytes: value.bytes,
    };
    Parameters {
        target_name: value(kept.target_name),
        target_address: value(kept.target_address),
        host_name: value(kept.host_name),
        host_address: value(kept.host_address),
        host_time: value(kept.host_time),
    }
}

fn plain_kept(kept: Parameters) -> Kept {
    let value = |value: Value| entries::Value {
        length: value.length,
        bytes: value.bytes,
    };
    Kept {
        target_name: value(kept.target_name),
        target_address: value(kept.target_address),
        host_name: value(kept.host_name),
        host_address: value(kept.host_address),
        host_time: value(kept.host_time),
    }
}

/// The record with these parameters.
pub fn keeping(record: mop_proved::Machine, parameters: Parameters) -> mop_proved::Machine {
    mop_proved::Machine {
        parameters,
        ..record
    }
}

/// A state that keeps nothing.
pub fn state(state: u8) -> mop_proved::Machine {
    mop_proved::Machine {
        state,
        ..Default::default()
    }
}

pub fn loading(expected: u8, error: u8) -> mop_proved::Machine {
    mop_proved::Machine {
        expected,
        error,
        ..state(LOADING)
    }
}

pub fn started(transfer: u32) -> mop_proved::Machine {
    mop_proved::Machine {
        transfer,
        ..state(STARTED)
    }
}

impl Compare {
    pub fn machine_steps(&mut self) {
        self.machine_set_cases();
        self.machine_numbers();
        for version in VERSIONS {
            self.machine_rooms(version);
            self.machine_states(version);
        }
        self.machine_parameters();
        self.machine_windows();
        self.parameter_blocks();
        self.machine_versions();
        for _ in 0..60_000 {
            self.any_machine_step();
        }
        self.large_memories();
    }

    pub fn good_machine(&mut self, version: u8) -> Machine {
        let any = self.random.range(1, 1495) as u32;
        Machine {
            settings: MachineSettings {
                reply_bytes: self.random.pick(&[1, 2, 4, 20, 1494, 1495, any]),
                device: self.random.u8(),
                processor: self.random.u8(),
                version,
                window: self.window_about((2, 6), 16),
            },
            purpose: self.random.pick(&[Purpose::Load, Purpose::Dump]),
        }
    }

    /// Any state, with what it keeps, and any parameters.
    fn any_state(&mut self) -> mop_proved::Machine {
        let any = self.random.u8();
        let expected = self.random.pick(&[0, 1, 2, 254, 255, any]);
        let error = self.random.pick(&[0, 0, 1, 1, any]);
        let record = match self.random.range(0, 6) as u8 {
            STARTED => started(self.random.u32()),
            number @ IDLE..=REQUESTING => state(number),
            _ => loading(expected, error),
        };
        keeping(record, self.any_kept())
    }

    /// Paper 01's K7, K8, K9 and K12, and what its text says outright.
    fn machine_set_cases(&mut self) {
        let (idle, offering, requesting) = (state(IDLE), state(OFFERING), state(REQUESTING));
        let load = |number, address| frames::load(number, address, &[7, 8], None);
        let last = |number, address| frames::load(number, address, &[7, 8], Some(5));
        let dump = frames::request_dump;
        let old = [1, 2, 3, 4, 5, 6, 8, 9];
        let high = [1, 2, 3, 4, 5, 6, 7, 8];
        let low = [7, 8, 3, 4, 5, 6, 8, 9];
        let none: &[u8] = &[];
        #[rustfmt::skip]
        let cases = [
            // K7
            (requesting, load(0, 6), loading(1, 0), &[10, 1, 0][..], high),
            (requesting, load(0, 7), loading(1, 1), &[10, 1, 1], old),
            // K8
            (loading(1, 0), load(0, 0), loading(1, 0), &[10, 1, 0], low),
            // K9
            (loading(255, 0), load(255, 0), loading(0, 0), &[10, 0, 0], low),
            // The machine starts only if the data fits.
            (loading(9, 0), last(9, 0), started(5), &[10, 10, 0], low),
            (loading(9, 0), last(9, 7), loading(10, 1), &[10, 10, 1], old),
            // The number before, again, with its error; other numbers, nothing.
            (loading(9, 1), last(8, 0), loading(9, 1), &[10, 9, 1], old),
            (loading(0, 1), load(255, 0), loading(0, 1), &[10, 0, 1], old),
            (loading(9, 1), load(7, 0), loading(9, 1), none, old),
            (requesting, load(1, 0), requesting, none, old),
            (offering, load(0, 0), offering, none, old),
            (started(3), load(0, 0), started(3), none, old),
            // K12, and dumps of nothing, at the last address, unoffered.
            (idle, dump(6, 4), idle, &[14, 6, 0, 0, 0, 8, 9, 0, 0], old),
            (idle, dump(6, 0), idle, &[14, 6, 0, 0, 0], old),
            (offering, dump(u32::MAX, 9), offering, &[14, 255, 255, 255, 255, 0, 0, 0, 0], old),
            (requesting, dump(0, 4), requesting, none, old),
            (offering, vec![1], idle, none, old),
            (idle, vec![24, 1, 2, 3], idle, &[26, 1, 2, 3], old),
            (offering, vec![24, 1, 2, 3], offering, none, old),
        ];
        // The windows change nothing here.
        for end in [(0, 0), (7, 0), (8, 1), (9, 7)].map(with_window) {
            for (before, frame, after, reply, memory) in &cases {
                let event = Event::Frame(Hex(frame));
                let reply = Some(*reply).filter(|reply| !reply.is_empty());
                // Parameters stay whatever these frames do.
                for kept in [Parameters::default(), OLD] {
                    let [before, after] = [before, after].map(|record| keeping(*record, kept));
                    self.set_case(&end, before, event, &old, (after, reply, memory));
                }
            }
        }
    }

    /// Every number against every expected number.
    fn machine_numbers(&mut self) {
        let mut memory = self.random.bytes(64);
        for expected in 0..=255 {
            let version = self.any_version();
            let end = self.good_machine(version);
            for number in 0..=255 {
                let far = self.random.range(60, 64);
                let address = self.random.pick(&[0, 2, 8, far]) as u32;
                let data = self.random.bytes(2);
                let transfer = self.random.pick(&[None, None, Some(77)]);
                let frame = frames::load(number, address, &data, transfer);
                let case = Case {
                    kind: "every number against every expected",
                    end: &end,
                    record: loading(expected, self.random.pick(&[0, 1])),
                    event: Event::Frame(Hex(&frame)),
                    room: ROOM,
                    wanted: 0,
                };
                self.step(case, &mut memory);
            }
        }
    }

    fn machine_rooms(&mut self, version: u8) {
        let memory = self.random.bytes(70);
        for number in IDLE..=STARTED {
            let end = self.good_machine(version);
            let load = frames::load(0, 3, &[1, 2, 3], None);
            let dump = frames::request_dump(2, 20);
            let offer = make::frame(&mut self.random, version, 12);
            let parameters = frames::parameters(0, &[1, 1, 65], 9);
            for frame in [load, dump, offer, vec![24, 1, 2], parameters] {
                self.rooms(&end, state(number), Event::Frame(Hex(&frame)), &memory);
            }
            self.rooms(&end, state(number), Event::Timer, &memory);
            self.rooms(&end, Default::default(), Event::Start, &memory);
        }
    }

    /// Every state number; those above 4 cannot be.
    fn machine_states(&mut self, version: u8) {
        for number in 0..=255 {
            let end = self.good_machine(version);
            let frame = frames::load(0, 0, &[1], None);
            for event in [Event::Frame(Hex(&frame)), Event::Timer] {
                let case = Case {
                    kind: "every state number",
                    end: &end,
                    record: state(number),
                    event,
                    room: ROOM,
                    wanted: if number > STARTED { 10 } else { 0 },
                };
                self.step(case, &mut [0; 64]);
            }
        }
    }

    fn any_machine_step(&mut self) {
        let version = self.any_version();
        let mut memory = self.any_memory(version);
        let mut end = self.good_machine(version);
        let mut record = self.any_state();
        let frame = self.frame_for_machine(&end, record.expected, memory.len());
        end.settings.window = self.window_about(place_of(&end, &frame, memory.len()), memory.len());
        let event = match self.random.below(10) {
            0 => Event::Start,
            1 | 2 => Event::Timer,
            _ => Event::Frame(Hex(&frame)),
        };
        match event {
            Event::Start => record = Default::default(),
            // Numbers that are not the state's own.
            _ if self.random.once_in(16) => (record.transfer, record.expected) = (1, 2),
            _ => {}
        }
        let mut early = 0;
        if self.faulty() {
            early = 10;
            self.spoil(&mut end.settings, &mut record, event);
        }
        let room = self.any_reply_room();
        let small = small_memory(version, memory.len());
        let case = Case {
            kind: match version {
                V2_1 => "2.1: any state and frame",
                _ => "any state and frame",
            },
            end: &end,
            record,
            event,
            room,
            wanted: first(&[early, small, room_refusal(room), event.refusal(&end)]),
        };
        self.step(case, &mut memory);
    }

    /// Puts D, the window, the version or, where there is one, the state out of
    /// its range.
    fn spoil(
        &mut self,
        settings: &mut MachineSettings,
        record: &mut mop_proved::Machine,
        event: Event,
    ) {
        let parts = if matches!(event, Event::Start) { 3 } else { 4 };
        match self.random.below(parts) {
            0 => {
                let bad = [0, 1496, 65_536, 65_537, 1 << 31, u32::MAX];
                settings.reply_bytes = self.random.pick(&bad);
            }
            1 => settings.window = window(self.random.pick(&REFUSED)),
            2 => settings.version = self.random.pick(&NO_VERSIONS),
            _ => record.state = self.number_from(5),
        }
    }

    /// A memory, mostly one that is long enough for the version.
    fn any_memory(&mut self, version: u8) -> Vec<u8> {
        let least = match self.random.once_in(8) {
            true => 0,
            false => memory_least(version),
        };
        let more = match self.random.below(64) {
            0..=6 => 0,
            7..=12 => self.random.range(1480, 1510),
            13..=18 => self.random.range(1, 4000),
            19 => self.random.range(65_530, 70_000),
            _ => self.random.range(1, 40),
        };
        self.random.bytes(least + more)
    }

    /// A frame that may matter to a machine that expects this number.
    fn frame_for_machine(&mut self, end: &Machine, expected: u8, memory: usize) -> Vec<u8> {
        let (version, reply_bytes) = (end.settings.version, end.settings.reply_bytes);
        let frame = match self.random.below(13) {
            0..=4 => self.any_load(expected, memory),
            10..=12 => self.any_parameters(version, expected),
            5 | 6 => {
                let address = self.address_about(memory, reply_bytes as usize);
                let near = reply_bytes as u16;
                let any = self.random.u16();
                let count = [0, 1, near - 1, near, near + 1, 256, u16::MAX, any];
                frames::request_dump(address, self.random.pick(&count))
            }
            7 => make::frame(&mut self.random, version, 24),
            8 => vec![1],
            _ => self.any_good_frame(),
        };
        self.perhaps_spoilt(frame)
    }

    fn any_load(&mut self, expected: u8, memory: usize) -> Vec<u8> {
        let any = self.random.u8();
        let numbers = [0, expected, expected, expected.wrapping_sub(1), any];
        let number = self.random.pick(&numbers);
        let length = match self.random.below(12) {
            0 => 0,
            1 => 1490,
            2 => self.random.range(0, 1490),
            _ => self.random.range(0, 20),
        };
        let address = self.address_about(memory, length);
        let any = self.random.u32();
        let transfer = self.random.pick(&[None, Some(any)]);
        let data = self.random.bytes(length);
        frames::load(number, address, &data, transfer)
    }

    /// An address from which `length` bytes just fit into memory, just do not,
    /// or would if sums had 32 bits.
    fn address_about(&mut self, memory: usize, length: usize) -> u32 {
        let (memory, length) = (memory as u32, length as u32);
        let any = self.random.u32();
        let inside = any % (memory + 1);
        self.random.pick(&[
            0,
            inside,
            inside,
            memory.saturating_sub(length),
            memory.saturating_sub(length),
            memory.saturating_sub(length) + 1,
            memory,
            memory + 1,
            length.wrapping_neg(),
            u32::MAX,
            any,
        ])
    }

    /// Memories about the greatest length, loaded and dumped at their end.
    fn large_memories(&mut self) {
        for length in [MEMORY_MOST - 1, MEMORY_MOST, MEMORY_MOST + 1] {
            let mut memory = vec![3; length];
            let mut end = Machine {
                purpose: Purpose::Dump,
                ..self.good_machine(V2_1)
            };
            let top = length as u32;
            end.settings.window = self.window_about((u64::from(top) - 2, 2), length);
            let fits = frames::load(0, top - 2, &[1, 2], None);
            let not = frames::load(0, top - 1, &[1, 2], None);
            let dump = frames::request_dump(top - 3, 9);
            let parameters = frames::parameters(0, &[1, 1, 65, 2, 1, 7], 9);
            for (version, event) in [
                (V2_1, Event::Frame(Hex(&fits))),
                (V3_0, Event::Frame(Hex(&not))),
                (V3_0, Event::Frame(Hex(&dump))),
                (V2_1, Event::Frame(Hex(&parameters))),
                (V3_0, Event::Start),
                (V2_1, Event::Timer),
            ] {
                end.settings.version = version;
                let case = Case {
                    kind: "memories about 16,777,216 bytes",
                    end: &end,
                    record: Default::default(),
                    event,
                    room: ROOM,
                    wanted: if length > MEMORY_MOST { 10 } else { 0 },
                };
                self.step(case, &mut memory);
            }
        }
    }
}
