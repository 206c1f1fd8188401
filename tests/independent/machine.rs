//! The machine end (PROTOCOL 4, "Machine end"). Its memory is a slice, address
//! 0 first.

use crate::block;
use crate::entries::Kept;
use crate::frame::{self, Frame};
use crate::refusal::{BAD_RECORD, BAD_SETTING, Refusal, SMALL_MEMORY};
use crate::step::{Reply, Sent, check_most};
use crate::version::Version;

/// D, the most bytes of a dump reply, is 1 to this.
pub const DUMP_MOST: u32 = 1495;
/// The longest memory.
pub const MEMORY_MOST: usize = 16_777_216;

const ADDRESS_END: u64 = 1 << 32;
const FORMAT: u8 = 1;
const OPERATING_SYSTEM: u8 = 2;
const STANDARD_SYSTEM: u8 = 255;
const COMPATIBILITY: u8 = 0;

#[derive(Clone, Copy, Debug)]
pub struct Settings {
    /// D, the most bytes of a dump reply.
    pub dump_most: u32,
    pub device: u8,
    pub processor: u8,
    pub version: Version,
    pub window: Window,
}

/// The ROM window: so many addresses from `start` on that no load may touch,
/// or none.
#[derive(Clone, Copy, Debug)]
pub struct Window {
    /// W, the first of them.
    pub start: u64,
    /// V, how many.
    pub length: u64,
}

impl Window {
    pub const NONE: Window = Window {
        start: 0,
        length: 0,
    };

    /// Whether all of its addresses are below the end of them all. Without
    /// any, its start does not matter.
    fn is_good(&self) -> bool {
        let room = ADDRESS_END.saturating_sub(self.start);
        self.length == 0 || self.length <= room
    }

    /// Whether so many bytes would go into the window: the greater of their
    /// starts is below the lesser of their ends. A good window's end is no sum
    /// too big.
    fn touches(&self, address: usize, length: usize) -> bool {
        let start = self.start.max(address as u64);
        let end = (address as u64 + length as u64).min(self.start + self.length);
        start < end
    }
}

#[derive(Clone, Copy, Debug, PartialEq, Eq)]
pub enum State {
    Idle,
    /// Offers a dump.
    Offering,
    /// Requests a program.
    Requesting,
    /// The next number, and the error of the last reply.
    Loading {
        expected: u8,
        error: u8,
    },
    Started {
        transfer: u32,
    },
}

/// The machine's record.
#[derive(Clone, Copy, Debug, PartialEq, Eq)]
pub struct Machine {
    pub state: State,
    /// What the code 20 that started it said.
    pub kept: Kept,
}

impl Machine {
    /// One that keeps nothing.
    pub fn fresh(state: State) -> Machine {
        Machine {
            state,
            kept: Kept::default(),
        }
    }
}

impl State {
    /// A state from its number and what it keeps; numbers that it does not
    /// keep are dropped.
    pub fn from_numbers(
        state: u8,
        expected: u8,
        error: u8,
        transfer: u32,
    ) -> Result<Self, Refusal> {
        match state {
            0 => Ok(State::Idle),
            1 => Ok(State::Offering),
            2 => Ok(State::Requesting),
            3 => Ok(State::Loading { expected, error }),
            4 => Ok(State::Started { transfer }),
            _ => Err(BAD_RECORD),
        }
    }
}

/// Starts a load: the fresh record and its first frame.
pub fn start_load(
    settings: Settings,
    memory: &[u8],
    reply: &mut [u8],
) -> Result<(Machine, Sent), Refusal> {
    start(State::Requesting, settings, memory, reply)
}

/// Starts a dump: the fresh record and its first frame.
pub fn start_dump(
    settings: Settings,
    memory: &[u8],
    reply: &mut [u8],
) -> Result<(Machine, Sent), Refusal> {
    start(State::Offering, settings, memory, reply)
}

fn start(
    state: State,
    settings: Settings,
    memory: &[u8],
    reply: &mut [u8],
) -> Result<(Machine, Sent), Refusal> {
    let fresh = Machine::fresh(state);
    let sent = timer(settings, &fresh, memory, reply)?;
    Ok((fresh, sent))
}

/// A timer asks again for a program or a dump, and changes nothing.
pub fn timer(
    settings: Settings,
    machine: &Machine,
    memory: &[u8],
    reply: &mut [u8],
) -> Result<Sent, Refusal> {
    check(settings, memory)?;
    let reply = Reply::new(reply)?;
    Ok(match machine.state {
        State::Requesting => reply.send(&Frame::RequestProgram {
            device: settings.device,
            format: FORMAT,
            program: OPERATING_SYSTEM,
            form: STANDARD_SYSTEM,
            id: &[],
            processor: settings.processor,
            info: &[],
        }),
        State::Offering => reply.send(&Frame::RequestDumpService {
            device: settings.device,
            format: FORMAT,
            memory_size: memory.len() as u32,
            compatibility: COMPATIBILITY,
            info: &[],
        }),
        _ => None,
    })
}

/// A frame has come.
pub fn frame(
    settings: Settings,
    machine: &mut Machine,
    bytes: &[u8],
    memory: &mut [u8],
    reply: &mut [u8],
) -> Result<Sent, Refusal> {
    check(settings, memory)?;
    let reply = Reply::new(reply)?;
    let frame = frame::read(settings.version, bytes)?;
    let Machine { state, kept } = machine;
    let window = settings.window;
    let store = Store { memory, window };
    Ok(match frame {
        Frame::Load {
            number,
            address,
            data,
        } => load(state, number, None, reply, || store.deposit(address, data)),
        Frame::LoadTransfer {
            number,
            address,
            data,
            transfer,
        } => load(state, number, Some(transfer), reply, || {
            store.deposit(address, data)
        }),
        Frame::Parameters {
            number,
            entries,
            transfer,
        } => load(state, number, Some(transfer), reply, || {
            store.keep(settings.version, Kept::of(entries), kept)
        }),
        Frame::RequestDump { address, count } if matches!(state, State::Idle | State::Offering) => {
            let length = settings.dump_most.min(count.into()) as usize;
            dump(address, length, store.memory, reply)
        }
        Frame::DumpComplete if *state == State::Offering => {
            *state = State::Idle;
            None
        }
        Frame::Loop { receipt, data } if *state == State::Idle => {
            reply.send(&Frame::Looped { receipt, data })
        }
        _ => None,
    })
}

/// All of 10 comes before 11, and both before the reply buffer.
fn check(settings: Settings, memory: &[u8]) -> Result<(), Refusal> {
    check_most(settings.dump_most, DUMP_MOST)?;
    if memory.len() > MEMORY_MOST || !settings.window.is_good() {
        return Err(BAD_SETTING);
    }
    if settings.version == Version::V2_1 && memory.len() < block::MEMORY_LEAST {
        return Err(SMALL_MEMORY);
    }
    Ok(())
}

/// Code 2, or code 0 or 20 with its transfer address. If its number is taken,
/// `put` puts what it brings in its place, and says whether it fits.
fn load(
    state: &mut State,
    number: u8,
    transfer: Option<u32>,
    reply: Reply,
    put: impl FnOnce() -> bool,
) -> Sent {
    match judge(*state, number) {
        Number::Taken => {
            let fits = put();
            let expected = number.wrapping_add(1);
            let error = if fits { 0 } else { 1 };
            *state = match transfer {
                Some(transfer) if fits => State::Started { transfer },
                _ => State::Loading { expected, error },
            };
            acknowledge(expected, error, reply)
        }
        Number::Repeated { expected, error } => acknowledge(expected, error, reply),
        Number::Ignored => None,
    }
}

/// What the number of a code 0, 2 or 20 means to a state.
enum Number {
    Taken,
    /// The one before the expected: the last reply goes out again.
    Repeated {
        expected: u8,
        error: u8,
    },
    Ignored,
}

/// Number 0 is always taken where loads are, and never a repeat.
fn judge(state: State, number: u8) -> Number {
    match state {
        State::Idle | State::Requesting | State::Loading { .. } if number == 0 => Number::Taken,
        State::Loading { expected, .. } if number == expected => Number::Taken,
        State::Loading { expected, error } if number == expected.wrapping_sub(1) => {
            Number::Repeated { expected, error }
        }
        _ => Number::Ignored,
    }
}

/// Where loads go.
struct Store<'a> {
    memory: &'a mut [u8],
    window: Window,
}

impl<'a> Store<'a> {
    /// The place of so many bytes in memory, if all of them fit.
    fn place(self, address: usize, length: usize) -> Option<&'a mut [u8]> {
        if self.window.touches(address, length) {
            return None;
        }
        self.memory.get_mut(address..)?.get_mut(..length)
    }

    /// Puts data into memory if all of it fits, and says whether it did.
    fn deposit(self, address: u32, data: &[u8]) -> bool {
        let place = self.place(address as usize, data.len());
        place.map(|place| place.copy_from_slice(data)).is_some()
    }

    /// Keeps what a code 20 says if it fits, and says whether it did. Only
    /// under version 2.1 it has a place in memory too.
    fn keep(self, version: Version, said: Kept, kept: &mut Kept) -> bool {
        if version == Version::V2_1 {
            let start = block::start(self.memory.len());
            let Some(place) = self.place(start, block::LENGTH) else {
                return false;
            };
            block::lay(&said, place);
        }
        *kept = said;
        true
    }
}

fn acknowledge(number: u8, error: u8, reply: Reply) -> Sent {
    reply.send(&Frame::RequestLoad { number, error })
}

/// Code 14; bytes beyond memory are 0.
fn dump(address: u32, length: usize, memory: &[u8], reply: Reply) -> Sent {
    let mut bytes = [0; DUMP_MOST as usize];
    let there = memory.get(address as usize..).unwrap_or(&[]);
    let count = length.min(there.len());
    bytes[..count].copy_from_slice(&there[..count]);
    reply.send(&Frame::DumpData {
        address,
        data: &bytes[..length],
    })
}
