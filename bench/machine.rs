//! A machine's step on a load, which is read, compared with memory and with the
//! ROM window, laid and answered, or rejected; and on a code 20, which is kept
//! and under version 2.1 laid too.

use std::hint::black_box;

use mop_plain::machine::{self, State};
use mop_plain::version::Version;
use mop_proved::{Machine, MachineSettings, Window, mop_machine_frame};

use crate::{VERSION, compare};

const MEMORY: usize = 4096;
const ADDRESS: u32 = 1000;
const DATA: usize = 512;
const REPLY_BYTES: u32 = 1495;
const REQUESTING: u8 = 2;

/// A memory load, number 0, which a machine always takes.
fn load() -> Vec<u8> {
    let mut frame = vec![2, 0];
    frame.extend(ADDRESS.to_le_bytes());
    frame.extend((0..DATA).map(|i| i as u8));
    frame
}

/// The same in both shapes.
#[derive(Clone, Copy)]
struct Settings {
    proved: MachineSettings,
    plain: machine::Settings,
}

impl Settings {
    fn new(version: u8, start: u64, length: u64) -> Settings {
        Settings {
            proved: MachineSettings {
                reply_bytes: REPLY_BYTES,
                device: 0,
                processor: 0,
                version,
                window: Window { start, length },
            },
            plain: machine::Settings {
                dump_most: REPLY_BYTES,
                device: 0,
                processor: 0,
                version: Version::from_number(version).expect("a version"),
                window: machine::Window { start, length },
            },
        }
    }
}

fn proved(settings: Settings, frame: &[u8], memory: &mut [u8], reply: &mut [u8]) -> usize {
    let machine = Machine {
        state: REQUESTING,
        ..Machine::default()
    };
    let (from, store, to) = (frame.as_ptr(), memory.as_mut_ptr(), reply.as_mut_ptr());
    let (length, room, most) = (frame.len(), memory.len(), reply.len());
    let settings = settings.proved;
    // The pointers are good for these lengths, and what is written overlaps nothing.
    let step = unsafe { mop_machine_frame(settings, machine, from, length, store, room, to, most) };
    black_box(step).answer.length
}

fn plain(settings: Settings, frame: &[u8], memory: &mut [u8], reply: &mut [u8]) -> usize {
    let mut machine = machine::Machine::fresh(State::Requesting);
    let sent = machine::frame(settings.plain, &mut machine, frame, memory, reply);
    black_box(machine);
    sent.expect("a good frame").unwrap_or(0)
}

/// On a load, with a window of so many bytes from `start` on.
pub fn step(name: &str, start: u64, length: u64) {
    step_on(name, Settings::new(VERSION, start, length), load());
}

/// On a code 20 under a version, without a window.
pub fn parameters(name: &str, version: u8, frame: Vec<u8>) {
    step_on(name, Settings::new(version, 0, 0), frame);
}

fn step_on(name: &str, settings: Settings, frame: Vec<u8>) {
    let (mut memory, mut reply) = ([vec![0; MEMORY], vec![0; MEMORY]], [[0; 1500]; 2]);
    let ([ours, theirs], [one, other]) = (&mut memory, &mut reply);
    compare(
        name,
        &[frame],
        |frame| assert_eq!(proved(settings, black_box(frame), ours, one), 3),
        |frame| assert_eq!(plain(settings, black_box(frame), theirs, other), 3),
    );
    assert_eq!(memory[0], memory[1], "the same memory");
    assert_eq!(reply[0], reply[1], "the same answer");
}
