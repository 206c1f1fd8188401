//! The dump path: the host and the machine end together in memory, 16 MiB,
//! 1,495 bytes at a time, nothing lost.

use std::hint::black_box;
use std::time::{Duration, Instant};

use mop_plain::version::Version;
use mop_plain::{dump, machine};
use mop_proved::{Dump, DumpSettings, Machine, MachineSettings, Window};
use mop_proved::{mop_dump_frame, mop_dump_start, mop_machine_frame, mop_machine_start_dump};

use crate::VERSION;

const LENGTH: usize = 16 << 20;
const MOST: u32 = 1495;
const REPEATS: u32 = 3;
const ROUNDS: usize = 41;

/// Both ends of one implementation. Each call gives the length of the frame
/// to send, 0 for none.
trait Ends {
    fn new() -> Self;
    fn offer(&mut self, memory: &[u8], reply: &mut [u8]) -> usize;
    fn host(&mut self, frame: &[u8], buffer: &mut [u8], reply: &mut [u8]) -> usize;
    fn machine(&mut self, frame: &[u8], memory: &mut [u8], reply: &mut [u8]) -> usize;
    fn is_finished(&self) -> bool;
}

struct Proved {
    machine: Machine,
    host: Dump,
}

const MACHINE: MachineSettings = MachineSettings {
    reply_bytes: MOST,
    device: 0,
    processor: 0,
    version: VERSION,
    window: Window {
        start: 0,
        length: 0,
    },
};
const HOST: DumpSettings = DumpSettings {
    length: LENGTH as u64,
    address: 0,
    request_bytes: MOST,
    repeats: REPEATS,
    version: VERSION,
};

// In the calls below the pointers are good for the lengths beside them, and
// what is borrowed for writing overlaps nothing else.
impl Ends for Proved {
    fn new() -> Self {
        Proved {
            machine: Machine::default(),
            host: unsafe { mop_dump_start() },
        }
    }

    fn offer(&mut self, memory: &[u8], reply: &mut [u8]) -> usize {
        let (from, to) = (memory.as_ptr(), reply.as_mut_ptr());
        let step = unsafe { mop_machine_start_dump(MACHINE, from, memory.len(), to, reply.len()) };
        self.machine = step.record;
        step.answer.length
    }

    fn host(&mut self, frame: &[u8], buffer: &mut [u8], reply: &mut [u8]) -> usize {
        let (from, store, to) = (frame.as_ptr(), buffer.as_mut_ptr(), reply.as_mut_ptr());
        let (length, room, most) = (frame.len(), buffer.len(), reply.len());
        let step = unsafe { mop_dump_frame(HOST, self.host, from, length, store, room, to, most) };
        self.host = step.record;
        step.answer.length
    }

    fn machine(&mut self, frame: &[u8], memory: &mut [u8], reply: &mut [u8]) -> usize {
        let (from, store, to) = (frame.as_ptr(), memory.as_mut_ptr(), reply.as_mut_ptr());
        let (length, room, most) = (frame.len(), memory.len(), reply.len());
        let step = unsafe {
            mop_machine_frame(MACHINE, self.machine, from, length, store, room, to, most)
        };
        self.machine = step.record;
        step.answer.length
    }

    fn is_finished(&self) -> bool {
        self.host.verdict == 1
    }
}

struct Plain {
    machine: machine::Machine,
    host: dump::Session,
}

const PLAIN_MACHINE: machine::Settings = machine::Settings {
    dump_most: MOST,
    device: 0,
    processor: 0,
    version: Version::V3_0,
    window: machine::Window::NONE,
};
const PLAIN_HOST: dump::Settings = dump::Settings {
    length: LENGTH as u64,
    address: 0,
    most: MOST,
    repeats: REPEATS,
    version: Version::V3_0,
};

impl Ends for Plain {
    fn new() -> Self {
        Plain {
            machine: machine::Machine::fresh(machine::State::Idle),
            host: dump::Session::FRESH,
        }
    }

    fn offer(&mut self, memory: &[u8], reply: &mut [u8]) -> usize {
        let started = machine::start_dump(PLAIN_MACHINE, memory, reply);
        let (fresh, sent) = started.expect("good settings");
        self.machine = fresh;
        sent.unwrap_or(0)
    }

    fn host(&mut self, frame: &[u8], buffer: &mut [u8], reply: &mut [u8]) -> usize {
        let sent = dump::frame(PLAIN_HOST, &mut self.host, frame, buffer, reply);
        sent.expect("a good frame").unwrap_or(0)
    }

    fn machine(&mut self, frame: &[u8], memory: &mut [u8], reply: &mut [u8]) -> usize {
        let sent = machine::frame(PLAIN_MACHINE, &mut self.machine, frame, memory, reply);
        sent.expect("a good frame").unwrap_or(0)
    }

    fn is_finished(&self) -> bool {
        let finished = mop_plain::step::Verdict::Finished;
        matches!(self.host, dump::Session::Begun(progress) if progress.verdict == finished)
    }
}

/// One dump; every frame is shown to `note`.
fn dump<E: Ends>(memory: &mut [u8], buffer: &mut [u8], mut note: impl FnMut(&[u8])) {
    let (mut up, mut down) = ([0; 1500], [0; 1500]);
    let mut ends = E::new();
    let mut offered = ends.offer(memory, &mut up);
    while offered != 0 {
        note(&up[..offered]);
        let asked = ends.host(&up[..offered], buffer, &mut down);
        note(&down[..asked]);
        offered = ends.machine(&down[..asked], memory, &mut up);
    }
    assert!(ends.is_finished());
}

/// The time of one dump into a cleared buffer.
fn turn<E: Ends>(memory: &mut [u8], buffer: &mut [u8]) -> Duration {
    buffer.fill(0);
    let start = Instant::now();
    dump::<E>(black_box(memory), black_box(buffer), |_| {});
    let time = start.elapsed();
    assert!(memory == buffer, "the dump is the memory");
    time
}

/// All frames of a dump.
fn frames<E: Ends>(memory: &mut [u8], buffer: &mut [u8]) -> Vec<Vec<u8>> {
    let mut all = Vec::new();
    dump::<E>(memory, buffer, |frame| all.push(frame.to_vec()));
    all
}

/// Both in turns: nanoseconds a frame, proved and plain, of each round.
pub fn rounds() -> Vec<(f64, f64)> {
    let mut memory: Vec<u8> = (0..LENGTH)
        .map(|place| (place * 37 + place / 251) as u8)
        .collect();
    let mut buffer = vec![0; LENGTH];
    let seen = frames::<Proved>(&mut memory, &mut buffer);
    assert!(
        seen == frames::<Plain>(&mut memory, &mut buffer),
        "the same frames"
    );
    let count = seen.len() as f64;
    let mut rounds = Vec::new();
    for round in 0..ROUNDS {
        let early = (round % 2 == 0).then(|| turn::<Proved>(&mut memory, &mut buffer));
        let plain = turn::<Plain>(&mut memory, &mut buffer);
        let proved = early.unwrap_or_else(|| turn::<Proved>(&mut memory, &mut buffer));
        let nanoseconds = |time: Duration| time.as_nanos() as f64 / count;
        rounds.push((nanoseconds(proved), nanoseconds(plain)));
    }
    rounds
}
