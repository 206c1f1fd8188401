//! The link between the two ends: two queues, first in first out (PROTOCOL 6,
//! "Link"). The events have the rehearsal's letters: h, k, x hand over,
//! keep, drop from the host; t, u, y from the machine; m, n host and machine
//! timer. A further one, r, is a reset of the machine.

use std::collections::VecDeque;

use super::counts::is_handed;
use super::machine::Machine;
use super::machine_windows::touches;
use super::{Case, End, Event, ROOM, room_refusal};
use crate::Compare;
use crate::make::V2_1;
use crate::random::Random;
use crate::tally::Hex;

const LETTERS: [char; 8] = ['h', 'k', 'x', 't', 'u', 'y', 'm', 'n'];

/// How often each letter comes, in the order above, how often a reply buffer is
/// too short, and how often a reset comes: one in so many, 0 for none.
#[derive(Clone, Copy)]
pub struct Mix {
    pub weights: [u64; 8],
    pub short: u64,
    pub resets: u64,
}

impl Mix {
    pub fn letter(&self, random: &mut Random) -> char {
        if self.resets > 0 && random.once_in(self.resets) {
            return 'r';
        }
        let total: u64 = self.weights.iter().sum();
        let mut place = random.below(total);
        for (letter, &weight) in LETTERS.into_iter().zip(&self.weights) {
            if place < weight {
                return letter;
            }
            place -= weight;
        }
        LETTERS[0]
    }

    pub fn room(&self, random: &mut Random) -> usize {
        if self.short > 0 && random.once_in(self.short) {
            random.pick(&[0, 3, 1499])
        } else {
            random.pick(&[ROOM, ROOM, ROOM + 1, ROOM + 50])
        }
    }
}

/// An end of the link.
#[derive(Clone, Copy, Debug, PartialEq)]
pub enum Side {
    Host,
    Machine,
}

/// A reset of the machine: the host's record when it came, and the memory that
/// it left.
pub struct Reset<R> {
    pub record: R,
    pub memory: Vec<u8>,
}

/// Both ends, as the events have left them, and the frames on their way.
pub struct Link<'a, H: End> {
    pub host: &'a H,
    pub machine: &'a Machine,
    pub record: H::Record,
    pub state: mop_proved::Machine,
    pub memory: Vec<u8>,
    /// The dump's buffer.
    pub buffer: Vec<u8>,
    from_host: VecDeque<Vec<u8>>,
    from_machine: VecDeque<Vec<u8>>,
    /// The events so far, without those refused and those on empty queues.
    pub events: String,
    /// Each frame that the link has taken, with its sender.
    pub taken: Vec<(Side, Vec<u8>)>,
    /// The frames handed over to the host that it is to count.
    pub handed: u64,
    /// The last reset, and how many there were.
    pub reset: Option<Reset<H::Record>>,
    pub resets: u32,
}

impl<'a, H: End> Link<'a, H> {
    /// Fresh ends: the machine's first frame is the only one queued.
    pub fn new(
        compare: &mut Compare,
        host: &'a H,
        machine: &'a Machine,
        memory: &[u8],
        buffer: &[u8],
    ) -> Self {
        let mut link = Link {
            host,
            machine,
            record: Default::default(),
            state: Default::default(),
            memory: memory.to_vec(),
            buffer: buffer.to_vec(),
            from_host: VecDeque::new(),
            from_machine: VecDeque::new(),
            events: String::new(),
            taken: Vec::new(),
            handed: 0,
            reset: None,
            resets: 0,
        };
        link.call(compare, Side::Machine, Event::Start, ROOM);
        link.call(compare, Side::Host, Event::Start, ROOM);
        link
    }

    pub fn event(&mut self, compare: &mut Compare, letter: char, room: usize) {
        let left = compare.left_by(letter, &self.memory);
        self.event_leaving(compare, letter, room, &left);
    }

    /// The same, where a reset leaves these bytes.
    pub fn event_leaving(&mut self, compare: &mut Compare, letter: char, room: usize, left: &[u8]) {
        let done = match letter {
            'h' | 'k' => self.deliver(compare, Side::Host, letter == 'k', room),
            't' | 'u' => self.deliver(compare, Side::Machine, letter == 'u', room),
            'x' => self.from_host.pop_front().is_some(),
            'y' => self.from_machine.pop_front().is_some(),
            'm' => self.call(compare, Side::Host, Event::Timer, room),
            'r' => self.reset(compare, left),
            _ => self.call(compare, Side::Machine, Event::Timer, room),
        };
        if done {
            self.events.push(letter);
        }
    }

    /// The machine begins anew, with these bytes outside its window and nothing
    /// on its way but its request.
    fn reset(&mut self, compare: &mut Compare, left: &[u8]) -> bool {
        let window = self.machine.settings.window;
        for (address, (byte, other)) in self.memory.iter_mut().zip(left).enumerate() {
            if !touches(window, address as u64, 1) {
                *byte = *other;
            }
        }
        if let Some(host) = H::host(&self.record) {
            compare.tally.ends.reset(host);
        }
        self.from_host.clear();
        self.from_machine.clear();
        self.state = Default::default();
        self.resets += 1;
        self.reset = Some(Reset {
            record: self.record,
            memory: self.memory.clone(),
        });
        self.call(compare, Side::Machine, Event::Start, ROOM)
    }

    /// The first part that is not the same in another run, if there is one.
    pub fn difference(&self, other: &Self) -> Option<&'static str> {
        let parts = [
            ("record", self.record == other.record),
            ("machine", self.state == other.state),
            ("memory", self.memory == other.memory),
            ("dump buffer", self.buffer == other.buffer),
            ("host's queue", self.from_host == other.from_host),
            ("machine's queue", self.from_machine == other.from_machine),
            ("frames taken", self.taken == other.taken),
            ("events that were done", self.events == other.events),
        ];
        let part = parts.into_iter().find(|(_, same)| !same);
        part.map(|(name, _)| name)
    }

    /// Whether nothing is on its way.
    pub fn is_quiet(&self) -> bool {
        self.from_host.is_empty() && self.from_machine.is_empty()
    }

    /// How many of the host's frames the link has taken.
    pub fn taken_from_host(&self) -> u64 {
        let from_host = |taken: &&(Side, Vec<u8>)| taken.0 == Side::Host;
        self.taken.iter().filter(from_host).count() as u64
    }

    /// A call on the side, which changes neither end: a frame that was taken
    /// at any time, perhaps spoilt, or a timer.
    pub fn probe(&self, compare: &mut Compare) {
        let place = compare.random.range(0, self.taken.len() - 1);
        let frame = compare.perhaps_spoilt(self.taken[place].1.clone());
        let event = match compare.random.once_in(6) {
            true => Event::Timer,
            false => Event::Frame(Hex(&frame)),
        };
        let room = compare.any_reply_room();
        if compare.random.once_in(2) {
            let case = aside(self.host, self.record, event, room);
            compare.step(case, &mut self.buffer.clone());
        } else {
            let case = aside(self.machine, self.state, event, room);
            compare.step(case, &mut self.memory.clone());
        }
    }

    /// Hands over a sender's first frame; it stays in front if it is to be
    /// kept or the call is refused. False if nothing has changed.
    fn deliver(&mut self, compare: &mut Compare, from: Side, keep: bool, room: usize) -> bool {
        let Some(frame) = self.queue(from).front().cloned() else {
            return false;
        };
        let to = match from {
            Side::Host => Side::Machine,
            Side::Machine => Side::Host,
        };
        let done = self.call(compare, to, Event::Frame(Hex(&frame)), room);
        if done && !keep {
            self.queue(from).pop_front();
        }
        done
    }

    /// One call; the frame that it returns joins its end's queue. False if it
    /// was refused, and then nothing has changed.
    fn call(&mut self, compare: &mut Compare, side: Side, event: Event, room: usize) -> bool {
        let (refusal, frame) = match side {
            Side::Host => {
                let case = in_run(self.host, self.record, event, room);
                self.handed += u64::from(is_handed(&case));
                let outcome = compare.step(case, &mut self.buffer);
                self.record = outcome.record;
                (outcome.refusal, outcome.frame)
            }
            Side::Machine => {
                let case = in_run(self.machine, self.state, event, room);
                let outcome = compare.step(case, &mut self.memory);
                self.state = outcome.record;
                (outcome.refusal, outcome.frame)
            }
        };
        if let Some(frame) = frame {
            self.taken.push((side, frame.clone()));
            self.queue(side).push_back(frame);
        }
        refusal == 0
    }

    /// The frames from a sender that are on their way.
    fn queue(&mut self, from: Side) -> &mut VecDeque<Vec<u8>> {
        match from {
            Side::Host => &mut self.from_host,
            Side::Machine => &mut self.from_machine,
        }
    }
}

impl Compare {
    /// A memory as a reset may leave it, but for the window: as it was, cleared,
    /// each bit turned over, or any. No other event leaves bytes.
    pub fn left_by(&mut self, letter: char, memory: &[u8]) -> Vec<u8> {
        if letter != 'r' {
            return Vec::new();
        }
        match self.random.below(4) {
            0 => memory.to_vec(),
            1 => vec![0; memory.len()],
            2 => memory.iter().map(|byte| !byte).collect(),
            _ => self.random.bytes(memory.len()),
        }
    }
}

fn aside<'a, E: End>(end: &'a E, record: E::Record, event: Event<'a>, room: usize) -> Case<'a, E> {
    let kind = match end.version() {
        V2_1 => "2.1: on the side of runs",
        _ => "on the side of runs",
    };
    Case::judged(kind, end, record, event, room, 0)
}

/// Whatever the ends send each other is accepted.
fn in_run<'a, E: End>(end: &'a E, record: E::Record, event: Event<'a>, room: usize) -> Case<'a, E> {
    Case {
        kind: match end.version() {
            V2_1 => "2.1: in runs over the link",
            _ => "in runs over the link",
        },
        end,
        record,
        event,
        room,
        wanted: room_refusal(room),
    }
}
