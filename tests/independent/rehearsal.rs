//! The rehearsal (PROTOCOL 8, "Rehearsal"): both ends
//! of a load and two queues of 16 places, driven by a list of events.
//!
//! The form of the whole input is checked first, then the image, and nothing
//! is printed before. A transcript is put together in memory.

use std::collections::VecDeque;

use crate::frame::LONGEST;
use crate::image::{self, SEGMENT_MOST};
use crate::load::{self, Session};
use crate::machine::{self, Machine, State};
use crate::refusal::{MALFORMED, Refusal};
use crate::step::{REPEATS_MOST, Sent, Verdict};
use crate::version::Version;

/// The longest input.
pub const INPUT_MOST: usize = 8192;
/// The longest memory of a rehearsed machine; the shortest has one byte.
pub const MEMORY_MOST: u32 = 4096;
/// The frames that a queue holds.
pub const PLACES: usize = 16;

const VERSION: Version = Version::V3_0;

const MACHINE: machine::Settings = machine::Settings {
    dump_most: 1,
    device: 0,
    processor: 0,
    version: VERSION,
    window: machine::Window::NONE,
};

/// A rehearsal that was run.
#[derive(Clone)]
pub struct Rehearsal {
    pub transcript: Vec<u8>,
    /// The regions of the image, and N, its segments.
    pub regions: usize,
    pub segments: u64,
    /// Frames that found the host's queue full.
    pub dropped_from_host: u64,
    /// Frames that found the machine's queue full.
    pub dropped_from_machine: u64,
}

/// All that the program prints for its standard input.
pub fn rehearse(input: &[u8]) -> Vec<u8> {
    printed(run(input))
}

/// A transcript, or the refusal alone.
pub fn printed(answer: Result<Rehearsal, Refusal>) -> Vec<u8> {
    match answer {
        Ok(rehearsal) => rehearsal.transcript,
        Err(refusal) => format!("BAD {refusal}\n").into_bytes(),
    }
}

/// Runs an input, if it is accepted.
pub fn run(input: &[u8]) -> Result<Rehearsal, Refusal> {
    let input = Input::read(input).ok_or(MALFORMED)?;
    let image = image::check(&input.file, input.settings.segment_size)?;
    let mut stage = Stage::new(&input);
    stage.start()?;
    for &event in &input.events {
        stage.event(event)?;
    }
    Ok(Rehearsal {
        regions: image.regions().len(),
        segments: image.segments(),
        dropped_from_host: stage.from_host.dropped,
        dropped_from_machine: stage.from_machine.dropped,
        transcript: stage.end(),
    })
}

#[derive(Clone, Copy)]
enum Side {
    Host,
    Machine,
}

/// What happens, and to whose frame or timer.
#[derive(Clone, Copy)]
enum Event {
    HandOver(Side),
    /// Hands over the first frame and keeps it in front.
    Keep(Side),
    Drop(Side),
    Timer(Side),
}

impl Event {
    fn from_letter(letter: u8) -> Option<Event> {
        Some(match letter {
            b'h' => Event::HandOver(Side::Host),
            b'k' => Event::Keep(Side::Host),
            b'x' => Event::Drop(Side::Host),
            b't' => Event::HandOver(Side::Machine),
            b'u' => Event::Keep(Side::Machine),
            b'y' => Event::Drop(Side::Machine),
            b'm' => Event::Timer(Side::Host),
            b'n' => Event::Timer(Side::Machine),
            _ => return None,
        })
    }
}

/// An input of the right form. Its image is not checked yet.
struct Input {
    memory_length: usize,
    settings: load::Settings<'static>,
    file: Vec<u8>,
    events: Vec<Event>,
}

impl Input {
    fn read(input: &[u8]) -> Option<Input> {
        if input.len() > INPUT_MOST {
            return None;
        }
        let [numbers, image, events] = three(input.strip_suffix(b"\n")?, b'\n')?;
        let [memory_length, segment_size, repeats] = three(numbers, b' ')?;
        Some(Input {
            memory_length: decimal(memory_length, 1, MEMORY_MOST)? as usize,
            settings: load::Settings {
                segment_size: decimal(segment_size, 1, SEGMENT_MOST)?,
                repeats: decimal(repeats, 0, REPEATS_MOST)?,
                parameters: None,
                version: VERSION,
                restart: None,
            },
            file: hexadecimal(image)?,
            events: (events.iter())
                .map(|&letter| Event::from_letter(letter))
                .collect::<Option<_>>()?,
        })
    }
}

/// Exactly three parts of a text, perhaps empty, with a mark between.
fn three(text: &[u8], mark: u8) -> Option<[&[u8]; 3]> {
    let mut parts = text.split(|&byte| byte == mark);
    let three = [parts.next()?, parts.next()?, parts.next()?];
    match parts.next() {
        None => Some(three),
        Some(_) => None,
    }
}

/// A number in its range, without leading zeros. It may have any number of
/// digits; above `most` it is not worth reading to its end.
fn decimal(digits: &[u8], least: u32, most: u32) -> Option<u32> {
    if digits.is_empty() || (digits.len() > 1 && digits[0] == b'0') {
        return None;
    }
    let mut number = 0;
    for &digit in digits {
        if !digit.is_ascii_digit() || number > most {
            return None;
        }
        number = 10 * number + u32::from(digit - b'0');
    }
    (least..=most).contains(&number).then_some(number)
}

/// Pairs of capital hexadecimal digits.
fn hexadecimal(digits: &[u8]) -> Option<Vec<u8>> {
    let value = |digit: u8| match digit {
        b'0'..=b'9' => Some(digit - b'0'),
        b'A'..=b'F' => Some(digit - b'A' + 10),
        _ => None,
    };
    let pairs = digits.chunks_exact(2);
    if !pairs.remainder().is_empty() {
        return None;
    }
    pairs
        .map(|pair| Some(16 * value(pair[0])? + value(pair[1])?))
        .collect()
}

fn push_hexadecimal(text: &mut Vec<u8>, bytes: &[u8]) {
    const DIGITS: &[u8; 16] = b"0123456789ABCDEF";
    for &byte in bytes {
        text.push(DIGITS[usize::from(byte / 16)]);
        text.push(DIGITS[usize::from(byte % 16)]);
    }
}

/// The frames of one sender that are on their way.
#[derive(Default)]
struct Queue {
    frames: VecDeque<Vec<u8>>,
    /// Frames that found no place.
    dropped: u64,
}

impl Queue {
    fn join(&mut self, frame: &[u8]) {
        if self.frames.len() < PLACES {
            self.frames.push_back(frame.to_vec());
        } else {
            self.dropped += 1;
        }
    }
}

/// Both ends, as the events have left them.
struct Stage<'a> {
    settings: load::Settings<'static>,
    file: &'a [u8],
    session: Session,
    machine: Machine,
    memory: Vec<u8>,
    from_host: Queue,
    from_machine: Queue,
    transcript: Vec<u8>,
}

impl<'a> Stage<'a> {
    fn new(input: &'a Input) -> Self {
        Stage {
            settings: input.settings,
            file: &input.file,
            session: Session::FRESH,
            machine: Machine::fresh(State::Requesting),
            memory: vec![0; input.memory_length],
            from_host: Queue::default(),
            from_machine: Queue::default(),
            transcript: Vec::new(),
        }
    }

    /// The machine's first frame.
    fn start(&mut self) -> Result<(), Refusal> {
        let mut reply = [0; LONGEST];
        let (machine, sent) = machine::start_load(MACHINE, &self.memory, &mut reply)?;
        self.machine = machine;
        self.sent(Side::Machine, sent, &reply);
        Ok(())
    }

    fn event(&mut self, event: Event) -> Result<(), Refusal> {
        match event {
            Event::HandOver(from) => {
                if let Some(frame) = self.queue(from).pop_front() {
                    self.deliver(from, &frame)?;
                }
            }
            Event::Keep(from) => {
                if let Some(frame) = self.queue(from).front().cloned() {
                    self.deliver(from, &frame)?;
                }
            }
            Event::Drop(from) => {
                self.queue(from).pop_front();
            }
            Event::Timer(of) => self.timer(of)?,
        }
        Ok(())
    }

    fn queue(&mut self, from: Side) -> &mut VecDeque<Vec<u8>> {
        match from {
            Side::Host => &mut self.from_host.frames,
            Side::Machine => &mut self.from_machine.frames,
        }
    }

    /// One end's frame comes to the other end.
    fn deliver(&mut self, from: Side, frame: &[u8]) -> Result<(), Refusal> {
        let mut reply = [0; LONGEST];
        match from {
            Side::Host => {
                let memory = &mut self.memory;
                let sent = machine::frame(MACHINE, &mut self.machine, frame, memory, &mut reply)?;
                self.sent(Side::Machine, sent, &reply);
            }
            Side::Machine => {
                let session = &mut self.session;
                let sent = load::frame(self.settings, session, self.file, frame, &mut reply)?;
                self.sent(Side::Host, sent, &reply);
            }
        }
        Ok(())
    }

    fn timer(&mut self, of: Side) -> Result<(), Refusal> {
        let mut reply = [0; LONGEST];
        let sent = match of {
            Side::Host => load::timer(self.settings, &mut self.session, self.file, &mut reply)?,
            Side::Machine => machine::timer(MACHINE, &self.machine, &self.memory, &mut reply)?,
        };
        self.sent(of, sent, &reply);
        Ok(())
    }

    /// Prints a frame, if one was sent, and puts it into its queue.
    fn sent(&mut self, by: Side, sent: Sent, reply: &[u8]) {
        let Some(length) = sent else { return };
        let frame = &reply[..length];
        let (letter, queue) = match by {
            Side::Host => (b'H', &mut self.from_host),
            Side::Machine => (b'T', &mut self.from_machine),
        };
        self.transcript.extend([letter, b' ']);
        push_hexadecimal(&mut self.transcript, frame);
        self.transcript.push(b'\n');
        queue.join(frame);
    }

    /// The transcript with its last line.
    fn end(mut self) -> Vec<u8> {
        let (verdict, sent) = match self.session {
            Session::Waiting { .. } => (Verdict::Running, 0),
            Session::Begun(progress) => (progress.verdict, progress.sent),
        };
        let transfer = match self.machine.state {
            State::Started { transfer } => format!("{transfer:08X}"),
            _ => "-".to_string(),
        };
        let end = format!("END {} {sent} {transfer} ", verdict as u8);
        self.transcript.extend(end.as_bytes());
        push_hexadecimal(&mut self.transcript, &self.memory);
        self.transcript.push(b'\n');
        self.transcript
    }
}
