//! What the steps of both ends share (PROTOCOL 4, "Machine end", "Host end" and
//! "Refused"). A step is a start, a frame that has come, or a timer that has
//! run out. It is refused, and then changes nothing, or it changes the record
//! and perhaps sends a frame.

use crate::frame::{Frame, LONGEST};
use crate::refusal::{BAD_RECORD, BAD_SETTING, Refusal, SMALL_BUFFER};

/// R, the repeats allowed per frame, is 0 to this.
pub const REPEATS_MOST: u32 = 255;

/// The length of the frame that stands in the reply buffer to be sent, if
/// there is one.
pub type Sent = Option<usize>;

/// How a load or a dump stands, with its number in the record. A dump has no
/// `Unconfirmed`, and never becomes `Rejected`.
#[derive(Clone, Copy, Debug, PartialEq, Eq)]
pub enum Verdict {
    Running = 0,
    Finished = 1,
    Rejected = 2,
    GivenUp = 3,
    Unconfirmed = 4,
}

impl Verdict {
    pub(crate) fn from_number(number: u8) -> Result<Self, Refusal> {
        match number {
            0 => Ok(Verdict::Running),
            1 => Ok(Verdict::Finished),
            2 => Ok(Verdict::Rejected),
            3 => Ok(Verdict::GivenUp),
            4 => Ok(Verdict::Unconfirmed),
            _ => Err(BAD_RECORD),
        }
    }
}

/// A reply buffer that can hold any frame.
pub(crate) struct Reply<'a> {
    buffer: &'a mut [u8],
}

impl<'a> Reply<'a> {
    pub fn new(buffer: &'a mut [u8]) -> Result<Self, Refusal> {
        if buffer.len() < LONGEST {
            return Err(SMALL_BUFFER);
        }
        Ok(Reply { buffer })
    }

    /// Writes one of an end's own frames, which are all good.
    pub fn send(self, frame: &Frame) -> Sent {
        let written = frame.write_good(self.buffer);
        Some(written.expect("a good frame of at most 1,500 bytes"))
    }
}

/// Whether a number lies in the range from 1 to `most`.
pub(crate) fn check_most(number: u32, most: u32) -> Result<(), Refusal> {
    if (1..=most).contains(&number) {
        Ok(())
    } else {
        Err(BAD_SETTING)
    }
}

/// R, and a record's repeats, which it bounds.
pub(crate) fn check_repeats(allowed: u32, used: u32) -> Result<(), Refusal> {
    if allowed > REPEATS_MOST {
        return Err(BAD_SETTING);
    }
    good_record(used <= allowed)
}

pub(crate) fn good_record(good: bool) -> Result<(), Refusal> {
    if good { Ok(()) } else { Err(BAD_RECORD) }
}
