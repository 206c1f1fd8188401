//! The host's loop test (PROTOCOL 5, "Host end").

use crate::frame::{self, Frame};
use crate::refusal::{BAD_RECORD, BAD_SETTING, Refusal};
use crate::step::{Reply, Sent, check_repeats, good_record};
use crate::version::Version;

/// No loop data is longer.
pub const DATA_MOST: usize = 1497;

/// What stays the same over a test.
#[derive(Clone, Copy, Debug)]
pub struct Settings<'a> {
    /// R, the repeats allowed.
    pub repeats: u32,
    pub receipt: u16,
    pub data: &'a [u8],
    pub version: Version,
}

/// How a test stands, with its number in the record.
#[derive(Clone, Copy, Debug, PartialEq, Eq)]
pub enum Verdict {
    Open = 0,
    /// The data came back as code 26.
    Looped = 1,
    /// It came back as code 24.
    Plug = 2,
    GivenUp = 3,
}

/// The session's record.
#[derive(Clone, Copy, Debug, PartialEq, Eq)]
pub struct Session {
    pub verdict: Verdict,
    pub repeats: u32,
    /// Frames sent.
    pub sent: u64,
}

impl Session {
    pub fn from_numbers(verdict: u8, repeats: u32, sent: u64) -> Result<Self, Refusal> {
        let verdict = match verdict {
            0 => Verdict::Open,
            1 => Verdict::Looped,
            2 => Verdict::Plug,
            3 => Verdict::GivenUp,
            _ => return Err(BAD_RECORD),
        };
        Ok(Session {
            verdict,
            repeats,
            sent,
        })
    }
}

/// The record and the first frame.
pub fn start(settings: Settings, reply: &mut [u8]) -> Result<(Session, Sent), Refusal> {
    let mut session = Session {
        verdict: Verdict::Open,
        repeats: 0,
        sent: 0,
    };
    let reply = check(settings, session, reply)?;
    let sent = session.send(settings, reply);
    Ok((session, sent))
}

/// A frame has come. None is sent.
pub fn frame(
    settings: Settings,
    session: &mut Session,
    bytes: &[u8],
    reply: &mut [u8],
) -> Result<Sent, Refusal> {
    check(settings, *session, reply)?;
    let frame = frame::read(settings.version, bytes)?;
    if session.verdict == Verdict::Open {
        session.verdict = settings.verdict_on(frame);
    }
    Ok(None)
}

/// The timer has run out.
pub fn timer(settings: Settings, session: &mut Session, reply: &mut [u8]) -> Result<Sent, Refusal> {
    let reply = check(settings, *session, reply)?;
    if session.verdict != Verdict::Open {
        return Ok(None);
    }
    if session.repeats < settings.repeats {
        session.repeats += 1;
        return Ok(session.send(settings, reply));
    }
    session.verdict = Verdict::GivenUp;
    Ok(None)
}

/// The order is: settings and record, then the reply buffer.
fn check<'r>(
    settings: Settings,
    session: Session,
    reply: &'r mut [u8],
) -> Result<Reply<'r>, Refusal> {
    if settings.data.len() > DATA_MOST {
        return Err(BAD_SETTING);
    }
    check_repeats(settings.repeats, session.repeats)?;
    good_record(session.sent <= u64::from(settings.repeats) + 1)?;
    Reply::new(reply)
}

impl Settings<'_> {
    /// What a frame makes of an open test.
    fn verdict_on(&self, frame: Frame) -> Verdict {
        let is_ours = |receipt, data| receipt == self.receipt && data == self.data;
        match frame {
            Frame::Looped { receipt, data } if is_ours(receipt, data) => Verdict::Looped,
            Frame::Loop { receipt, data } if is_ours(receipt, data) => Verdict::Plug,
            _ => Verdict::Open,
        }
    }
}

impl Session {
    fn send(&mut self, settings: Settings, reply: Reply) -> Sent {
        self.sent += 1;
        let (receipt, data) = (settings.receipt, settings.data);
        reply.send(&Frame::Loop { receipt, data })
    }
}
