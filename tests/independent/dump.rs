//! The host's dump (PROTOCOL 5, "Host end").

use crate::counts::Counts;
use crate::frame::{self, Frame};
use crate::refusal::{BAD_RECORD, BAD_SETTING, Refusal};
use crate::step::{Reply, Sent, Verdict, check_most, check_repeats, good_record};
use crate::version::Version;

/// C, the most bytes asked for at a time, is 1 to this.
pub const ASK_MOST: u32 = 1495;

const ADDRESS_END: u64 = 1 << 32;

#[derive(Clone, Copy, Debug)]
pub struct Settings {
    /// L, the bytes to dump.
    pub length: u64,
    /// A, the address of the first.
    pub address: u32,
    /// C, the most bytes asked for at a time.
    pub most: u32,
    /// R, the repeats allowed per frame.
    pub repeats: u32,
    pub version: Version,
}

/// The session's record.
#[derive(Clone, Copy, Debug, PartialEq, Eq)]
pub enum Session {
    /// For a machine's offer; so many other frames have come.
    Waiting {
        ignored: u64,
    },
    Begun(Progress),
}

#[derive(Clone, Copy, Debug, PartialEq, Eq)]
pub struct Progress {
    pub verdict: Verdict,
    /// Bytes filled.
    pub filled: u64,
    /// Replies taken.
    pub replies: u64,
    /// Repeats of the frame on its way.
    pub repeats: u32,
    /// Frames sent.
    pub sent: u64,
    /// Frames that have come.
    pub counts: Counts,
}

impl Session {
    pub const FRESH: Session = Session::Waiting { ignored: 0 };

    /// A record from its numbers; a waiting one has them all 0, but for the
    /// frames ignored.
    pub fn from_numbers(
        waiting: u8,
        verdict: u8,
        filled: u64,
        replies: u64,
        repeats: u32,
        sent: u64,
        counts: Counts,
    ) -> Result<Self, Refusal> {
        let ignored = counts.ignored;
        match waiting {
            0 => Ok(Session::Begun(Progress {
                verdict: Verdict::from_number(verdict)?,
                filled,
                replies,
                repeats,
                sent,
                counts,
            })),
            1 if (verdict, filled, replies, repeats, sent) == (0, 0, 0, 0, 0)
                && counts == Counts::while_waiting(ignored) =>
            {
                Ok(Session::Waiting { ignored })
            }
            _ => Err(BAD_RECORD),
        }
    }
}

/// A frame has come.
pub fn frame(
    settings: Settings,
    session: &mut Session,
    bytes: &[u8],
    buffer: &mut [u8],
    reply: &mut [u8],
) -> Result<Sent, Refusal> {
    let reply = check(settings, *session, buffer, reply)?;
    let frame = frame::read(settings.version, bytes)?;
    Ok(match session {
        Session::Waiting { ignored } => match frame {
            Frame::RequestDumpService { .. } => {
                let mut progress = Progress::begun(*ignored);
                let sent = progress.ask(settings, reply);
                *session = Session::Begun(progress);
                sent
            }
            _ => {
                *ignored += 1;
                None
            }
        },
        Session::Begun(progress) if progress.verdict == Verdict::Running => {
            progress.frame(settings, frame, buffer, reply)
        }
        Session::Begun(_) => None,
    })
}

/// The timer has run out.
pub fn timer(
    settings: Settings,
    session: &mut Session,
    buffer: &[u8],
    reply: &mut [u8],
) -> Result<Sent, Refusal> {
    let reply = check(settings, *session, buffer, reply)?;
    Ok(match session {
        Session::Begun(progress) if progress.verdict == Verdict::Running => {
            progress.silence(settings, reply)
        }
        _ => None,
    })
}

/// The order is: settings, buffer and record, then the reply buffer.
fn check<'r>(
    settings: Settings,
    session: Session,
    buffer: &[u8],
    reply: &'r mut [u8],
) -> Result<Reply<'r>, Refusal> {
    check_most(settings.most, ASK_MOST)?;
    if !settings.range_is_good() || buffer.len() as u64 != settings.length {
        return Err(BAD_SETTING);
    }
    match session {
        Session::Waiting { ignored } => {
            check_repeats(settings.repeats, 0)?;
            good_record(Counts::while_waiting(ignored).have_room())?;
        }
        Session::Begun(progress) => {
            check_repeats(settings.repeats, progress.repeats)?;
            good_record(progress.counts.have_room() && progress.is_good(settings))?;
        }
    }
    Reply::new(reply)
}

impl Settings {
    /// At least one byte, and none beyond the last address.
    fn range_is_good(&self) -> bool {
        let most = ADDRESS_END - u64::from(self.address);
        (1..=most).contains(&self.length)
    }
}

impl Progress {
    /// A machine has offered a dump, after so many other frames.
    fn begun(ignored: u64) -> Progress {
        Progress {
            verdict: Verdict::Running,
            filled: 0,
            replies: 0,
            repeats: 0,
            sent: 0,
            counts: Counts::at_start(ignored),
        }
    }

    fn is_good(&self, settings: Settings) -> bool {
        let finished = self.verdict == Verdict::Finished;
        self.verdict != Verdict::Unconfirmed
            && self.filled <= settings.length
            && self.replies <= self.filled
            && self.sent <= (self.replies + 1) * (u64::from(settings.repeats) + 1) + 1
            && finished == (self.filled == settings.length)
    }

    /// The address asked for.
    fn address(&self, settings: Settings) -> u32 {
        (u64::from(settings.address) + self.filled) as u32
    }

    /// The bytes asked for.
    fn count(&self, settings: Settings) -> u16 {
        let missing = settings.length - self.filled;
        missing.min(settings.most.into()) as u16
    }

    /// Whether a reply is from the address asked for, with some of the bytes.
    fn is_wanted(&self, settings: Settings, address: u32, data: &[u8]) -> bool {
        let most = usize::from(self.count(settings));
        address == self.address(settings) && (1..=most).contains(&data.len())
    }

    /// A frame has come while the dump runs.
    fn frame(&mut self, settings: Settings, frame: Frame, buffer: &mut [u8], reply: Reply) -> Sent {
        match frame {
            Frame::DumpData { address, data } if self.is_wanted(settings, address, data) => {
                self.fill(settings, data, buffer, reply)
            }
            _ => {
                self.counts.ignored += 1;
                None
            }
        }
    }

    /// Takes a reply's bytes, then asks for more or completes the dump.
    fn fill(&mut self, settings: Settings, data: &[u8], buffer: &mut [u8], reply: Reply) -> Sent {
        self.counts.advances += 1;
        buffer[self.filled as usize..][..data.len()].copy_from_slice(data);
        self.filled += data.len() as u64;
        self.replies += 1;
        self.repeats = 0;
        if self.filled == settings.length {
            self.complete(Verdict::Finished, reply)
        } else {
            self.ask(settings, reply)
        }
    }

    /// No answer came.
    fn silence(&mut self, settings: Settings, reply: Reply) -> Sent {
        if self.repeats < settings.repeats {
            self.repeats += 1;
            self.ask(settings, reply)
        } else {
            self.complete(Verdict::GivenUp, reply)
        }
    }

    /// Sends code 4 for what comes next.
    fn ask(&mut self, settings: Settings, reply: Reply) -> Sent {
        self.sent += 1;
        reply.send(&Frame::RequestDump {
            address: self.address(settings),
            count: self.count(settings),
        })
    }

    /// Sends code 1, which counts as sent too.
    fn complete(&mut self, verdict: Verdict, reply: Reply) -> Sent {
        self.verdict = verdict;
        self.sent += 1;
        reply.send(&Frame::DumpComplete)
    }
}
