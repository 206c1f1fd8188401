//! The host's load (PROTOCOL 5, "Host end").

use crate::counts::Counts;
use crate::entries;
use crate::frame::{self, Frame};
use crate::image::{self, Image, SEGMENT_MOST};
use crate::refusal::{BAD_RECORD, BAD_SETTING, OUTSIDE_LIST, Refusal, TOO_LONG, TOO_MANY};
use crate::step::{Reply, Sent, Verdict, check_most, check_repeats, good_record};
use crate::version::Version;

/// No parameter string is longer: code 20 has 7 bytes besides.
pub const STRING_MOST: usize = 1493;
/// A load begins again no more often than this.
pub const RESTARTS_MOST: u32 = 65_535;
/// No load that may begin again has more frames.
pub const RESTARTING_MOST: u64 = 256;

const OPERATING_SYSTEM: u8 = 2;

/// What stays the same over a load, but for the image.
#[derive(Clone, Copy, Debug)]
pub struct Settings<'a> {
    /// S, the bytes of a segment.
    pub segment_size: u32,
    /// R, the repeats allowed per frame.
    pub repeats: u32,
    /// The parameter string that the load ends with, perhaps an empty one.
    pub parameters: Option<&'a [u8]>,
    pub version: Version,
    /// Set if a load begins again where the machine asks again half-way: the
    /// most frames of such a load.
    pub restart: Option<u64>,
}

/// The restart setting of this mark.
pub fn restart(mark: u8) -> Result<Option<u64>, Refusal> {
    match mark {
        0 => Ok(None),
        1 => Ok(Some(RESTARTING_MOST)),
        _ => Err(BAD_SETTING),
    }
}

/// The string, if its mark says that one is given; otherwise it is not looked
/// at.
pub fn given(mark: u8, string: &[u8]) -> Result<Option<&[u8]>, Refusal> {
    match mark {
        0 => Ok(None),
        1 => Ok(Some(string)),
        _ => Err(BAD_SETTING),
    }
}

/// The session's record.
#[derive(Clone, Copy, Debug, PartialEq, Eq)]
pub enum Session {
    /// For a machine's request; so many other frames have come.
    Waiting {
        ignored: u64,
    },
    Begun(Progress),
}

#[derive(Clone, Copy, Debug, PartialEq, Eq)]
pub struct Progress {
    pub verdict: Verdict,
    /// c, the frames answered.
    pub position: u64,
    /// Repeats of the frame on its way.
    pub repeats: u32,
    /// How often the load began again.
    pub restarts: u32,
    /// Frames sent.
    pub sent: u64,
    /// Frames that have come.
    pub counts: Counts,
}

impl Session {
    pub const FRESH: Session = Session::Waiting { ignored: 0 };

    /// A record from its numbers; a waiting one has them all 0, but for the
    /// frames ignored.
    pub fn from_numbers(
        waiting: u8,
        verdict: u8,
        position: u64,
        repeats: u32,
        restarts: u32,
        sent: u64,
        counts: Counts,
    ) -> Result<Self, Refusal> {
        let ignored = counts.ignored;
        match waiting {
            0 => Ok(Session::Begun(Progress {
                verdict: Verdict::from_number(verdict)?,
                position,
                repeats,
                restarts,
                sent,
                counts,
            })),
            1 if (verdict, position, repeats, restarts, sent) == (0, 0, 0, 0, 0)
                && counts == Counts::while_waiting(ignored) =>
            {
                Ok(Session::Waiting { ignored })
            }
            _ => Err(BAD_RECORD),
        }
    }
}

/// A frame has come.
pub fn frame(
    settings: Settings,
    session: &mut Session,
    file: &[u8],
    bytes: &[u8],
    reply: &mut [u8],
) -> Result<Sent, Refusal> {
    let (frames, reply) = check(settings, *session, file, reply)?;
    let frame = frame::read(settings.version, bytes)?;
    Ok(match session {
        Session::Waiting { ignored } => match frame {
            Frame::RequestProgram {
                program: OPERATING_SYSTEM,
                ..
            } => {
                let mut progress = Progress::begun(*ignored);
                let sent = progress.send(&frames, reply);
                *session = Session::Begun(progress);
                sent
            }
            _ => {
                *ignored += 1;
                None
            }
        },
        Session::Begun(progress) if progress.verdict == Verdict::Running => {
            progress.frame(frame, settings.restart.is_some(), &frames, reply)
        }
        Session::Begun(_) => None,
    })
}

/// The timer has run out.
pub fn timer(
    settings: Settings,
    session: &mut Session,
    file: &[u8],
    reply: &mut [u8],
) -> Result<Sent, Refusal> {
    let (frames, reply) = check(settings, *session, file, reply)?;
    Ok(match session {
        Session::Begun(progress) if progress.verdict == Verdict::Running => {
            progress.silence(settings.repeats, &frames, reply)
        }
        _ => None,
    })
}

/// The order is: settings and record, reply buffer, image, how many frames may
/// begin again, what of the record needs n, then the string.
fn check<'l, 'r>(
    settings: Settings<'l>,
    session: Session,
    file: &'l [u8],
    reply: &'r mut [u8],
) -> Result<(Frames<'l>, Reply<'r>), Refusal> {
    let (repeats, restarts, counts) = match session {
        Session::Waiting { ignored } => (0, 0, Counts::while_waiting(ignored)),
        Session::Begun(Progress {
            repeats,
            restarts,
            counts,
            ..
        }) => (repeats, restarts, counts),
    };
    check_most(settings.segment_size, SEGMENT_MOST)?;
    check_repeats(settings.repeats, repeats)?;
    good_record(counts.have_room())?;
    good_record(restarts <= settings.restarts_most())?;
    let reply = Reply::new(reply)?;
    let image = image::check(file, settings.segment_size)?;
    let frames = Frames::new(image, settings.parameters);
    if settings.restart.is_some_and(|most| frames.count > most) {
        return Err(TOO_MANY);
    }
    if let Session::Begun(progress) = session {
        good_record(progress.is_good(settings.repeats, frames.count))?;
    }
    if let Some(string) = settings.parameters {
        check_string(settings.version, string)?;
    }
    Ok((frames, reply))
}

/// Entries that break a rule come before a string that is too long.
fn check_string(version: Version, string: &[u8]) -> Result<(), Refusal> {
    if !entries::are_good(version, string) {
        return Err(OUTSIDE_LIST);
    }
    if string.len() > STRING_MOST {
        return Err(TOO_LONG);
    }
    Ok(())
}

impl Settings<'_> {
    fn restarts_most(&self) -> u32 {
        self.restart.map_or(0, |_| RESTARTS_MOST)
    }
}

impl Progress {
    /// A machine has asked for a program, after so many other frames.
    fn begun(ignored: u64) -> Progress {
        Progress {
            verdict: Verdict::Running,
            position: 0,
            repeats: 0,
            restarts: 0,
            sent: 0,
            counts: Counts::at_start(ignored),
        }
    }

    /// What of a record needs n, the number of frames.
    fn is_good(&self, repeats: u32, frames: u64) -> bool {
        let finished = self.verdict == Verdict::Finished;
        let loads = u64::from(self.restarts) + 1;
        self.position <= frames
            && self.sent <= loads * frames * (u64::from(repeats) + 1)
            && finished == (self.position == frames)
    }

    /// The number that answers frame c.
    fn wanted_number(&self) -> u8 {
        ((self.position + 1) % 256) as u8
    }

    /// A frame has come while the load runs, which may begin again or not.
    fn frame(&mut self, frame: Frame, again: bool, frames: &Frames, reply: Reply) -> Sent {
        match frame {
            Frame::RequestLoad { number, error } if number == self.wanted_number() => {
                self.answered(error, frames, reply)
            }
            Frame::RequestProgram {
                program: OPERATING_SYSTEM,
                ..
            } if again && self.position > 0 && self.restarts < RESTARTS_MOST => {
                self.begin_again(frames, reply)
            }
            _ => {
                self.counts.ignored += 1;
                None
            }
        }
    }

    /// Frame c was answered.
    fn answered(&mut self, error: u8, frames: &Frames, reply: Reply) -> Sent {
        if error != 0 {
            self.counts.rejections += 1;
            self.verdict = Verdict::Rejected;
            return None;
        }
        self.counts.advances += 1;
        self.position += 1;
        self.repeats = 0;
        if self.position == frames.count {
            self.verdict = Verdict::Finished;
            return None;
        }
        self.send(frames, reply)
    }

    /// The machine was reset, and has asked for a program again.
    fn begin_again(&mut self, frames: &Frames, reply: Reply) -> Sent {
        self.counts.starts += 1;
        self.restarts += 1;
        self.position = 0;
        self.repeats = 0;
        self.send(frames, reply)
    }

    /// No answer came. Silence after the last frame is not a failure: the
    /// machine may have started.
    fn silence(&mut self, repeats: u32, frames: &Frames, reply: Reply) -> Sent {
        if self.repeats < repeats {
            self.repeats += 1;
            return self.send(frames, reply);
        }
        self.verdict = if self.position + 1 < frames.count {
            Verdict::GivenUp
        } else {
            Verdict::Unconfirmed
        };
        None
    }

    /// Sends frame c.
    fn send(&mut self, frames: &Frames, reply: Reply) -> Sent {
        self.sent += 1;
        reply.send(&frames.frame(self.position))
    }
}

/// The frames of a load.
struct Frames<'a> {
    image: Image<'a>,
    parameters: Option<&'a [u8]>,
    /// n, a frame for each segment and one for the parameters.
    count: u64,
}

impl<'a> Frames<'a> {
    fn new(image: Image<'a>, parameters: Option<&'a [u8]>) -> Self {
        Frames {
            image,
            parameters,
            count: image.segments() + u64::from(parameters.is_some()),
        }
    }

    /// Frame number `index`, counted from 0. The last one has the transfer
    /// address: code 20 with the parameters, or else the last segment as code
    /// 0. All others are code 2.
    fn frame(&self, index: u64) -> Frame<'a> {
        let number = (index % 256) as u8;
        let transfer = self.image.transfer();
        match (self.image.segment(index), self.parameters) {
            (Some(segment), None) if segment.last => Frame::LoadTransfer {
                number,
                address: segment.address,
                data: segment.data,
                transfer,
            },
            (Some(segment), _) => Frame::Load {
                number,
                address: segment.address,
                data: segment.data,
            },
            (None, entries) => Frame::Parameters {
                number,
                entries: entries.expect("an index below n"),
                transfer,
            },
        }
    }
}
