//! Why a load that may begin again has at most 256 frames. With 257, were they
//! not refused, the claim would be false: shown with the plain implementation,
//! whose limit is a number in its settings.

use super::ROOM;
use crate::Compare;
use crate::images::{Region, build};
use mop_plain::load::{self, Session};
use mop_plain::machine::{self, Machine, State, Window};
use mop_plain::refusal::Refusal;
use mop_plain::step::Sent;
use mop_plain::version::Version;

const KIND: &str = "of 257 frames, the plain one alone";
const FRAMES: u32 = 257;
/// What the reset leaves in each byte of memory.
const LEFT: u8 = 0xEE;

impl Compare {
    /// Each frame but the last is answered, the machine is reset, and the host,
    /// which has not heard of it, repeats the last frame. It has number 0 again:
    /// the machine is started with one of its segments.
    pub fn one_frame_too_many(&mut self) {
        self.tally.kind("loads with resets", KIND);
        let memory = [vec![LEFT; FRAMES as usize - 1], vec![1]].concat();
        let wanted = Ok((State::Started { transfer: 0 }, memory));
        let seen = reset_at_the_last_frame();
        if seen != wanted {
            self.report(format_args!("a load {KIND}"), FRAMES, seen, wanted);
        }
    }
}

/// Both ends, and the last frame of each.
struct Ends<'a> {
    host: load::Settings<'a>,
    file: &'a [u8],
    session: Session,
    settings: machine::Settings,
    machine: Machine,
    memory: Vec<u8>,
    to_host: Vec<u8>,
    to_machine: Vec<u8>,
}

impl Ends<'_> {
    fn host_frame(&mut self) -> Result<(), Refusal> {
        let mut reply = [0; ROOM];
        let sent = load::frame(
            self.host,
            &mut self.session,
            self.file,
            &self.to_host,
            &mut reply,
        )?;
        self.to_machine = frame(&reply, sent);
        Ok(())
    }

    fn host_timer(&mut self) -> Result<(), Refusal> {
        let mut reply = [0; ROOM];
        let sent = load::timer(self.host, &mut self.session, self.file, &mut reply)?;
        self.to_machine = frame(&reply, sent);
        Ok(())
    }

    fn machine_frame(&mut self) -> Result<(), Refusal> {
        let mut reply = [0; ROOM];
        let sent = machine::frame(
            self.settings,
            &mut self.machine,
            &self.to_machine,
            &mut self.memory,
            &mut reply,
        )?;
        self.to_host = frame(&reply, sent);
        Ok(())
    }

    fn machine_starts(&mut self) -> Result<(), Refusal> {
        let mut reply = [0; ROOM];
        let (machine, sent) = machine::start_load(self.settings, &self.memory, &mut reply)?;
        self.machine = machine;
        self.to_host = frame(&reply, sent);
        Ok(())
    }
}

fn frame(reply: &[u8], sent: Sent) -> Vec<u8> {
    reply[..sent.unwrap_or(0)].to_vec()
}

fn reset_at_the_last_frame() -> Result<(State, Vec<u8>), Refusal> {
    let region = Region {
        address: 0,
        offset: 0,
        length: FRAMES,
    };
    let file = build(&[1; FRAMES as usize], &[region], 0);
    let mut ends = fresh(&file, Version::from_number(30)?);
    ends.machine_starts()?;
    for _ in 1..FRAMES {
        ends.host_frame()?;
        ends.machine_frame()?;
    }
    ends.host_frame()?;
    ends.memory.fill(LEFT);
    ends.machine_starts()?;
    ends.host_timer()?;
    ends.machine_frame()?;
    Ok((ends.machine.state, ends.memory))
}

fn fresh(file: &[u8], version: Version) -> Ends<'_> {
    Ends {
        host: load::Settings {
            segment_size: 1,
            repeats: 1,
            parameters: None,
            version,
            restart: Some(u64::from(FRAMES)),
        },
        file,
        session: Session::Waiting { ignored: 0 },
        settings: machine::Settings {
            dump_most: 1,
            device: 0,
            processor: 0,
            version,
            window: Window::NONE,
        },
        machine: Machine::fresh(State::Idle),
        memory: vec![0; FRAMES as usize],
        to_host: Vec::new(),
        to_machine: Vec::new(),
    }
}
