//! Whole runs of both ends over a link, and what the protocol claims of each.

use super::blocks::{self, Block, MEMORY_LEAST, small_memory};
use super::counts;
use super::dump::{self, Dump};
use super::link::{Link, Mix, Reset, Side};
use super::load::{EXAMPLE_SETTINGS, Load, example, sent_most};
use super::machine::{Machine, Purpose, STARTED};
use super::machine_windows::touches;
use super::strings::kept;
use super::{End, ROOM};
use crate::Compare;
use crate::images::{Region, build};
use crate::make::{V2_1, V3_0, VERSIONS};
use crate::tally::Hex;
use mop_proved::{DumpSettings, LoadSettings, MachineSettings, Parameters, Window};

/// Events after a verdict, to see that it stays.
const AFTER_VERDICT: usize = 20;
/// The claim is checked after one event in so many, and at the end.
const CLAIM_EVERY: u64 = 16;
/// A call on the side is made after one event in so many.
const PROBE_EVERY: u64 = 4;

pub const CLEAN: Mix = Mix {
    weights: [1, 0, 0, 1, 0, 0, 0, 0],
    short: 0,
    resets: 0,
};
const DOUBLED: Mix = Mix {
    weights: [6, 4, 0, 6, 4, 0, 0, 0],
    short: 40,
    resets: 0,
};
pub const LOSSY: Mix = Mix {
    weights: [12, 3, 2, 12, 3, 2, 3, 1],
    short: 20,
    resets: 0,
};
const SILENT: Mix = Mix {
    weights: [4, 0, 6, 4, 0, 6, 6, 3],
    short: 20,
    resets: 0,
};

/// An image in parts, and the machine that it goes to.
#[derive(Debug)]
pub struct Job {
    file: Vec<u8>,
    /// Address and bytes of each segment.
    segments: Vec<(usize, Vec<u8>)>,
    transfer: u32,
    settings: LoadSettings,
    pub memory: Vec<u8>,
    /// The machine's ROM window.
    window: Window,
    /// How many frames come before the first that does not fit.
    fitting: usize,
    /// The entries of the parameter string, if there is one.
    entries: Option<Vec<Vec<u8>>>,
}

impl Job {
    pub fn new(body: &[u8], regions: &[Region], settings: LoadSettings, memory: Vec<u8>) -> Job {
        const TRANSFER: u32 = 0x0102_0304;
        let mut segments = Vec::new();
        for region in regions {
            let bytes = &body[region.offset as usize..][..region.length as usize];
            let mut address = region.address as usize;
            for part in bytes.chunks(settings.segment_size as usize) {
                segments.push((address, part.to_vec()));
                address += part.len();
            }
        }
        Job {
            file: build(body, regions, TRANSFER),
            segments,
            transfer: TRANSFER,
            settings,
            memory,
            window: Window::default(),
            fitting: 0,
            entries: None,
        }
        .judged()
    }

    /// The same with a ROM window.
    pub fn with_window(self, window: Window) -> Job {
        Job { window, ..self }.judged()
    }

    /// The same with its frames judged.
    fn judged(self) -> Job {
        let fits = |(address, bytes): &&(usize, Vec<u8>)| {
            let inside = address + bytes.len() <= self.memory.len();
            inside && !touches(self.window, *address as u64, bytes.len())
        };
        let segments = self.segments.iter().take_while(fits).count();
        let all = segments == self.segments.len();
        let last = all && self.block().is_some_and(|block| block.fits(self.window));
        Job {
            fitting: segments + usize::from(last),
            ..self
        }
    }

    /// What the code 20 lays, if there is one.
    fn block(&self) -> Option<Block> {
        let entries = self.entries.as_ref()?;
        Some(Block::new(
            self.settings.version,
            entries,
            self.memory.len(),
        ))
    }

    /// The same with a parameter string at its end.
    pub fn ending_with(self, entries: Vec<Vec<u8>>) -> Job {
        Job {
            settings: LoadSettings {
                with_parameters: 1,
                ..self.settings
            },
            entries: Some(entries),
            ..self
        }
        .judged()
    }

    /// The same with the restart setting.
    pub fn restarting(self) -> Job {
        Job {
            settings: LoadSettings {
                restart: 1,
                ..self.settings
            },
            ..self
        }
    }

    /// The parameter string, empty if there is none.
    pub fn string(&self) -> Vec<u8> {
        self.entries.as_deref().unwrap_or_default().concat()
    }

    /// The host that loads it, with its string.
    pub fn host<'a>(&'a self, string: &'a [u8]) -> Load<'a> {
        Load {
            settings: self.settings,
            file: Hex(&self.file),
            parameters: Hex(string),
        }
    }

    /// Address and length of the block, or of nothing.
    pub fn block_place(&self) -> (u64, u64) {
        blocks::place(self.settings.version, self.memory.len())
    }

    /// n, the number of frames.
    pub fn frames(&self) -> usize {
        self.segments.len() + usize::from(self.entries.is_some())
    }

    /// A segment's address and length.
    pub fn place(&self, index: usize) -> (u64, u64) {
        let (address, bytes) = &self.segments[index];
        (*address as u64, bytes.len() as u64)
    }

    /// Its version, and whether it has a string and a window.
    pub fn sort(&self) -> &'static str {
        let with_window = self.window.length > 0;
        match (self.settings.version, self.entries.is_some(), with_window) {
            (V2_1, false, false) => "2.1: without a string, without a window",
            (V2_1, false, true) => "2.1: without a string, with a window",
            (V2_1, true, false) => "2.1: with a string, without a window",
            (V2_1, true, true) => "2.1: with a string, with a window",
            (_, false, _) => "without a string",
            (_, true, _) => "with a string",
        }
    }

    /// The verdict and position if nothing is lost.
    pub fn outcome(&self) -> (u8, usize) {
        match self.fitting < self.frames() {
            true => (2, self.fitting),
            false => (1, self.frames()),
        }
    }

    /// PROTOCOL 6's claim of a load, after any list of events.
    pub fn claim(&self, link: &Link<Load>) -> Result<(), String> {
        let record = link.record;
        let most = sent_most(self.settings, record.restarts, self.frames() as u64);
        let taken = link.taken_from_host();
        if record.sent != taken || taken > most {
            return Err(format!("{taken} sent, at most {most}"));
        }
        counts::claim::<Load>(&record, link.handed)?;
        if self.in_window(&link.memory) != self.in_window(&self.memory) {
            return Err("the window's bytes are the old ones".to_string());
        }
        match &link.reset {
            Some(reset) if !has_heard(&record, reset) => unheard(link, reset),
            _ => self.report(link),
        }
    }

    /// What the record says of a machine of whose last reset, if there was one,
    /// the host has heard.
    fn report(&self, link: &Link<Load>) -> Result<(), String> {
        let record = link.record;
        let frames = self.frames();
        let position = record.position as usize;
        let holds = match (record.waiting, record.verdict) {
            (1, _) => self.first_are_in(0, link),
            (_, 1) => self.first_are_in(frames, link),
            (_, 2) => self.first_are_in(position, link),
            _ => self.first_are_in(position, link) || self.first_are_in(position + 1, link),
        };
        if holds {
            Ok(())
        } else {
            Err(format!("the first {position} frames are in, or one more"))
        }
    }

    /// Memory is the old one, or the one that the last reset left, with what the
    /// first k frames lay laid over it, all of which fit, and the machine has
    /// started exactly if they are all; then it keeps what the string says, and
    /// before nothing.
    fn first_are_in(&self, count: usize, link: &Link<Load>) -> bool {
        if count > self.fitting {
            return false;
        }
        let old = link.reset.as_ref().map(|reset| &reset.memory);
        let mut memory = old.unwrap_or(&self.memory).clone();
        for (address, bytes) in self.segments.iter().take(count) {
            memory[*address..][..bytes.len()].copy_from_slice(bytes);
        }
        if let Some(block) = self.block().filter(|_| count == self.frames()) {
            memory = block.over(&memory);
        }
        let started = link.state.state == STARTED && link.state.transfer == self.transfer;
        let (right, wanted) = match count == self.frames() {
            true => (started, self.kept()),
            false => (link.state.state != STARTED, Parameters::default()),
        };
        right && memory == link.memory && link.state.parameters == wanted
    }

    /// The window's bytes, as far as they are in memory.
    fn in_window<'a>(&self, memory: &'a [u8]) -> &'a [u8] {
        let rest = memory.get(self.window.start as usize..).unwrap_or_default();
        &rest[..rest.len().min(self.window.length as usize)]
    }

    /// What the string says.
    fn kept(&self) -> Parameters {
        kept(self.entries.as_deref().unwrap_or_default())
    }
}

/// Whether the host has heard of a reset: it was waiting when the reset came, or
/// had no answer yet and no verdict, or has restarted since.
pub fn has_heard(now: &mop_proved::Load, reset: &Reset<mop_proved::Load>) -> bool {
    let then = &reset.record;
    let at_first = then.position == 0 && then.verdict == 0;
    then.waiting == 1 || at_first || now.restarts > then.restarts
}

/// What holds of a machine of whose last reset the host has not heard.
fn unheard(link: &Link<Load>, reset: &Reset<mop_proved::Load>) -> Result<(), String> {
    match link.state.state != STARTED && link.memory == reset.memory {
        true => Ok(()),
        false => Err("not started, and memory is as the reset left it".to_string()),
    }
}

/// PROTOCOL 6's claim of a dump, after any list of events.
fn dump_claim(link: &Link<Dump>, memory: &[u8], buffer: &[u8]) -> Result<(), String> {
    let (record, settings) = (link.record, link.host.settings);
    let most = dump::sent_most(settings, record.replies);
    let taken = link.taken_from_host();
    if record.sent != taken || taken > most {
        return Err(format!("{taken} sent, at most {most}"));
    }
    counts::claim::<Dump>(&record, link.handed)?;
    if link.memory != memory {
        return Err("memory stays".to_string());
    }
    let filled = record.filled as usize;
    if record.verdict == 1 && filled != buffer.len() {
        return Err("a finished dump is whole".to_string());
    }
    let from = settings.address as usize;
    let byte = |place| memory.get(from + place).copied().unwrap_or(0);
    let filed: Vec<u8> = (0..filled).map(byte).collect();
    if link.buffer[..filled] != filed || link.buffer[filled..] != buffer[filled..] {
        return Err("the filled part is memory, the rest untouched".to_string());
    }
    Ok(())
}

impl Compare {
    /// The rehearsal's example, with the transcript that PROTOCOL 8 gives.
    pub fn set_run(&mut self) {
        let file = example();
        let host = Load {
            settings: EXAMPLE_SETTINGS,
            file: Hex(&file),
            parameters: Hex(&[]),
        };
        let machine = loadable(V3_0, 0, 0);
        let mut link = Link::new(self, &host, &machine, &[0; 8], &[]);
        for letter in "txmhtht".chars() {
            link.event(self, letter, ROOM);
        }
        let first = vec![2, 0, 2, 0, 0, 0, 10, 11];
        let wanted = vec![
            (Side::Machine, vec![8, 0, 1, 2, 255, 0]),
            (Side::Host, first.clone()),
            (Side::Host, first),
            (Side::Machine, vec![10, 1, 0]),
            (Side::Host, vec![0, 1, 4, 0, 0, 0, 12, 2, 0, 0, 0]),
            (Side::Machine, vec![10, 2, 0]),
        ];
        let seen = (&link.taken, link.record.verdict, link.record.sent);
        let end = (link.state.state, link.state.transfer, &link.memory[..]);
        if seen != (&wanted, 1, 3) || end != (STARTED, 2, &[0, 0, 10, 11, 12, 0, 0, 0]) {
            let what = format_args!("the rehearsal's example");
            self.report(what, Hex(&file), (seen, end), wanted);
        }
    }

    /// Drives a link with events from a mix, and checks the claim.
    pub fn drive<H: End>(
        &mut self,
        link: &mut Link<H>,
        mix: Mix,
        events: usize,
        claim: impl Fn(&Link<H>) -> Result<(), String>,
    ) {
        self.draw(mix, events, |compare, letter, room| {
            link.event(compare, letter, room);
            if compare.random.once_in(PROBE_EVERY) {
                link.probe(compare);
            }
            if compare.random.once_in(CLAIM_EVERY) {
                compare.check_claim(link, &claim);
            }
            H::verdict(&link.record)
        });
        self.check_claim(link, &claim);
        self.tally.summed("over the link");
    }

    /// Draws events from a mix until the host has a verdict and some more, or
    /// there were so many. What takes a letter, with the length of the reply
    /// buffer, gives the verdict.
    pub fn draw(
        &mut self,
        mix: Mix,
        events: usize,
        mut take: impl FnMut(&mut Compare, char, usize) -> u8,
    ) {
        let mut left = events;
        while left > 0 {
            left -= 1;
            let letter = mix.letter(&mut self.random);
            let room = mix.room(&mut self.random);
            if take(self, letter, room) != 0 {
                left = left.min(AFTER_VERDICT);
            }
        }
    }

    pub fn check_claim<H: End>(
        &mut self,
        link: &Link<H>,
        claim: &impl Fn(&Link<H>) -> Result<(), String>,
    ) {
        if let Err(wanted) = claim(link) {
            let what = format_args!("claim of a {} over the link", H::NAME);
            let ends = (link.record, link.state);
            let seen = (ends, Hex(&link.memory), Hex(&link.buffer));
            self.report(what, (link.host, link.machine, &link.events), seen, wanted);
        }
    }

    pub fn any_mix(&mut self) -> Mix {
        let any = Mix {
            weights: [(); 8].map(|()| 1 + self.random.below(9)),
            short: 10,
            resets: 0,
        };
        self.random
            .pick(&[CLEAN, DOUBLED, LOSSY, LOSSY, SILENT, any])
    }

    pub fn load_runs(&mut self) {
        for _ in 0..4000 {
            let job = self.any_sort_of_job();
            let mix = self.any_mix();
            let events = self.random.range(0, 30 + 12 * job.frames());
            self.load_run(&job, mix, events);
        }
        // Numbers wrap from 256 segments on, and must not be confused then.
        for round in 0..48 {
            let count = match round {
                0 => 256,
                1 => 257,
                2 => 258,
                _ => self.random.range(257, 700),
            };
            let version = VERSIONS[round % 2];
            let mut job = self.long_job(version, count);
            if round % 4 < 2 {
                job = job.ending_with(self.any_entries(version));
            }
            let mix = [CLEAN, DOUBLED, LOSSY][round % 3];
            self.load_run(&job, mix, 16 * count);
        }
        // The parameters' number is 1, 255, 0, 1 and 0.
        for count in [1, 255, 256, 257, 512] {
            for (mix, version) in [(CLEAN, V2_1), (CLEAN, V3_0), (DOUBLED, V2_1), (LOSSY, V3_0)] {
                let entries = self.any_entries(version);
                let job = self.long_job(version, count).ending_with(entries);
                self.load_run(&job, mix, 30 + 16 * count);
            }
        }
    }

    /// A few segments, with and without a window and a parameter string.
    pub fn any_sort_of_job(&mut self) -> Job {
        let job = self.any_job();
        let job = self.perhaps_with_window(job);
        self.perhaps_with_parameters(job)
    }

    pub fn perhaps_with_parameters(&mut self, job: Job) -> Job {
        match self.random.once_in(2) {
            true => {
                let version = job.settings.version;
                job.ending_with(self.any_entries(version))
            }
            false => job,
        }
    }

    /// The job, or one time in three the same with a window about the ends of
    /// a segment or of the block.
    fn perhaps_with_window(&mut self, job: Job) -> Job {
        let index = self.random.range(0, job.segments.len() - 1);
        let place = self.random.pick(&[job.place(index), job.block_place()]);
        let window = self.window_about(place, job.memory.len());
        match self.random.once_in(3) {
            true => job.with_window(window),
            false => job,
        }
    }

    /// A run of a load; gives the host's record.
    pub fn load_run(&mut self, job: &Job, mix: Mix, events: usize) -> mop_proved::Load {
        self.on_link(job, |compare, link| {
            compare.drive(link, mix, events, |link| job.claim(link));
        })
    }

    /// A run of a load between fresh ends; gives the host's record.
    pub fn on_link(
        &mut self,
        job: &Job,
        run: impl FnOnce(&mut Compare, &mut Link<Load>),
    ) -> mop_proved::Load {
        let string = job.string();
        let host = job.host(&string);
        let machine = self.machine_of(job);
        let mut link = Link::new(self, &host, &machine, &job.memory, &[]);
        run(self, &mut link);
        let record = link.record;
        let (verdict, position) = (record.verdict, record.position);
        let frames = job.frames() as u64;
        let seen = &mut self.tally.ends;
        seen.load_run(job.settings, verdict, position, frames);
        record
    }

    /// The machine that a job goes to, of any kind.
    pub fn machine_of(&mut self, job: &Job) -> Machine {
        let mut machine = loadable(job.settings.version, self.random.u8(), self.random.u8());
        machine.settings.window = job.window;
        machine
    }

    /// A few regions, mostly inside memory, in a few segments.
    fn any_job(&mut self) -> Job {
        let version = self.any_version();
        let scale = self.random.pick(&[1, 1, 1, 60]);
        let body_length = scale * self.random.range(1, 40);
        let body = self.random.bytes(body_length);
        let mut end = 0;
        let mut regions = Vec::new();
        for _ in 0..self.random.range(1, 4) {
            let address = end + self.random.pick(&[0, 0, 1, 7]);
            let length = self.random.range(1, body_length);
            regions.push(Region {
                address: address as u32,
                offset: self.random.range(0, body_length - length) as u32,
                length: length as u32,
            });
            end = address + length;
        }
        let least = body_length.div_ceil(6);
        let settings = LoadSettings {
            segment_size: self.random.range(least, 40 * scale).min(1490) as u32,
            repeats: self.random.pick(&[0, 1, 2, 3, 255]),
            with_parameters: 0,
            version,
            restart: 0,
        };
        let memory_length = match self.random.below(6) {
            0 => self.random.range(0, end),
            1 => end,
            _ => end + self.random.range(0, 20),
        };
        let memory = self.memory_of(version, memory_length);
        Job::new(&body, &regions, settings, memory)
    }

    /// A memory of this length, or of a little more than the version's least.
    pub fn memory_of(&mut self, version: u8, length: usize) -> Vec<u8> {
        let length = match small_memory(version, length) {
            0 => length,
            _ => MEMORY_LEAST + self.random.range(0, 5),
        };
        self.random.bytes(length)
    }

    /// One region in this many segments, which all fit, or all but the last.
    pub fn long_job(&mut self, version: u8, count: usize) -> Job {
        let size = self.random.range(1, 3);
        let length = count * size - self.random.range(0, size - 1);
        let body = self.random.bytes(length);
        let address = self.random.range(0, 30);
        let end = address + length;
        let memory_length = self.random.pick(&[end - 1, end, end + 5, end + 5]);
        let memory = self.memory_of(version, memory_length);
        let region = Region {
            address: address as u32,
            offset: 0,
            length: length as u32,
        };
        let settings = LoadSettings {
            segment_size: size as u32,
            repeats: self.random.pick(&[20, 255]),
            with_parameters: 0,
            version,
            restart: 0,
        };
        Job::new(&body, &[region], settings, memory)
    }

    pub fn dump_runs(&mut self) {
        for _ in 0..2500 {
            let length = self.random.range(1, 60);
            let bytes = [(); 2].map(|()| self.random.range(1, 20) as u32);
            let mix = self.any_mix();
            let events = self.random.range(0, 40 + 6 * length);
            self.dump_run(length, bytes, mix, events);
        }
        for round in 0..12 {
            let (length, bytes) = match round % 2 {
                0 => (self.random.range(257, 700), [1, 1]),
                _ => (self.random.range(3000, 9000), [1495, 1495]),
            };
            let mix = [CLEAN, DOUBLED, LOSSY][round % 3];
            self.dump_run(length, bytes, mix, 8000);
        }
    }

    fn dump_run(&mut self, length: usize, bytes: [u32; 2], mix: Mix, events: usize) {
        let (host, machine, memory) = self.any_dump(length, bytes);
        let buffer = self.random.bytes(length);
        let mut link = Link::new(self, &host, &machine, &memory, &buffer);
        let claim = |link: &Link<Dump>| dump_claim(link, &memory, &buffer);
        self.drive(&mut link, mix, events, claim);
        let (verdict, replies) = (link.record.verdict, link.record.replies);
        self.tally.ends.run(Dump::NAME, verdict, replies);
    }

    /// A dump of `length` bytes, and the machine with its memory; `bytes` are C
    /// and D.
    pub fn any_dump(&mut self, length: usize, bytes: [u32; 2]) -> (Dump, Machine, Vec<u8>) {
        let memory_length = self.random.pick(&[0, 1, length / 2, length, 2 * length]);
        let version = self.any_version();
        let memory = self.memory_of(version, memory_length);
        let memory_length = memory.len();
        let top = u32::MAX - (length as u32 - 1);
        let near = self.random.range(0, memory_length) as u32;
        let host = Dump {
            settings: DumpSettings {
                length: length as u64,
                address: self
                    .random
                    .pick(&[0, near, near, memory_length as u32, top]),
                request_bytes: bytes[0],
                repeats: self.random.pick(&[0, 1, 2, 3, 255, 255]),
                version,
            },
        };
        let range = (host.settings.address.into(), length as u64);
        let machine = Machine {
            settings: MachineSettings {
                reply_bytes: bytes[1],
                version,
                window: self.window_about(range, memory_length),
                ..Default::default()
            },
            purpose: Purpose::Dump,
        };
        (host, machine, memory)
    }
}

/// A machine that starts for a load.
pub fn loadable(version: u8, device: u8, processor: u8) -> Machine {
    Machine {
        settings: MachineSettings {
            reply_bytes: 1,
            device,
            processor,
            version,
            ..Default::default()
        },
        purpose: Purpose::Load,
    }
}
