//! Compares the machine's parameter block of version 2.1: what is laid, what is
//! left alone, and windows about it (PROTOCOL 4, "The parameter block").

use super::dump::ADDRESS_END;
use super::machine::{Machine, keeping, loading, started};
use super::machine_parameters::OLD;
use super::machine_windows::{touches, window};
use super::strings::{good_lists, kept, last_of};
use super::{Case, Event, ROOM, frames};
use crate::Compare;
use crate::make::{self, V2_1, V3_0, VERSIONS, entry_fits};
use crate::tally::Hex;
use mop_proved::Window;

/// The least memory of version 2.1.
pub const MEMORY_LEAST: usize = 64;

/// The least memory of a version.
pub fn memory_least(version: u8) -> usize {
    if version == V2_1 { MEMORY_LEAST } else { 0 }
}

/// The block's bytes.
const LENGTH: usize = 14;

/// Lengths of memory, odd and even.
const MEMORIES: [usize; 11] = [64, 65, 66, 67, 68, 79, 80, 127, 128, 129, 1001];

/// 11 for a memory that is too small for the version, otherwise 0.
pub fn small_memory(version: u8, memory: usize) -> u8 {
    if memory < memory_least(version) {
        11
    } else {
        0
    }
}

/// What a code 20 lays, byte by byte; nothing under version 3.0.0.
#[derive(Debug)]
pub struct Block {
    /// Where its 14 bytes begin; under 3.0.0 there are none.
    start: Option<u64>,
    /// Each byte that is written, with its address.
    written: Vec<(usize, u8)>,
}

impl Block {
    /// Where it begins in a memory of at least 64 bytes.
    pub fn start(memory: usize) -> u64 {
        let beyond = (memory as u64..).find(|address| address.is_multiple_of(2));
        beyond.map_or(0, |top| top - 64)
    }

    pub fn new(version: u8, entries: &[Vec<u8>], memory: usize) -> Block {
        if version != V2_1 {
            let (start, written) = (None, Vec::new());
            return Block { start, written };
        }
        let start = Block::start(memory);
        let [target, host] = [1, 3].map(|kind| match last_of(entries, kind) {
            [] => vec![0, 0],
            name => [name, &[b' '; 6]].concat()[..6].to_vec(),
        });
        let node = [last_of(entries, 2), &[0, 0]].concat()[..2].to_vec();
        let parts = [(0, node), (2, target), (8, host)];
        let written = parts.into_iter().flat_map(|(at, bytes)| {
            let first = start as usize + at;
            (first..).zip(bytes)
        });
        Block {
            start: Some(start),
            written: written.collect(),
        }
    }

    /// Whether none of its 14 bytes is in the window.
    pub fn fits(&self, window: Window) -> bool {
        self.start
            .is_none_or(|start| !touches(window, start, LENGTH))
    }

    /// Where a window lies: it has no byte of the block, one at an end, only
    /// bytes that would stay, or others.
    fn against(&self, window: Window) -> &'static str {
        let inside = |address: u64| touches(window, address, 1);
        let written = |address: &u64| self.written.iter().any(|byte| byte.0 as u64 == *address);
        let start = self.start.unwrap_or(0);
        let behind = start + LENGTH as u64;
        let bytes: Vec<u64> = (start..behind).filter(|&address| inside(address)).collect();
        let beside = inside(behind) || start.checked_sub(1).is_some_and(inside);
        match bytes[..] {
            [] if beside => "2.1: windows just beside the block",
            [] => "2.1: windows away from the block",
            [only] if only == start => "2.1: windows on the block's first byte",
            [only] if only + 1 == behind => "2.1: windows on the block's last byte",
            _ if !bytes.iter().any(written) => "2.1: windows on bytes that would stay",
            _ => "2.1: windows on other bytes of the block",
        }
    }

    /// Memory with the block laid over it.
    pub fn over(&self, memory: &[u8]) -> Vec<u8> {
        let mut memory = memory.to_vec();
        for &(address, byte) in &self.written {
            memory[address] = byte;
        }
        memory
    }
}

/// Address and length of the block, or of nothing.
pub fn place(version: u8, memory: usize) -> (u64, u64) {
    match version == V2_1 && memory >= MEMORY_LEAST {
        true => (Block::start(memory), LENGTH as u64),
        false => (0, 0),
    }
}

/// An entry of this type and length, or none.
fn perhaps(kind: u8, value: Option<Vec<u8>>) -> Option<Vec<u8>> {
    value.map(|value| make::with_head(kind, value))
}

impl Compare {
    pub fn parameter_blocks(&mut self) {
        self.block_set_cases();
        self.names_and_addresses();
        for version in VERSIONS {
            self.lengths_of_each_type(version);
        }
        for memory in MEMORIES {
            for list in good_lists(&mut self.random, V2_1) {
                self.code_20_laid("2.1: absent, empty and repeated entries", &list, memory);
            }
        }
        for memory in [64, 65, 66, 79] {
            self.windows_about_the_block(memory);
        }
    }

    /// What PROTOCOL 4 says outright, in memories of 64, 65 and 66 bytes.
    fn block_set_cases(&mut self) {
        let end = self.without_window(V2_1);
        let all = [
            &[2, 1, 7][..],
            &[1, 3, 65, 66, 67],
            &[3, 6, 1, 2, 3, 4, 5, 6],
        ];
        let all = all.map(<[u8]>::to_vec).to_vec();
        let empty = [1, 2, 3].map(|kind| vec![kind, 0]).to_vec();
        let laid = [7, 0, 65, 66, 67, 32, 32, 32, 1, 2, 3, 4, 5, 6];
        let none = [0, 0, 0, 0, 238, 238, 238, 238, 0, 0, 238, 238, 238, 238];
        for (length, start) in [(64, 0), (65, 2), (66, 2)] {
            let old = vec![238; length];
            for (entries, bytes) in [(&all, laid), (&vec![], none), (&empty, none)] {
                let frame = frames::parameters(0, &entries.concat(), 5);
                let mut memory = old.clone();
                memory[start..start + LENGTH].copy_from_slice(&bytes);
                let after = keeping(started(5), kept(entries));
                let wanted = (after, Some(&[10, 1, 0][..]), &memory[..]);
                let event = Event::Frame(Hex(&frame));
                self.set_case(&end, loading(9, 1), event, &old, wanted);
            }
        }
    }

    pub fn without_window(&mut self, version: u8) -> Machine {
        let mut end = self.good_machine(version);
        end.settings.window = window((0, 0));
        end
    }

    /// Names and target addresses of every length, absent ones too.
    fn names_and_addresses(&mut self) {
        const KIND: &str = "2.1: names and node numbers in the block";
        for target in 0..=7 {
            for host in 0..=7 {
                for address in 0..=3 {
                    let mut value = |count: usize| {
                        let length = count.checked_sub(1);
                        length.map(|length| self.random.bytes(length))
                    };
                    let entries = [
                        perhaps(2, value(address)),
                        perhaps(1, value(target)),
                        perhaps(3, value(host)),
                    ];
                    let list: Vec<Vec<u8>> = entries.into_iter().flatten().collect();
                    for memory in MEMORIES {
                        self.code_20_laid(KIND, &list, memory);
                    }
                }
            }
        }
    }

    /// A code 20 that fits, known from the protocol.
    fn code_20_laid(&mut self, kind: &'static str, entries: &[Vec<u8>], memory: usize) {
        let end = self.without_window(V2_1);
        let old = self.random.bytes(memory);
        let laid = Block::new(V2_1, entries, memory).over(&old);
        let frame = frames::parameters(9, &entries.concat(), 77);
        let after = keeping(started(77), kept(entries));
        let wanted = (after, Some(&[10, 10, 0][..]), &laid[..]);
        let before = keeping(loading(9, 1), OLD);
        self.known_case(kind, &end, before, Event::Frame(Hex(&frame)), &old, wanted);
    }

    /// One value of each length, up to one byte more than 3.0.0 has, between
    /// others: refused with 4 where the version does not have it.
    fn lengths_of_each_type(&mut self, version: u8) {
        let end = self.without_window(version);
        for (kind, most) in make::short_types(V3_0).into_iter().chain([(5, 10)]) {
            for length in 0..=most + 1 {
                let value = match (kind, length) {
                    (5, 10) => make::time(&mut self.random).to_vec(),
                    _ => self.random.bytes(length),
                };
                let [before, behind] = [(); 2].map(|()| make::entry(&mut self.random, version));
                let entries = [before, make::with_head(kind, value), behind].concat();
                let frame = frames::parameters(0, &entries, 5);
                for memory in [64, 65] {
                    let case = Case {
                        kind: match version {
                            V2_1 => "2.1: values of every length",
                            _ => "values of every length",
                        },
                        end: &end,
                        record: keeping(loading(9, 1), OLD),
                        event: Event::Frame(Hex(&frame)),
                        room: ROOM,
                        wanted: if entry_fits(version, kind, length) {
                            0
                        } else {
                            4
                        },
                    };
                    let mut memory = self.random.bytes(memory);
                    self.step(case, &mut memory);
                }
            }
        }
    }

    /// Windows that begin or end about the block's ends and inside it, with
    /// names there or absent.
    fn windows_about_the_block(&mut self, memory: usize) {
        let start = Block::start(memory);
        let target = make::with_head(1, vec![65, 66]);
        let host = make::with_head(3, vec![72]);
        let lists = [
            vec![],
            vec![target.clone()],
            vec![host.clone()],
            vec![target, host],
        ];
        for from in start.saturating_sub(3)..=start + LENGTH as u64 + 2 {
            for length in [0, 1, 2, 3, 4, 14, 20, ADDRESS_END - from] {
                for list in &lists {
                    self.code_20_with_window(window((from, length)), list, memory);
                }
            }
        }
    }

    /// A code 20 and then others with a number that repeats it, with number 0
    /// and with the next number.
    fn code_20_with_window(&mut self, window: Window, entries: &[Vec<u8>], memory: usize) {
        let mut end = self.without_window(V2_1);
        end.settings.window = window;
        let old = self.random.bytes(memory);
        let block = Block::new(V2_1, entries, memory);
        let fits = block.fits(window);
        let mut before = keeping(loading(6, 0), OLD);
        for (kind, number, next) in [
            (block.against(window), 6, 7),
            ("2.1: code 20 that does not fit, again", 6, 7),
            ("2.1: code 20 that does not fit, number 0", 0, 1),
            ("2.1: code 20 that does not fit, the next", 1, 2),
        ] {
            let frame = frames::parameters(number, &entries.concat(), 77);
            let event = Event::Frame(Hex(&frame));
            let (after, memory, error) = match fits {
                true => (keeping(started(77), kept(entries)), block.over(&old), 0),
                false => (keeping(loading(next, 1), OLD), old.clone(), 1),
            };
            let reply = [10, next, error];
            let wanted = (after, Some(&reply[..]), &memory[..]);
            self.known_case(kind, &end, before, event, &old, wanted);
            if fits {
                return;
            }
            before = after;
        }
    }
}
