//! The inputs with the most printing, but for some hundred bytes, and with the
//! most work in a whole load.
//!
//! A letter prints at most one frame. A segment is printed at most 256 times,
//! by its first sending and 255 repeats, and every byte of it takes two digits
//! each time. All segments but the last must be answered, so they fit into
//! 4,096 bytes of memory; the last need not fit. That is 4,096 + 1,490 bytes,
//! in the fewest segments, from regions that share their bytes in the file.
//! Letters that are left print the machine's request, 15 bytes each.
//!
//! Each step of the host looks through the whole directory. A region takes 24
//! digits of the input and an answered segment two letters, so the most entries
//! are looked at where the directory has one half of the input and the letters
//! have the other: 169 regions and 2,028 segments, 342,901 entries.

use crate::file::Region;
use crate::job::Job;

const MEMORY: usize = 4096;
const LONGEST: usize = 1490;
const REPEATS: usize = 255;
const PLACES: usize = 16;

pub fn most_printing() -> Job {
    let mut job = shared(&[LONGEST, LONGEST, MEMORY - 2 * LONGEST, LONGEST], LONGEST);
    job.events = events(job.room(), job.segments());
    job
}

pub fn most_work() -> Job {
    let mut job = shared(&[12; 169], 1);
    job.events = [b"t", &b"ht".repeat(job.segments())[..]].concat();
    job
}

/// Adjacent regions of these lengths over the same bytes, cut into parts of
/// `size` bytes.
fn shared(lengths: &[usize], size: usize) -> Job {
    let longest = lengths.iter().copied().max().unwrap_or(0);
    let mut address = 0;
    let mut regions = Vec::new();
    for &length in lengths {
        regions.push(Region {
            address,
            offset: 0,
            length: length as u32,
        });
        address += length as u32;
    }
    Job {
        memory: MEMORY,
        size,
        repeats: REPEATS,
        body: (0..longest).map(|place| place as u8).collect(),
        regions,
        transfer: 2,
        events: Vec::new(),
    }
}

/// Requests first; then each segment as often as it can be sent.
fn events(room: usize, segments: usize) -> Vec<u8> {
    // The machine's queue is left with one request, the host's with none.
    let first = b"y".repeat(PLACES - 1);
    let each = [
        b"t",
        &b"m".repeat(REPEATS)[..],
        b"h",
        &b"x".repeat(PLACES - 1),
    ]
    .concat();
    let last = [&b"t"[..], &b"m".repeat(REPEATS)].concat();
    let load = [first, each.repeat(segments - 1), last].concat();
    [b"n".repeat(room - load.len()), load].concat()
}
