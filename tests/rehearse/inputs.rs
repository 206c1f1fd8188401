//! The kinds of inputs, and how many of each a run has.

use crate::job::Job;
use crate::random::Random;
use crate::{images, loads, malformed};

pub struct Input {
    pub text: Vec<u8>,
    pub wanted: Wanted,
}

/// What an input's maker knows of the output.
pub enum Wanted {
    /// Only that both print the same.
    Agreement,
    /// The refusal.
    Bad(u8),
    /// A transcript for which PROTOCOL 6's claim holds, and perhaps its verdict.
    Load(Box<Job>, Option<u8>),
    /// All of it.
    Printed(Vec<u8>),
}

impl Input {
    pub fn bad(text: Vec<u8>, refusal: u8) -> Input {
        let wanted = Wanted::Bad(refusal);
        Input { text, wanted }
    }

    pub fn agreed(text: Vec<u8>) -> Input {
        let wanted = Wanted::Agreement;
        Input { text, wanted }
    }
}

pub struct Kind {
    pub name: &'static str,
    times: u64,
    make: fn(&mut Random) -> Input,
}

const fn kind(name: &'static str, times: u64, make: fn(&mut Random) -> Input) -> Kind {
    Kind { name, times, make }
}

pub const KINDS: [Kind; 41] = [
    kind("clean load", 800, loads::clean),
    kind("clean load cut short", 500, loads::cut_short),
    kind("no events", 200, loads::no_events),
    kind("frames doubled", 800, loads::doubled),
    kind("lossy line", 1500, loads::lossy),
    kind("silent line", 800, loads::silent),
    kind("any letters", 1000, loads::any_letters),
    kind("rejected", 800, loads::rejected),
    kind("unconfirmed", 800, loads::unconfirmed),
    kind("given up", 800, loads::given_up),
    kind("more repeats, the same printed", 600, loads::more_repeats),
    kind("long runs of letters", 1200, loads::bursts),
    kind("queue filled with requests", 500, loads::full_of_requests),
    kind("queue filled with segments", 500, loads::full_of_segments),
    kind("about 257 segments and more, clean", 200, loads::long_clean),
    kind("200 segments and more, lossy", 200, loads::long_mixed),
    kind("frames of about 1,500 bytes", 300, loads::large_frames),
    kind("60 to 339 regions", 400, loads::many_regions),
    kind("8,192 bytes", 300, loads::longest),
    kind("8,193 bytes and more, right form", 300, loads::too_long),
    kind(
        "8,193 bytes and more, others",
        300,
        malformed::too_many_bytes,
    ),
    kind("image: file or trailer wrong", 500, images::bad_file),
    kind("image: directory wrong", 500, images::bad_directory),
    kind("image: entry wrong", 500, images::bad_entry),
    kind("image: order wrong", 500, images::bad_order),
    kind("image: damaged by one byte", 700, images::damaged),
    kind("image: cut or extended", 400, images::cut_or_extended),
    kind("numbers badly written", 500, malformed::numbers),
    kind("numbers out of range", 500, malformed::ranges),
    kind("numbers of a thousand digits", 300, malformed::long_numbers),
    kind("spaces and tabs", 500, malformed::spaces),
    kind("digits of the image", 400, malformed::digits),
    kind("events of no letter", 500, malformed::events),
    kind("carriage returns", 300, malformed::carriage_returns),
    kind("line feeds missing or more", 400, malformed::line_feeds),
    kind("cut anywhere", 400, malformed::cut),
    kind("more behind the end", 200, malformed::more),
    kind("empty input", 4, malformed::empty),
    kind("any byte changed, added or taken", 700, malformed::damaged),
    kind("noise", 400, malformed::noise),
    kind("few letters only", 400, loads::few_letters),
];

/// The inputs of a run.
pub fn count() -> u64 {
    KINDS.iter().map(|kind| kind.times).sum()
}

/// Input number `index` of the run with this seed, and the numbers to run it
/// with.
pub fn input(seed: u64, index: u64) -> (&'static str, Input, Random) {
    let start = Random::new(seed).u64().wrapping_add(index);
    let mut random = Random::new(Random::new(start).u64());
    let mut place = index;
    for kind in &KINDS {
        if place < kind.times {
            let input = (kind.make)(&mut random);
            return (kind.name, input, random);
        }
        place -= kind.times;
    }
    unreachable!("an index below the count")
}
