//! How long the proved library takes beside the plain implementation: the
//! reader, the image check, the segment call, a load's step that sends and one
//! that only counts, a machine's step on a load and on a code 20, a dump
//! between two ends, and whole loads of many regions and of few.
//!
//! Both get the same inputs in one run, in turns, and borrow what they read:
//! neither allocates, and but for the ends' steps no buffer is written.
//! Each is called directly, as a driver would call it.

mod dump;
mod load;
mod machine;
mod regions;

use std::hint::black_box;
use std::time::{Duration, Instant};

use mop_plain::frame::{self, Frame};
use mop_plain::version::Version;

/// The header's calls. The safe functions of `mop_proved` are for the
/// comparison: each is a further call, which picks null pointers for empty
/// slices.
mod proved {
    use mop_proved::{Fields, Image, Segment};
    use mop_proved::{mop_image_check, mop_image_segment, mop_read};

    pub fn read(frame: &[u8]) -> Fields {
        unsafe { mop_read(super::VERSION, frame.as_ptr(), frame.len()) }
    }

    pub fn image_check(file: &[u8], segment_size: u32) -> Image {
        unsafe { mop_image_check(file.as_ptr(), file.len(), segment_size) }
    }

    pub fn image_segment(file: &[u8], segment_size: u32, index: u64) -> Segment {
        unsafe { mop_image_segment(file.as_ptr(), file.len(), segment_size, index) }
    }
}

/// Turns that each of the two gets; the medians are printed.
const ROUNDS: usize = 401;
/// The least time for a turn: short, so that few turns are interrupted.
const TURN: Duration = Duration::from_micros(200);
const SEGMENT_SIZE: u32 = 1490;
/// 3.0.0, where nothing else is said.
const VERSION: u8 = 30;

/// `bench regions` takes the images of many regions alone.
fn main() {
    println!(
        "{:<36}{:>12}{:>12}{:>9}",
        "ns per call, median", "proved", "plain", "ratio"
    );
    if std::env::args().nth(1).is_none_or(|word| word != "regions") {
        reading();
        loads();
        machines();
        print("dump of 16 MiB, a frame", &dump::rounds());
    }
    regions::rows();
}

fn reading() {
    let mut mix = Vec::new();
    for (name, frames) in [
        ("read, small frames", small_frames()),
        ("read, 1,500-byte frames", long_frames()),
        ("read, code 20 with names", vec![parameters(&names())]),
        (
            "read, code 20 with names and times",
            vec![parameters(&names_and_times())],
        ),
        (
            "read, code 20 filled with names",
            vec![parameters(&filling(&name(1, 16)))],
        ),
        (
            "read, code 20 filled with times",
            vec![parameters(&filling(&time()))],
        ),
    ] {
        read(name, &frames);
        mix.extend(frames);
    }
    read("read, all of these", &mix);
}

/// Images of few regions, and the steps of their loads.
fn loads() {
    for (regions, name) in [(1, "1 region"), (64, "64 regions")] {
        let file = image(regions, 60_000);
        check(&format!("image check, {name}"), &file);
        segment(&format!("image segment, {name}"), &file);
        load::step(&format!("load step, {name}"), &file, None);
    }
    let file = image(1, 60_000);
    load::ignored("load step, a frame ignored", &file);
    for (name, string) in [
        ("load step, names", names()),
        ("load step, 1,476 bytes of names", filling(&name(1, 16))),
    ] {
        load::step(name, &file, Some(&string));
    }
}

fn machines() {
    for (name, start, length) in [
        ("machine step, no window", 0, 0),
        ("machine step, a window beside", 512, 488),
        ("machine step, a load rejected", 1511, 100),
    ] {
        machine::step(name, start, length);
    }
    let short = parameters(&short_names());
    for (name, version) in [
        ("machine step, code 20, 3.0.0", VERSION),
        ("machine step, code 20, 2.1", 21),
    ] {
        machine::parameters(name, version, short.clone());
    }
}

fn read(name: &str, frames: &[Vec<u8>]) {
    for frame in frames {
        assert!(plain_read(frame).is_ok(), "a good frame");
        assert_eq!(proved::read(frame).refusal, 0, "a good frame");
    }
    compare(
        name,
        frames,
        |frame| {
            black_box(proved::read(black_box(frame)));
        },
        |frame| {
            let _ = black_box(plain_read(black_box(frame)));
        },
    );
}

fn plain_read(frame: &[u8]) -> Result<Frame<'_>, u8> {
    frame::read(Version::V3_0, frame)
}

fn check(name: &str, file: &[u8]) {
    assert_eq!(
        proved::image_check(file, SEGMENT_SIZE).refusal,
        0,
        "a good image"
    );
    compare(
        name,
        &[file],
        |file| {
            black_box(proved::image_check(black_box(file), SEGMENT_SIZE));
        },
        |file| {
            let image = mop_plain::image::check(black_box(file), SEGMENT_SIZE);
            let _ = black_box(image.map(|image| (image.segments(), image.transfer())));
        },
    );
}

/// Every segment in turn; each call checks the image too.
fn segment(name: &str, file: &[u8]) {
    let count = proved::image_check(file, SEGMENT_SIZE).segments;
    let indexes: Vec<u64> = (0..count).collect();
    compare(
        name,
        &indexes,
        |&index| {
            black_box(proved::image_segment(black_box(file), SEGMENT_SIZE, index));
        },
        |&index| {
            let image = mop_plain::image::check(black_box(file), SEGMENT_SIZE);
            let _ = black_box(image.map(|image| image.segment(index)));
        },
    );
}

/// Times both over the inputs, in turns, and prints a line.
fn compare<T>(name: &str, inputs: &[T], mut proved: impl FnMut(&T), mut plain: impl FnMut(&T)) {
    let passes = passes(inputs, &mut proved).max(passes(inputs, &mut plain));
    let calls = (passes * inputs.len()) as f64;
    let mut rounds = Vec::new();
    for round in 0..ROUNDS {
        let early = (round % 2 == 0).then(|| turn(inputs, passes, &mut proved));
        let plain = turn(inputs, passes, &mut plain);
        let proved = early.unwrap_or_else(|| turn(inputs, passes, &mut proved));
        let nanoseconds = |time: Duration| time.as_nanos() as f64 / calls;
        rounds.push((nanoseconds(proved), nanoseconds(plain)));
    }
    print(name, &rounds);
}

/// The medians of rounds, proved and plain, on a line.
fn print(name: &str, rounds: &[(f64, f64)]) {
    let of = |number: fn(&(f64, f64)) -> f64| median(rounds.iter().map(number).collect());
    println!(
        "{name:<36}{:>12.1}{:>12.1}{:>9.2}",
        of(|round| round.0),
        of(|round| round.1),
        of(|round| round.0 / round.1),
    );
}

/// How many passes over the inputs make a turn long enough.
fn passes<T>(inputs: &[T], mut call: impl FnMut(&T)) -> usize {
    let mut passes = 1;
    while turn(inputs, passes, &mut call) < TURN {
        passes *= 2;
    }
    passes
}

fn turn<T>(inputs: &[T], passes: usize, mut call: impl FnMut(&T)) -> Duration {
    let start = Instant::now();
    for _ in 0..passes {
        for input in inputs {
            call(input);
        }
    }
    start.elapsed()
}

fn median(mut numbers: Vec<f64>) -> f64 {
    numbers.sort_by(f64::total_cmp);
    numbers[numbers.len() / 2]
}

/// A frame that begins so and is filled up to a length.
fn frame(start: &[u8], length: usize) -> Vec<u8> {
    let filling = (start.len()..length).map(|place| (place * 37 + 11) as u8);
    start.iter().copied().chain(filling).collect()
}

fn small_frames() -> Vec<Vec<u8>> {
    vec![
        frame(&[10], 3),
        frame(&[4], 7),
        frame(&[1], 1),
        frame(&[3], 1),
        frame(&[8, 0, 1, 2, 255], 6),
        frame(&[8, 0, 1, 2, 9], 30),
        frame(&[12], 8),
        frame(&[0], 10),
        frame(&[2], 40),
        frame(&[14], 37),
        frame(&[24], 20),
        frame(&[26], 20),
    ]
}

fn long_frames() -> Vec<Vec<u8>> {
    let starts: [&[u8]; 7] = [&[0], &[2], &[8, 0, 1, 2, 16], &[12], &[14], &[24], &[26]];
    starts.iter().map(|start| frame(start, 1500)).collect()
}

fn parameters(entries: &[u8]) -> Vec<u8> {
    [&[20, 0], entries, &[0, 0, 2, 0, 0]].concat()
}

fn name(kind: u8, length: usize) -> Vec<u8> {
    [vec![kind, length as u8], vec![b'N'; length]].concat()
}

fn time() -> Vec<u8> {
    vec![
        5,
        10,
        20,
        26,
        2,
        28,
        23,
        59,
        59,
        99,
        256u16.wrapping_sub(5) as u8,
        0,
    ]
}

/// Names and addresses as long as version 2.1 has them.
fn short_names() -> Vec<u8> {
    [name(1, 6), name(2, 2), name(3, 6), name(4, 2)].concat()
}

/// Target and host, name and address.
fn names() -> Vec<u8> {
    [name(1, 6), name(2, 2), name(3, 16), name(4, 6)].concat()
}

fn names_and_times() -> Vec<u8> {
    [names(), time(), time()].concat()
}

/// One entry as often as a frame of 1,500 bytes has room for it.
fn filling(entry: &[u8]) -> Vec<u8> {
    entry.repeat(1493 / entry.len())
}

/// An image of equal regions with gaps between.
fn image(regions: u32, bytes: u32) -> Vec<u8> {
    let length = bytes / regions;
    let mut file = frame(&[], (length * regions) as usize);
    let directory = file.len() as u32;
    for region in 0..regions {
        for number in [region * (length + 100), region * length, length] {
            file.extend(number.to_le_bytes());
        }
    }
    file.extend(directory.to_le_bytes());
    file.extend(regions.to_le_bytes());
    file.extend([0, 2, 0, 0]);
    file.extend((file.len() as u32 + 4).to_le_bytes());
    file
}
