//! Images of many regions. A step that sends looks at every directory entry, so
//! a whole load of n regions is n walks over n entries: from the machine's
//! request to its last answer, host steps alone, nothing lost.

use std::hint::black_box;
use std::time::{Duration, Instant};

use mop_plain::load::{self, Session, Settings};
use mop_plain::version::Version;
use mop_proved::{LoadSettings, mop_load_frame, mop_load_start};

use crate::{VERSION, compare, frame, print, proved};

const REGIONS: u32 = 100_000;
const REPEATS: u32 = 3;
/// Every segment has one byte.
const SEGMENT_SIZE: u32 = 1;
/// The two take turns of so many steps.
const TURN: usize = 1000;

/// An image of equal regions with gaps between, cut into segments of a byte.
fn image(regions: u32, length: u32) -> Vec<u8> {
    let mut file = frame(&[], (length * regions) as usize);
    let directory = file.len() as u32;
    for region in 0..regions {
        for number in [region * (length + 1), region * length, length] {
            file.extend(number.to_le_bytes());
        }
    }
    let end = file.len() as u32 + 16;
    for number in [directory, regions, 0x200, end] {
        file.extend(number.to_le_bytes());
    }
    file
}

/// One walk over the directory, and whole loads of as many segments.
pub fn rows() {
    let many = image(REGIONS, 1);
    let two = image(2, REGIONS / 2);
    walk("image segment, 100,000 regions", &many);
    whole("whole load, 100,000 regions, a step", &many);
    whole("whole load, 2 regions, a step", &two);
}

/// Some segments, from the first to the last.
fn walk(name: &str, file: &[u8]) {
    let indexes: Vec<u64> = (0..u64::from(REGIONS)).step_by(9973).collect();
    for &index in &indexes {
        let found = proved::image_segment(file, SEGMENT_SIZE, index);
        let plain = survey(file, SEGMENT_SIZE, index).expect("a good image");
        assert_eq!(found.refusal, 0, "a good image");
        assert_eq!((found.address, found.at as u32), (plain.1, plain.2));
        assert_eq!(plain.0, u64::from(REGIONS));
    }
    compare(
        name,
        &indexes,
        |&index| {
            black_box(proved::image_segment(black_box(file), SEGMENT_SIZE, index));
        },
        |&index| {
            let size = black_box(SEGMENT_SIZE);
            let _ = black_box(survey(black_box(file), size, index));
        },
    );
}

/// The same in plain Rust, written for this row: one walk that judges every
/// entry, counts the segments and finds one of them. It divides as seldom as the
/// proved one. N, and the segment's address and place.
fn survey(file: &[u8], size: u32, index: u64) -> Option<(u64, u32, u32)> {
    let (before, trailer) = file.split_last_chunk::<16>()?;
    let (directory, count) = (word(trailer, 0), word(trailer, 4));
    if file.len() > 16_777_216 || word(trailer, 12) as usize != file.len() {
        return None;
    }
    let (body, entries) = before.split_at_checked(directory as usize)?;
    if !(1..=REGIONS).contains(&count) || entries.len() != 12 * count as usize {
        return None;
    }
    let (mut end, mut segments, mut found) = (0, 0, None);
    for entry in entries.chunks_exact(12) {
        let (address, place, length) = (word(entry, 0), word(entry, 4), word(entry, 8));
        let begins = u64::from(address);
        let [ends, bytes_end] = [address, place].map(|from| u64::from(from) + u64::from(length));
        if length < 1 || bytes_end > body.len() as u64 || ends > 1 << 32 || begins < end {
            return None;
        }
        let parts = u64::from(parts(size, length));
        if index >= segments && index - segments < parts {
            let skip = (index - segments) as u32 * size;
            found = Some((address + skip, place + skip));
        }
        segments += parts;
        end = ends;
    }
    found.map(|(address, place)| (segments, address, place))
}

fn parts(size: u32, length: u32) -> u32 {
    if length <= size {
        return 1;
    }
    (length - 1) / size + 1
}

fn word(bytes: &[u8], at: usize) -> u32 {
    u32::from_le_bytes([bytes[at], bytes[at + 1], bytes[at + 2], bytes[at + 3]])
}

/// A whole load by both, in turns; all frames are kept and compared.
fn whole(name: &str, file: &[u8]) {
    let steps = proved::image_check(file, SEGMENT_SIZE).segments + 1;
    let (mut one, mut other) = (proved_host(file), plain_host(file));
    let (mut sent, mut also) = (Vec::new(), Vec::new());
    let (mut rounds, mut proved, mut plain) = (Vec::new(), Duration::ZERO, Duration::ZERO);
    for began in (0..steps).step_by(TURN) {
        let end = steps.min(began + TURN as u64);
        let took = turn(&mut one, began..end, &mut sent);
        let also_took = turn(&mut other, began..end, &mut also);
        let each = |time: Duration| time.as_nanos() as f64 / (end - began) as f64;
        rounds.push((each(took), each(also_took)));
        proved += took;
        plain += also_took;
    }
    assert!(sent == also, "the same frames");
    print(name, &rounds);
    let seconds = [proved, plain].map(|time| time.as_secs_f64());
    println!(
        "{:<36}{:>11.2} s{:>10.2} s",
        "  all its steps", seconds[0], seconds[1]
    );
}

/// The frames of these steps, each on the machine's answer to the one before;
/// the first is on its request.
fn turn(
    host: &mut impl FnMut(&[u8], &mut [u8]) -> usize,
    steps: std::ops::Range<u64>,
    sent: &mut Vec<u8>,
) -> Duration {
    let mut reply = [0; 1500];
    let start = Instant::now();
    for step in steps {
        let length = match step {
            0 => host(&[8, 0, 1, 2, 255, 0], &mut reply),
            _ => host(&[10, step as u8, 0], &mut reply),
        };
        sent.extend_from_slice(&reply[..length]);
    }
    start.elapsed()
}

fn proved_host(file: &[u8]) -> impl FnMut(&[u8], &mut [u8]) -> usize {
    let settings = LoadSettings {
        segment_size: SEGMENT_SIZE,
        repeats: REPEATS,
        with_parameters: 0,
        version: VERSION,
        restart: 0,
    };
    // The call takes nothing.
    let mut session = unsafe { mop_load_start() };
    move |frame, reply| {
        // The pointers are good for these lengths, and reply overlaps nothing.
        let step = unsafe {
            mop_load_frame(
                settings,
                session,
                file.as_ptr(),
                file.len(),
                std::ptr::null(),
                0,
                frame.as_ptr(),
                frame.len(),
                reply.as_mut_ptr(),
                reply.len(),
            )
        };
        assert_eq!(step.answer.refusal, 0, "a good step");
        session = step.record;
        step.answer.length
    }
}

fn plain_host(file: &[u8]) -> impl FnMut(&[u8], &mut [u8]) -> usize {
    let settings = Settings {
        segment_size: SEGMENT_SIZE,
        repeats: REPEATS,
        parameters: None,
        version: Version::V3_0,
        restart: None,
    };
    let mut session = Session::Waiting { ignored: 0 };
    move |frame, reply| {
        let sent = load::frame(settings, &mut session, file, frame, reply);
        sent.expect("a good step").unwrap_or(0)
    }
}
