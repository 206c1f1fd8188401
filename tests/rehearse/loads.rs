//! Inputs of the right form with a good image: loads that end in every way.

use crate::file::Region;
use crate::inputs::{Input, Wanted};
use crate::job::{End, INPUT_MOST, Job};
use crate::random::Random;
use mop_plain::rehearsal::rehearse;

const LETTERS: &[u8; 8] = b"hkxtuymn";
/// How often each letter comes, in the order above.
type Mix = [u64; 8];
const DOUBLED: Mix = [6, 4, 0, 6, 4, 0, 0, 0];
const LOSSY: Mix = [12, 3, 2, 12, 3, 2, 3, 1];
const SILENT: Mix = [4, 0, 6, 4, 0, 6, 6, 3];

const FINISHED: u8 = 1;
const REJECTED: u8 = 2;
const GIVEN_UP: u8 = 3;
const UNCONFIRMED: u8 = 4;

fn letter(random: &mut Random, mix: Mix) -> u8 {
    let mut place = random.below(mix.iter().sum());
    for (&letter, weight) in LETTERS.iter().zip(mix) {
        if place < weight {
            return letter;
        }
        place -= weight;
    }
    LETTERS[0]
}

fn letters(random: &mut Random, mix: Mix, count: usize) -> Vec<u8> {
    (0..count).map(|_| letter(random, mix)).collect()
}

/// Every frame is handed over once, up to this many segments.
fn clean_events(segments: usize) -> Vec<u8> {
    [b"t", &b"ht".repeat(segments)[..]].concat()
}

fn any_transfer(random: &mut Random) -> u32 {
    let any = random.u32();
    random.pick(&[0, 2, 0xA0, 0x00C0_FFEE, 0x0102_0304, u32::MAX, any, any])
}

/// A few regions in a few segments, which all fit, and no events.
pub fn small(random: &mut Random) -> Job {
    let scale = random.pick(&[1, 1, 1, 20]);
    let body_length = scale * random.range(1, 40);
    let mut end = 0;
    let mut regions = Vec::new();
    for _ in 0..random.range(1, 4) {
        let address = end + random.pick(&[0, 0, 1, 7]);
        let length = random.range(1, body_length);
        regions.push(Region {
            address: address as u32,
            offset: random.range(0, body_length - length) as u32,
            length: length as u32,
        });
        end = address + length;
    }
    Job {
        memory: end + random.pick(&[0, 0, 1, 20]),
        size: random.range(body_length.div_ceil(6), 40 * scale).min(1490),
        repeats: random.pick(&[0, 1, 2, 3, 9, 255]),
        body: random.bytes(body_length),
        regions,
        transfer: any_transfer(random),
        events: Vec::new(),
    }
}

/// So many regions of the same byte, one after the other.
fn ladder(count: u32) -> Vec<Region> {
    let region = |address| Region {
        address,
        offset: 0,
        length: 1,
    };
    (0..count).map(region).collect()
}

/// One region in so many segments of one to three bytes, which all fit.
fn many(random: &mut Random, count: usize) -> Job {
    let size = random.range(1, 3);
    let length = count * size - random.range(0, size - 1);
    let address = random.range(0, 30);
    let region = Region {
        address: address as u32,
        offset: 0,
        length: length as u32,
    };
    Job {
        memory: address + length + random.range(0, 5),
        size,
        repeats: random.pick(&[9, 255]),
        body: random.bytes(length),
        regions: vec![region],
        transfer: any_transfer(random),
        events: Vec::new(),
    }
}

/// Up to 150 adjacent regions over the same bytes, in segments of one or two
/// bytes, with room for two letters to each.
fn many_shared(random: &mut Random) -> Job {
    let count = random.range(10, 150);
    let most = (INPUT_MOST - 60 - 24 * count) / (2 * count + 2);
    let length = random.range(300 / count + 1, most);
    let region = |place| Region {
        address: (place * length) as u32,
        offset: 0,
        length: length as u32,
    };
    Job {
        memory: count * length,
        size: random.range(1, 2),
        repeats: 255,
        body: random.bytes(length),
        regions: (0..count).map(region).collect(),
        transfer: any_transfer(random),
        events: Vec::new(),
    }
}

/// Segments about the longest, up to frames of 1,500 bytes.
fn large(random: &mut Random) -> Job {
    let any = random.range(1485, 3800);
    let length = random.pick(&[1490, 2980, any, any]);
    let region = Region {
        address: random.range(0, 4096 - length) as u32,
        offset: 0,
        length: length as u32,
    };
    Job {
        memory: 4096,
        size: random.pick(&[1490, 1490, 1489, 1480]),
        repeats: random.pick(&[0, 3, 255]),
        body: random.bytes(length),
        regions: vec![region],
        transfer: any_transfer(random),
        events: Vec::new(),
    }
}

fn load(job: Job, verdict: Option<u8>) -> Input {
    let text = job.text();
    let wanted = Wanted::Load(Box::new(job), verdict);
    Input { text, wanted }
}

pub fn clean(random: &mut Random) -> Input {
    let mut job = small(random);
    job.events = clean_events(job.segments());
    let more = random.range(0, 3);
    job.events.extend(letters(random, [1; 8], more));
    load(job, Some(FINISHED))
}

/// A clean load whose events end too early.
pub fn cut_short(random: &mut Random) -> Input {
    let mut job = small(random);
    job.events = clean_events(job.segments());
    job.events.truncate(random.range(0, job.events.len() - 1));
    load(job, Some(0))
}

pub fn no_events(random: &mut Random) -> Input {
    load(small(random), Some(0))
}

/// Frames are handed over once or twice, and none is lost.
pub fn doubled(random: &mut Random) -> Input {
    let mut job = small(random);
    job.events = b"t".to_vec();
    for _ in 0..job.segments() {
        let step: &[u8] = random.pick(&[&b"ht"[..], b"khtt", b"hut", b"kut", b"kkhttt"]);
        job.events.extend(step);
        if random.once_in(3) {
            job.events.push(b'n');
        }
    }
    load(job, None)
}

fn mixed(random: &mut Random, mut job: Job, mix: Mix, per_segment: usize) -> Input {
    let most = (30 + per_segment * job.segments()).min(job.room());
    let count = random.range(0, most);
    job.events = letters(random, mix, count);
    load(job, None)
}

pub fn lossy(random: &mut Random) -> Input {
    let job = small(random);
    let mix = random.pick(&[DOUBLED, LOSSY, LOSSY]);
    mixed(random, job, mix, 12)
}

pub fn silent(random: &mut Random) -> Input {
    let job = small(random);
    mixed(random, job, SILENT, 20)
}

pub fn any_letters(random: &mut Random) -> Input {
    let mut job = small(random);
    if random.once_in(2) {
        job.memory = random.range(1, job.memory);
    }
    let mix = [(); 8].map(|()| 1 + random.below(9));
    mixed(random, job, mix, 30)
}

/// A segment does not fit: the memory is too short, or the last region lies
/// at the top of the addresses.
pub fn rejected(random: &mut Random) -> Input {
    let mut job = small(random);
    if job.memory_end() > 1 && random.once_in(2) {
        job.memory = random.range(1, job.memory_end() - 1);
    } else if let Some(last) = job.regions.last_mut() {
        last.address = last.length.wrapping_neg();
    }
    job.events = clean_events(job.segments());
    let more = random.range(0, 10);
    job.events.extend(letters(random, [1; 8], more));
    load(job, Some(REJECTED))
}

/// As many timers as there are repeats, and one more, while a segment is on
/// its way; the frames or the replies are lost.
fn silence(random: &mut Random, repeats: usize) -> Vec<u8> {
    let mut events = b"m".repeat(repeats + 1);
    let lost: &[u8] = random.pick(&[&b"x"[..], b"hy", b"kx", b""]);
    let place = random.range(0, repeats);
    events.splice(place..place, lost.iter().copied());
    let more = random.range(0, 6);
    events.extend(letters(random, [1; 8], more));
    events
}

pub fn unconfirmed(random: &mut Random) -> Input {
    let mut job = small(random);
    job.events = clean_events(job.segments() - 1);
    job.events.extend(silence(random, job.repeats));
    load(job, Some(UNCONFIRMED))
}

pub fn given_up(random: &mut Random) -> Input {
    let mut job = small(random);
    while job.segments() < 2 {
        job = small(random);
    }
    job.events = clean_events(random.range(0, job.segments() - 2));
    job.events.extend(silence(random, job.repeats));
    load(job, Some(GIVEN_UP))
}

/// A load that runs still, is finished or rejected with its limit of repeats:
/// with a larger one the same is printed.
pub fn more_repeats(random: &mut Random) -> Input {
    loop {
        let mut job = small(random);
        job.memory = random.pick(&[job.memory, job.memory, job.memory_end() / 2 + 1]);
        job.repeats = random.range(0, 3);
        let mix = random.pick(&[DOUBLED, LOSSY, LOSSY, SILENT]);
        let count = random.range(0, 30 + 12 * job.segments());
        job.events = letters(random, mix, count);
        let printed = rehearse(&job.text());
        job.repeats = random.pick(&[job.repeats + 1, 9, 255]);
        if End::read(&printed).is_some_and(|end| end.verdict <= REJECTED) {
            let (text, wanted) = (job.text(), Wanted::Printed(printed));
            return Input { text, wanted };
        }
    }
}

/// Letters in runs, many as long as a queue or longer.
pub fn bursts(random: &mut Random) -> Input {
    let mut job = small(random);
    job.repeats = random.pick(&[17, 40, 255]);
    for _ in 0..random.range(4, 40) {
        let letter = letter(random, [5, 3, 1, 5, 3, 1, 3, 3]);
        let count = random.pick(&[1, 1, 2, 3, 14, 15, 16, 17, 30]);
        job.events.extend([letter].repeat(count));
    }
    load(job, None)
}

/// The machine's queue is filled with requests to about its last place; then
/// comes a reply, and all is handed over.
pub fn full_of_requests(random: &mut Random) -> Input {
    let mut job = small(random);
    job.events = b"n".repeat(random.range(13, 18));
    job.events
        .extend(random.pick(&[&b"uh"[..], b"uk", b"th", b"uhn", b"ukh"]));
    job.events.extend(b"t".repeat(random.range(14, 18)));
    job.events.extend(clean_events(random.range(0, 6)));
    load(job, None)
}

/// The host's queue is filled with a segment to about its last place; then
/// comes the next one, and all is handed over.
pub fn full_of_segments(random: &mut Random) -> Input {
    let mut job = small(random);
    job.repeats = 255;
    job.events = clean_events(random.range(0, job.segments() - 1));
    job.events.extend(b"m".repeat(random.range(13, 18)));
    job.events
        .extend(random.pick(&[&b"kt"[..], b"ku", b"ht", b"kty", b"kht"]));
    let count = random.range(14, 18);
    job.events.extend(b"h".repeat(count));
    job.events.extend(b"t".repeat(random.range(14, 18)));
    job.events.extend(clean_events(random.range(0, 6)));
    load(job, None)
}

/// More than 257 segments and about it, every frame handed over once.
pub fn long_clean(random: &mut Random) -> Input {
    let any = random.range(257, 900);
    let count = random.pick(&[256, 257, 258, any, any]);
    let mut job = many(random, count);
    if random.once_in(8) {
        job = many_shared(random);
    }
    job.events = clean_events(job.segments());
    load(job, Some(FINISHED))
}

/// As many letters as there is room for.
pub fn long_mixed(random: &mut Random) -> Input {
    let count = random.range(200, 500);
    let mut job = match random.below(4) {
        0 => many_shared(random),
        _ => many(random, count),
    };
    let mix = random.pick(&[DOUBLED, LOSSY, LOSSY]);
    job.events = letters(random, mix, job.room());
    load(job, None)
}

pub fn large_frames(random: &mut Random) -> Input {
    let mut job = large(random);
    if random.once_in(3) {
        job.memory = random.range(1, 4096);
    }
    let mix = random.pick(&[DOUBLED, LOSSY, SILENT]);
    let count = random.range(0, 60);
    job.events = clean_events(random.range(0, 3));
    job.events.extend(letters(random, mix, count));
    load(job, None)
}

/// From 60 regions to as many as an input has room for: each takes 24 digits.
pub fn many_regions(random: &mut Random) -> Input {
    let any = random.range(60, 339);
    let count = random.pick(&[64, 65, any, any, any, 339]);
    let mut job = small(random);
    job.body.truncate(1);
    job.size = random.pick(&[1, 1, job.size]);
    job.regions = ladder(count as u32);
    job.memory = random.range(count - 5, count + 6);
    let room = job.room();
    job.events = clean_events(random.range(0, count + 6));
    job.events.truncate(room);
    load(job, None)
}

/// Exactly 8,192 bytes, by letters or by unused bytes of the image.
pub fn longest(random: &mut Random) -> Input {
    load(filled(random), None)
}

fn filled(random: &mut Random) -> Job {
    let mut job = small(random);
    job.events = clean_events(job.segments());
    if random.once_in(2) {
        let unused = job.room() / 2;
        job.body.extend(random.bytes(unused));
    }
    let count = job.room();
    job.events.extend(letters(random, LOSSY, count));
    job
}

/// One letter more than there may be, or many.
pub fn too_long(random: &mut Random) -> Input {
    let mut job = filled(random);
    let more = random.pick(&[1, 1, 1, 2, 100, 8191, 8192, 8193]);
    job.events.extend(letters(random, LOSSY, more));
    Input::bad(job.text(), 10)
}

/// Up to eight letters of at most three kinds: events on empty
/// queues, and frames kept or dropped at the start.
pub fn few_letters(random: &mut Random) -> Input {
    let mut job = small(random);
    let some = [(); 3].map(|()| random.pick(LETTERS));
    job.events = (0..random.range(1, 8))
        .map(|_| random.pick(&some))
        .collect();
    load(job, None)
}
