//! Inputs of the right form with a bad image.

use crate::file::{Region, build};
use crate::inputs::Input;
use crate::job::Job;
use crate::loads::small;
use crate::random::Random;

// Places in the trailer.
const DIRECTORY_OFFSET: usize = 0;
const COUNT: usize = 4;
const FILE_LENGTH: usize = 12;

/// A job with some events, which must not be seen.
fn with_events(random: &mut Random) -> Job {
    let mut job = small(random);
    job.events = random.pick(&[&b""[..], b"ththt", b"nm"]).to_vec();
    job
}

fn refused(job: &Job, file: &[u8], refusal: u8) -> Input {
    Input::bad(job.with_file(file).text(), refusal)
}

fn trailer(file: &[u8]) -> usize {
    file.len() - 16
}

fn set_u32(file: &mut [u8], at: usize, number: u32) {
    file[at..at + 4].copy_from_slice(&number.to_le_bytes());
}

fn mend_length(file: &mut [u8]) {
    let at = trailer(file) + FILE_LENGTH;
    set_u32(file, at, file.len() as u32);
}

/// No bytes, too few, or a wrong length field.
pub fn bad_file(random: &mut Random) -> Input {
    let job = with_events(random);
    let mut file = job.file();
    let end = trailer(&file);
    match random.below(4) {
        0 => file.clear(),
        1 => file.truncate(random.range(0, 15)),
        way => {
            let right = file.len() as u32;
            let any = random.u32() | 0x100_0000;
            let wrong = random.pick(&[right + 1, right - 1, 0, right << 16, right + 65536, any]);
            set_u32(&mut file, end + FILE_LENGTH, wrong);
            // The directory may be wrong too, which comes later.
            if way == 2 {
                set_u32(&mut file, end + COUNT, random.pick(&[0, 65536, u32::MAX]));
            }
        }
    }
    refused(&job, &file, 5)
}

/// A count or a directory offset that is wrong, or right only in 16 or 32 bits.
pub fn bad_directory(random: &mut Random) -> Input {
    let job = with_events(random);
    let mut file = job.file();
    let end = trailer(&file);
    let offset = job.body.len() as u32;
    let count = job.regions.len() as u32;
    match random.below(6) {
        0 => {
            let wrong = [
                offset + 1,
                offset - 1,
                offset + 12,
                u32::MAX,
                offset + 65536,
            ];
            set_u32(&mut file, end + DIRECTORY_OFFSET, random.pick(&wrong));
        }
        1 => file[end + COUNT] = random.other_than(file[end + COUNT]),
        2 => file[end + COUNT + random.range(1, 3)] = random.range(1, 255) as u8,
        3 => {
            let quarter = count + (1 << 30);
            let wrong = [count << 16, quarter, 100_000, 100_001, u32::MAX];
            set_u32(&mut file, end + COUNT, random.pick(&wrong));
        }
        4 => file = build(&job.body, &[], job.transfer),
        _ => file = beyond_32_bits(random),
    }
    refused(&job, &file, 6)
}

/// A short file whose directory has its place only in 32 bits.
fn beyond_32_bits(random: &mut Random) -> Vec<u8> {
    let length = random.range(16, 60);
    let mut file = random.bytes(length);
    let end = trailer(&file);
    let few = random.range(4, 64) as u32;
    let count = random.pick(&[few, few, 65, 65_536, 100_000, 357_913_942, u32::MAX]);
    let offset = (end as u32).wrapping_sub(count.wrapping_mul(12));
    set_u32(&mut file, end + DIRECTORY_OFFSET, offset);
    set_u32(&mut file, end + COUNT, count);
    mend_length(&mut file);
    file
}

/// An entry that breaks its own rule.
pub fn bad_entry(random: &mut Random) -> Input {
    let mut job = with_events(random);
    let body = job.body.len() as u32;
    let place = random.range(0, job.regions.len() - 1);
    let region = &mut job.regions[place];
    let length = region.length;
    match random.below(5) {
        0 => region.length = 0,
        1 => region.offset = body - length + 1,
        2 => region.offset = length.wrapping_neg(),
        3 => region.length = u32::MAX,
        _ => {
            region.length = body;
            region.offset = 0;
            region.address = (body - 1).wrapping_neg();
            if body == 1 {
                region.length = 0;
            }
        }
    }
    refused(&job, &job.file(), 7)
}

/// An entry that begins before the end of the one before.
pub fn bad_order(random: &mut Random) -> Input {
    let mut job = with_events(random);
    let first = job.regions[0];
    let early = (first.end() - 1) as u32;
    let address = random.pick(&[first.address, early, early]);
    job.regions.insert(1, Region { address, ..first });
    let mut wanted = 8;
    match random.below(4) {
        // Its own rule comes before the order.
        0 => {
            job.regions[1].length = 0;
            wanted = 7;
        }
        // An entry's order comes before the next one's own rule.
        1 => job.regions.push(Region { length: 0, ..first }),
        _ => {}
    }
    refused(&job, &job.file(), wanted)
}

/// A byte of the file changed, most often of its trailer or directory.
pub fn damaged(random: &mut Random) -> Input {
    let job = with_events(random);
    let mut file = job.file();
    let tail = file.len() - job.body.len();
    let reach = random.pick(&[16, tail, tail, file.len()]);
    let at = file.len() - random.range(1, reach);
    file[at] = random.other_than(file[at]);
    Input::agreed(job.with_file(&file).text())
}

/// Bytes taken or added at either end, the length field left or mended.
pub fn cut_or_extended(random: &mut Random) -> Input {
    let job = with_events(random);
    let file = job.file();
    let count = random.pick(&[1, 1, 2, 12, 16]).min(file.len() - 16);
    let more = random.bytes(count);
    let mut file = match random.below(4) {
        0 => file[count..].to_vec(),
        1 => file[..file.len() - count].to_vec(),
        2 => [&more[..], &file].concat(),
        _ => [&file[..], &more].concat(),
    };
    if random.once_in(2) {
        mend_length(&mut file);
    }
    Input::agreed(job.with_file(&file).text())
}
