//! Makes frames that the protocol accepts, byte by byte, with neither of the two
//! implementations.

use crate::random::Random;
use crate::tally::CODES;

/// The numbers of versions 2.1 and 3.0.0.
pub const V2_1: u8 = 21;
pub const V3_0: u8 = 30;
pub const VERSIONS: [u8; 2] = [V2_1, V3_0];
/// Numbers of no version.
pub const NO_VERSIONS: [u8; 7] = [0, 1, 20, 22, 29, 31, 255];

/// The greatest lengths of a version's names and addresses.
fn most(version: u8) -> (usize, usize) {
    match version {
        V2_1 => (6, 2),
        _ => (16, 6),
    }
}

/// Types 1 to 4 and their values' greatest lengths under a version.
pub fn short_types(version: u8) -> [(u8, usize); 4] {
    let (name, address) = most(version);
    [(1, name), (2, address), (3, name), (4, address)]
}

/// Whether an entry of this type may have this length under a version.
pub fn entry_fits(version: u8, kind: u8, length: usize) -> bool {
    let (name, address) = most(version);
    match kind {
        1 | 3 => length <= name,
        2 | 4 => length <= address,
        5 => version == V3_0 && length == 10,
        _ => false,
    }
}

/// A frame of a listed code.
pub fn frame(random: &mut Random, version: u8, code: u8) -> Vec<u8> {
    match code {
        8 => request_program(random),
        20 => {
            let room = if random.once_in(8) { 1493 } else { 80 };
            let entries = entries(random, version, room).concat();
            parameters(random, &entries)
        }
        _ => {
            let length = frame_length(random, code);
            let mut frame = random.bytes(length);
            frame[0] = code;
            frame
        }
    }
}

/// A length that the code may have: often the least or the most.
fn frame_length(random: &mut Random, code: u8) -> usize {
    let listed = CODES.iter().find(|listed| listed.code == code);
    let (least, most) = listed.map_or((1, 1), |listed| (listed.least, listed.most));
    match random.below(10) {
        0 => least,
        1 => most,
        2 => random.range(least, most),
        3 => random.range(least.max(most.saturating_sub(2)), most),
        _ => random.range(least, most.min(least + 40)),
    }
}

fn request_program(random: &mut Random) -> Vec<u8> {
    let form = random.pick(&[0, 1, 2, 7, 15, 16, 254, 255]);
    let id = if form <= 16 { usize::from(form) } else { 0 };
    let info = match random.below(8) {
        0 => 1494 - id,
        1 => random.range(0, 1494 - id),
        _ => random.range(0, 30),
    };
    let mut frame = vec![8, random.u8(), random.u8(), random.range(0, 2) as u8, form];
    frame.extend(random.bytes(id));
    frame.push(random.u8());
    frame.extend(random.bytes(info));
    frame
}

/// A code 20 frame around a string of entries.
pub fn parameters(random: &mut Random, entries: &[u8]) -> Vec<u8> {
    let mut frame = vec![20, random.u8()];
    frame.extend_from_slice(entries);
    frame.push(0);
    frame.extend(random.bytes(4));
    frame
}

/// Some entries that have at most `room` bytes together, at times all of it.
pub fn entries(random: &mut Random, version: u8, room: usize) -> Vec<Vec<u8>> {
    let count = random.pick(&[0, 1, 2, 3, 6, 2000]);
    let mut entries = Vec::new();
    let mut left = room;
    while entries.len() < count {
        let mut next = entry(random, version);
        if next.len() > left {
            if left < 2 {
                break;
            }
            let length = (left - 2).min(most(version).0);
            next = name(random, length);
        }
        left -= next.len();
        entries.push(next);
    }
    entries
}

/// Names that have exactly `length` bytes together; not for a length of 1.
pub fn filling(random: &mut Random, version: u8, length: usize) -> Vec<Vec<u8>> {
    let longest = 2 + most(version).0;
    let mut entries = Vec::new();
    let mut left = length;
    while left > 0 {
        let next = match left == longest + 1 {
            true => longest - 1,
            false => left.min(longest),
        };
        entries.push(name(random, next - 2));
        left -= next;
    }
    entries
}

/// One entry of any type that the version has.
pub fn entry(random: &mut Random, version: u8) -> Vec<u8> {
    let (longest, address) = most(version);
    match random.below(3) {
        0 if version == V3_0 => with_head(5, time(random).to_vec()),
        1 => {
            let length = random.range(0, address);
            let kind = random.pick(&[2, 4]);
            with_head(kind, random.bytes(length))
        }
        _ => {
            let length = random.pick(&[0, 1, longest / 2, longest - 1, longest]);
            name(random, length)
        }
    }
}

fn name(random: &mut Random, length: usize) -> Vec<u8> {
    let kind = random.pick(&[1, 3]);
    with_head(kind, random.bytes(length))
}

/// An entry: type, length, value.
pub fn with_head(kind: u8, value: Vec<u8>) -> Vec<u8> {
    let mut entry = vec![kind, value.len() as u8];
    entry.extend(value);
    entry
}

/// Least and most of a time's first eight fields.
pub const TIME_BOUNDS: [(u8, u8); 8] = [
    (0, 127),
    (0, 100),
    (1, 12),
    (1, 31),
    (0, 23),
    (0, 59),
    (0, 59),
    (0, 99),
];

/// A host time, its fields often at their bounds.
pub fn time(random: &mut Random) -> [u8; 10] {
    let mut time = [0; 10];
    for (field, (least, most)) in time.iter_mut().zip(TIME_BOUNDS) {
        let any = random.range(least.into(), most.into()) as u8;
        *field = random.pick(&[least, most, any, any]);
    }
    let (hours, minutes) = offset(random);
    time[8] = hours as u8;
    time[9] = minutes as u8;
    time
}

/// Offset hours and minutes that agree in sign.
fn offset(random: &mut Random) -> (i8, i8) {
    let west = (-(random.range(0, 12) as i8), -(random.range(0, 59) as i8));
    let east = (random.range(0, 13) as i8, random.range(0, 59) as i8);
    random.pick(&[west, east])
}

/// Whether the protocol allows this offset: both in range and, unless one is 0,
/// of one sign.
pub fn offset_is_good(hours: i8, minutes: i8) -> bool {
    let in_range = hours >= -12 && hours <= 13 && minutes >= -59 && minutes <= 59;
    let opposite = (hours < 0 && minutes > 0) || (hours > 0 && minutes < 0);
    in_range && !opposite
}
