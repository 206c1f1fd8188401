//! The entries of code 20 (PROTOCOL 2, "Messages"; document 3.0.0, 5.1.8).
//! They are judged byte by byte: type, length, then the value. A machine keeps
//! what they say (PROTOCOL 4, "Machine end").

use std::ops::RangeInclusive;

use crate::cursor::Cursor;
use crate::refusal::{OUTSIDE_LIST, Refusal};
use crate::version::Version;

/// Ends the entries in a frame; no entry has this type.
const END_MARK: u8 = 0;

const TARGET_NAME: u8 = 1;
const TARGET_ADDRESS: u8 = 2;
const HOST_NAME: u8 = 3;
const HOST_ADDRESS: u8 = 4;
const HOST_TIME: u8 = 5;

/// No value is longer.
pub const VALUE_MOST: usize = 16;

/// Least and most of a time's century, year, month, day, hour, minute, second
/// and hundredths. The offset's hours and minutes follow, with signs.
const TIME_BOUNDS: [(u8, u8); 8] = [
    (0, 127),
    (0, 100),
    (1, 12),
    (1, 31),
    (0, 23),
    (0, 59),
    (0, 59),
    (0, 99),
];

/// A value that a machine keeps: its length, its bytes, then zeros.
#[derive(Clone, Copy, Debug, Default, PartialEq, Eq)]
pub struct Value {
    pub length: u8,
    pub bytes: [u8; VALUE_MOST],
}

/// What a machine keeps of entries: of each type the last value, and nothing,
/// length 0, for a type that is absent.
#[derive(Clone, Copy, Debug, Default, PartialEq, Eq)]
pub struct Kept {
    pub target_name: Value,
    pub target_address: Value,
    pub host_name: Value,
    pub host_address: Value,
    pub host_time: Value,
}

impl Value {
    fn new(value: &[u8]) -> Value {
        let mut bytes = [0; VALUE_MOST];
        bytes[..value.len()].copy_from_slice(value);
        Value {
            length: value.len() as u8,
            bytes,
        }
    }
}

impl Kept {
    /// What good entries say.
    pub fn of(entries: &[u8]) -> Kept {
        let mut kept = Kept::default();
        let mut rest = entries;
        while let [kind, length, behind @ ..] = rest {
            let (value, next) = behind.split_at(usize::from(*length));
            kept.set(*kind, Value::new(value));
            rest = next;
        }
        kept
    }

    fn set(&mut self, kind: u8, value: Value) {
        let place = match kind {
            TARGET_NAME => &mut self.target_name,
            TARGET_ADDRESS => &mut self.target_address,
            HOST_NAME => &mut self.host_name,
            HOST_ADDRESS => &mut self.host_address,
            _ => &mut self.host_time,
        };
        *place = value;
    }
}

/// Takes the entries and their end mark, and gives the entries without it.
/// The walk knows nothing of the transfer address behind: an entry may
/// swallow it, and then the bytes run out.
pub(crate) fn take<'a>(version: Version, cursor: &mut Cursor<'a>) -> Result<&'a [u8], Refusal> {
    let all = cursor.peek();
    loop {
        let before = cursor.peek().len();
        let kind = cursor.u8()?;
        if kind == END_MARK {
            return Ok(&all[..all.len() - before]);
        }
        entry(version, kind, cursor)?;
    }
}

/// Whether a string is whole entries, with no end mark among them.
pub fn are_good(version: Version, string: &[u8]) -> bool {
    let mut cursor = Cursor::new(string);
    while !cursor.is_empty() {
        let whole = cursor
            .u8()
            .and_then(|kind| entry(version, kind, &mut cursor));
        if whole.is_err() {
            return false;
        }
    }
    true
}

/// The lengths that a value of this type may have, if the version lists it.
fn lengths(version: Version, kind: u8) -> Option<RangeInclusive<u8>> {
    match (kind, version) {
        (TARGET_NAME | HOST_NAME, Version::V2_1) => Some(0..=6),
        (TARGET_NAME | HOST_NAME, Version::V3_0) => Some(0..=16),
        (TARGET_ADDRESS | HOST_ADDRESS, Version::V2_1) => Some(0..=2),
        (TARGET_ADDRESS | HOST_ADDRESS, Version::V3_0) => Some(0..=6),
        (HOST_TIME, Version::V3_0) => Some(10..=10),
        _ => None,
    }
}

/// The rest of an entry whose type has been read. A bad field of a time that
/// is there is found before the end of one that is cut short.
fn entry(version: Version, kind: u8, cursor: &mut Cursor) -> Result<(), Refusal> {
    let lengths = lengths(version, kind).ok_or(OUTSIDE_LIST)?;
    let length = cursor.u8()?;
    if !lengths.contains(&length) {
        return Err(OUTSIDE_LIST);
    }
    let present = cursor.peek().len().min(length.into());
    if kind == HOST_TIME && !time_is_good(&cursor.peek()[..present]) {
        return Err(OUTSIDE_LIST);
    }
    cursor.take(length.into()).map(|_| ())
}

/// Whether those fields of a time that are there are good. There is no
/// calendar: 31 February passes.
fn time_is_good(fields: &[u8]) -> bool {
    let (unsigned, offset) = fields.split_at(fields.len().min(TIME_BOUNDS.len()));
    let in_bounds = |(&field, &(least, most)): (&u8, &(u8, u8))| least <= field && field <= most;
    unsigned.iter().zip(&TIME_BOUNDS).all(in_bounds) && offset_is_good(offset)
}

/// The offset's hours and minutes, as far as they are there. The minutes have
/// not the opposite sign to the hours; zero agrees with either.
fn offset_is_good(offset: &[u8]) -> bool {
    let hours = offset.first().map_or(0, |&byte| signed(byte));
    let minutes = offset.get(1).map_or(0, |&byte| signed(byte));
    let agree = hours.signum() * minutes.signum() >= 0;
    (-12..=13).contains(&hours) && (-59..=59).contains(&minutes) && agree
}

/// Two's complement.
fn signed(byte: u8) -> i8 {
    i8::from_le_bytes([byte])
}
