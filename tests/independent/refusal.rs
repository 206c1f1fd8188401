//! The numbers of PROTOCOL 7, "Refusals".

/// Why something was refused: one of the numbers below.
pub type Refusal = u8;

/// The frame is empty or ends too early.
pub const TOO_SHORT: Refusal = 1;
/// Bytes are left over, or the frame has more than 1,500; or it would have
/// with the parameter string of a load.
pub const TOO_LONG: Refusal = 2;
/// The code is not listed.
pub const UNKNOWN_CODE: Refusal = 3;
/// A program type, software form, entry type, entry length or time field is
/// outside its list.
pub const OUTSIDE_LIST: Refusal = 4;
/// The file is under 16 or above 16,777,216 bytes, or its length field is
/// wrong.
pub const BAD_FILE: Refusal = 5;
/// The entry count or the directory offset is wrong.
pub const BAD_DIRECTORY: Refusal = 6;
/// A directory entry breaks its own rule.
pub const BAD_REGION: Refusal = 7;
/// A region begins before the end of the one before.
pub const OUT_OF_ORDER: Refusal = 8;
/// The reply or output buffer is too short.
pub const SMALL_BUFFER: Refusal = 9;
/// A setting, version, memory length, dump range, dump buffer or loop data is
/// outside its range.
pub const BAD_SETTING: Refusal = 10;
/// A record or state that cannot be.
pub const BAD_RECORD: Refusal = 10;
/// An input of the rehearsal is malformed or too long.
pub const MALFORMED: Refusal = 10;
/// Version 2.1 on a memory of under 64 bytes.
pub const SMALL_MEMORY: Refusal = 11;
/// A load that may begin again has more than 256 frames.
pub const TOO_MANY: Refusal = 12;
