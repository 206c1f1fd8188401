//! Frames: their fields, the reader and the writers (PROTOCOL 2, "Messages" and
//! "Refused"; document 3.0.0, 5.1 and 5.2).

use std::ops::RangeInclusive;

use crate::cursor::{Cursor, Pen};
use crate::entries;
use crate::refusal::{OUTSIDE_LIST, Refusal, SMALL_BUFFER, TOO_LONG, TOO_SHORT, UNKNOWN_CODE};
use crate::version::Version;

/// No frame has more bytes.
pub const LONGEST: usize = 1500;

/// A frame's fields, in their order. A reader gives only what the protocol
/// allows; a frame made by hand may break its rules, and `write` refuses it.
#[derive(Clone, Copy, Debug, PartialEq, Eq)]
pub enum Frame<'a> {
    /// Code 0, memory load with transfer.
    LoadTransfer {
        number: u8,
        address: u32,
        data: &'a [u8],
        transfer: u32,
    },
    /// Code 1.
    DumpComplete,
    /// Code 2, memory load.
    Load {
        number: u8,
        address: u32,
        data: &'a [u8],
    },
    /// Code 3, assistance volunteer.
    Volunteer,
    /// Code 4, request memory dump.
    RequestDump { address: u32, count: u16 },
    /// Code 8. The software id is its form and as many bytes as that says.
    RequestProgram {
        device: u8,
        format: u8,
        program: u8,
        form: u8,
        id: &'a [u8],
        processor: u8,
        info: &'a [u8],
    },
    /// Code 10, request memory load.
    RequestLoad { number: u8, error: u8 },
    /// Code 12.
    RequestDumpService {
        device: u8,
        format: u8,
        memory_size: u32,
        compatibility: u8,
        info: &'a [u8],
    },
    /// Code 14, memory dump data.
    DumpData { address: u32, data: &'a [u8] },
    /// Code 20, parameter load with transfer; the entries without end mark.
    Parameters {
        number: u8,
        entries: &'a [u8],
        transfer: u32,
    },
    /// Code 24, loop data.
    Loop { receipt: u16, data: &'a [u8] },
    /// Code 26, looped data.
    Looped { receipt: u16, data: &'a [u8] },
}

/// Reads a frame. The order is: empty, code, least length, excess, then the
/// bytes in turn. The version matters to code 20 alone.
pub fn read(version: Version, bytes: &[u8]) -> Result<Frame<'_>, Refusal> {
    let (&code, fields) = bytes.split_first().ok_or(TOO_SHORT)?;
    let lengths = lengths(code).ok_or(UNKNOWN_CODE)?;
    if bytes.len() < *lengths.start() {
        return Err(TOO_SHORT);
    }
    if bytes.len() > *lengths.end() {
        return Err(TOO_LONG);
    }
    read_fields(version, code, Cursor::new(fields))
}

/// The lengths that a frame of this code may have, if it is listed.
fn lengths(code: u8) -> Option<RangeInclusive<usize>> {
    match code {
        0 => Some(10..=LONGEST),
        1 | 3 => Some(1..=1),
        2 => Some(6..=LONGEST),
        4 => Some(7..=7),
        8 => Some(6..=LONGEST),
        10 => Some(3..=3),
        12 => Some(8..=LONGEST),
        14 => Some(5..=LONGEST),
        20 => Some(7..=LONGEST),
        24 | 26 => Some(3..=LONGEST),
        _ => None,
    }
}

/// The fields behind the code, in turn.
fn read_fields(version: Version, code: u8, mut from: Cursor) -> Result<Frame, Refusal> {
    Ok(match code {
        0 => Frame::LoadTransfer {
            number: from.u8()?,
            address: from.u32()?,
            data: from.take_all_but(4)?,
            transfer: from.u32()?,
        },
        1 => Frame::DumpComplete,
        2 => Frame::Load {
            number: from.u8()?,
            address: from.u32()?,
            data: from.take_all(),
        },
        3 => Frame::Volunteer,
        4 => Frame::RequestDump {
            address: from.u32()?,
            count: from.u16()?,
        },
        8 => return read_request_program(from),
        10 => Frame::RequestLoad {
            number: from.u8()?,
            error: from.u8()?,
        },
        12 => Frame::RequestDumpService {
            device: from.u8()?,
            format: from.u8()?,
            memory_size: from.u32()?,
            compatibility: from.u8()?,
            info: from.take_all(),
        },
        14 => Frame::DumpData {
            address: from.u32()?,
            data: from.take_all(),
        },
        20 => return read_parameters(version, from),
        24 => Frame::Loop {
            receipt: from.u16()?,
            data: from.take_all(),
        },
        26 => Frame::Looped {
            receipt: from.u16()?,
            data: from.take_all(),
        },
        _ => return Err(UNKNOWN_CODE),
    })
}

fn read_request_program(mut from: Cursor) -> Result<Frame, Refusal> {
    let device = from.u8()?;
    let format = from.u8()?;
    let program = from.u8()?;
    if !is_program(program) {
        return Err(OUTSIDE_LIST);
    }
    let form = from.u8()?;
    let id = from.take(id_length(form).ok_or(OUTSIDE_LIST)?)?;
    let processor = from.u8()?;
    let info = from.take_all();
    Ok(Frame::RequestProgram {
        device,
        format,
        program,
        form,
        id,
        processor,
        info,
    })
}

fn read_parameters(version: Version, mut from: Cursor) -> Result<Frame, Refusal> {
    let number = from.u8()?;
    let entries = entries::take(version, &mut from)?;
    let transfer = from.u32()?;
    from.finish()?;
    Ok(Frame::Parameters {
        number,
        entries,
        transfer,
    })
}

/// 0 secondary, 1 tertiary, 2 operating system.
fn is_program(program: u8) -> bool {
    program <= 2
}

/// How many id bytes follow a software form, if it is listed: none for 0 (no
/// id), 254 (maintenance system) and 255 (standard system).
fn id_length(form: u8) -> Option<usize> {
    match form {
        0 | 254 | 255 => Some(0),
        1..=16 => Some(form.into()),
        17..=253 => None,
    }
}

impl Frame<'_> {
    /// Writes the frame to the buffer's start and gives its length. The order
    /// is: a field outside its list, too long, buffer too short.
    pub fn write(&self, version: Version, buffer: &mut [u8]) -> Result<usize, Refusal> {
        if !self.is_good(version) {
            return Err(OUTSIDE_LIST);
        }
        self.write_good(buffer)
    }

    /// The same for a frame whose fields are all inside their lists.
    pub(crate) fn write_good(&self, buffer: &mut [u8]) -> Result<usize, Refusal> {
        let length = self.length();
        if length > LONGEST {
            return Err(TOO_LONG);
        }
        let place = buffer.get_mut(..length).ok_or(SMALL_BUFFER)?;
        self.write_fields(&mut Pen::new(place));
        Ok(length)
    }

    pub fn code(&self) -> u8 {
        match self {
            Frame::LoadTransfer { .. } => 0,
            Frame::DumpComplete => 1,
            Frame::Load { .. } => 2,
            Frame::Volunteer => 3,
            Frame::RequestDump { .. } => 4,
            Frame::RequestProgram { .. } => 8,
            Frame::RequestLoad { .. } => 10,
            Frame::RequestDumpService { .. } => 12,
            Frame::DumpData { .. } => 14,
            Frame::Parameters { .. } => 20,
            Frame::Loop { .. } => 24,
            Frame::Looped { .. } => 26,
        }
    }

    /// The frame's length in bytes.
    pub fn length(&self) -> usize {
        match self {
            Frame::DumpComplete | Frame::Volunteer => 1,
            Frame::RequestLoad { .. } => 3,
            Frame::RequestDump { .. } => 7,
            Frame::LoadTransfer { data, .. } => 10 + data.len(),
            Frame::Load { data, .. } => 6 + data.len(),
            Frame::RequestProgram { id, info, .. } => 6 + id.len() + info.len(),
            Frame::RequestDumpService { info, .. } => 8 + info.len(),
            Frame::DumpData { data, .. } => 5 + data.len(),
            Frame::Parameters { entries, .. } => 7 + entries.len(),
            Frame::Loop { data, .. } | Frame::Looped { data, .. } => 3 + data.len(),
        }
    }

    /// Whether every field is inside its list.
    fn is_good(&self, version: Version) -> bool {
        match *self {
            Frame::RequestProgram {
                program, form, id, ..
            } => is_program(program) && id_length(form) == Some(id.len()),
            Frame::Parameters { entries, .. } => entries::are_good(version, entries),
            _ => true,
        }
    }

    fn write_fields(&self, to: &mut Pen) {
        to.u8(self.code());
        match *self {
            Frame::DumpComplete | Frame::Volunteer => to,
            Frame::LoadTransfer {
                number,
                address,
                data,
                transfer,
            } => to.u8(number).u32(address).bytes(data).u32(transfer),
            Frame::Load {
                number,
                address,
                data,
            } => to.u8(number).u32(address).bytes(data),
            Frame::RequestDump { address, count } => to.u32(address).u16(count),
            Frame::RequestProgram {
                device,
                format,
                program,
                form,
                id,
                processor,
                info,
            } => to
                .u8(device)
                .u8(format)
                .u8(program)
                .u8(form)
                .bytes(id)
                .u8(processor)
                .bytes(info),
            Frame::RequestLoad { number, error } => to.u8(number).u8(error),
            Frame::RequestDumpService {
                device,
                format,
                memory_size,
                compatibility,
                info,
            } => to
                .u8(device)
                .u8(format)
                .u32(memory_size)
                .u8(compatibility)
                .bytes(info),
            Frame::DumpData { address, data } => to.u32(address).bytes(data),
            Frame::Parameters {
                number,
                entries,
                transfer,
            } => to.u8(number).bytes(entries).u8(0).u32(transfer),
            Frame::Loop { receipt, data } | Frame::Looped { receipt, data } => {
                to.u16(receipt).bytes(data)
            }
        };
    }
}
