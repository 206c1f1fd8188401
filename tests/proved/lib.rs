//! The proved library, libmop.a: the header's calls, and safe functions over
//! them for the comparison.
//!
//! The declarations mirror include/mop.h. `make layout` compares the structs'
//! layout with the header's; the rest is left to the eye and the comparison. A
//! slice goes over as a pointer and a length.

mod ends;
mod layout;
mod looping;
pub use ends::*;
pub use layout::layout;
pub use looping::*;

use std::ptr;
use std::sync::atomic::{AtomicBool, Ordering};

/// `mop_fields`: those fields that the code does not have are 0.
#[repr(C)]
#[derive(Clone, Copy, Debug, Default, PartialEq, Eq)]
pub struct Fields {
    pub data_at: usize,
    pub data_length: usize,
    pub id_at: usize,
    pub id_length: usize,
    pub address: u32,
    pub transfer: u32,
    pub memory_size: u32,
    pub count: u16,
    pub receipt: u16,
    pub refusal: u8,
    pub code: u8,
    pub number: u8,
    pub error: u8,
    pub device: u8,
    pub format: u8,
    pub program: u8,
    pub form: u8,
    pub processor: u8,
    pub compatibility: u8,
}

/// `mop_written`
#[repr(C)]
#[derive(Clone, Copy, Debug, Default, PartialEq, Eq)]
pub struct Written {
    pub length: usize,
    pub refusal: u8,
}

/// `mop_image`
#[repr(C)]
#[derive(Clone, Copy, Debug, Default, PartialEq, Eq)]
pub struct Image {
    pub segments: u64,
    pub transfer: u32,
    pub regions: u32,
    pub refusal: u8,
}

/// `mop_segment`
#[repr(C)]
#[derive(Clone, Copy, Debug, Default, PartialEq, Eq)]
pub struct Segment {
    pub at: usize,
    pub length: usize,
    pub address: u32,
    pub last: u8,
    pub refusal: u8,
}

#[link(name = "mop", kind = "static")]
unsafe extern "C" {
    pub fn mop_read(version: u8, frame: *const u8, frame_length: usize) -> Fields;
    pub fn mop_write_load_transfer(
        number: u8,
        address: u32,
        data: *const u8,
        data_length: usize,
        transfer: u32,
        out: *mut u8,
        out_length: usize,
    ) -> Written;
    pub fn mop_write_load(
        number: u8,
        address: u32,
        data: *const u8,
        data_length: usize,
        out: *mut u8,
        out_length: usize,
    ) -> Written;
    pub fn mop_write_request_program(
        device: u8,
        format: u8,
        program: u8,
        form: u8,
        id: *const u8,
        id_length: usize,
        processor: u8,
        info: *const u8,
        info_length: usize,
        out: *mut u8,
        out_length: usize,
    ) -> Written;
    pub fn mop_write_request_load(
        number: u8,
        error: u8,
        out: *mut u8,
        out_length: usize,
    ) -> Written;
    pub fn mop_write_request_dump(
        address: u32,
        count: u16,
        out: *mut u8,
        out_length: usize,
    ) -> Written;
    pub fn mop_write_request_dump_service(
        device: u8,
        format: u8,
        memory_size: u32,
        compatibility: u8,
        info: *const u8,
        info_length: usize,
        out: *mut u8,
        out_length: usize,
    ) -> Written;
    pub fn mop_write_dump_data(
        address: u32,
        data: *const u8,
        data_length: usize,
        out: *mut u8,
        out_length: usize,
    ) -> Written;
    pub fn mop_write_dump_complete(out: *mut u8, out_length: usize) -> Written;
    pub fn mop_write_volunteer(out: *mut u8, out_length: usize) -> Written;
    pub fn mop_write_parameters(
        version: u8,
        number: u8,
        entries: *const u8,
        entries_length: usize,
        transfer: u32,
        out: *mut u8,
        out_length: usize,
    ) -> Written;
    pub fn mop_write_loop(
        receipt: u16,
        data: *const u8,
        data_length: usize,
        out: *mut u8,
        out_length: usize,
    ) -> Written;
    pub fn mop_write_looped(
        receipt: u16,
        data: *const u8,
        data_length: usize,
        out: *mut u8,
        out_length: usize,
    ) -> Written;
    pub fn mop_image_check(file: *const u8, file_length: usize, segment_size: u32) -> Image;
    pub fn mop_image_segment(
        file: *const u8,
        file_length: usize,
        segment_size: u32,
        index: u64,
    ) -> Segment;
}

/// An empty slice goes over as null every other time, since the header
/// allows both.
fn null_this_time() -> bool {
    static NULL: AtomicBool = AtomicBool::new(false);
    NULL.fetch_xor(true, Ordering::Relaxed)
}

fn input(bytes: &[u8]) -> *const u8 {
    if bytes.is_empty() && null_this_time() {
        ptr::null()
    } else {
        bytes.as_ptr()
    }
}

fn output(bytes: &mut [u8]) -> *mut u8 {
    if bytes.is_empty() && null_this_time() {
        ptr::null_mut()
    } else {
        bytes.as_mut_ptr()
    }
}

// In every call below the pointers are good for the lengths beside them, and
// an output buffer, being borrowed for writing, overlaps no input.

pub fn read(version: u8, frame: &[u8]) -> Fields {
    unsafe { mop_read(version, input(frame), frame.len()) }
}

pub fn write_load_transfer(
    number: u8,
    address: u32,
    data: &[u8],
    transfer: u32,
    out: &mut [u8],
) -> Written {
    let (from, to) = (input(data), output(out));
    unsafe { mop_write_load_transfer(number, address, from, data.len(), transfer, to, out.len()) }
}

pub fn write_load(number: u8, address: u32, data: &[u8], out: &mut [u8]) -> Written {
    let (from, to) = (input(data), output(out));
    unsafe { mop_write_load(number, address, from, data.len(), to, out.len()) }
}

#[allow(clippy::too_many_arguments)]
pub fn write_request_program(
    device: u8,
    format: u8,
    program: u8,
    form: u8,
    id: &[u8],
    processor: u8,
    info: &[u8],
    out: &mut [u8],
) -> Written {
    let (id_from, info_from, to) = (input(id), input(info), output(out));
    unsafe {
        mop_write_request_program(
            device,
            format,
            program,
            form,
            id_from,
            id.len(),
            processor,
            info_from,
            info.len(),
            to,
            out.len(),
        )
    }
}

pub fn write_request_load(number: u8, error: u8, out: &mut [u8]) -> Written {
    unsafe { mop_write_request_load(number, error, output(out), out.len()) }
}

pub fn write_request_dump(address: u32, count: u16, out: &mut [u8]) -> Written {
    unsafe { mop_write_request_dump(address, count, output(out), out.len()) }
}

pub fn write_request_dump_service(
    device: u8,
    format: u8,
    memory_size: u32,
    compatibility: u8,
    info: &[u8],
    out: &mut [u8],
) -> Written {
    let (from, to) = (input(info), output(out));
    unsafe {
        mop_write_request_dump_service(
            device,
            format,
            memory_size,
            compatibility,
            from,
            info.len(),
            to,
            out.len(),
        )
    }
}

pub fn write_dump_data(address: u32, data: &[u8], out: &mut [u8]) -> Written {
    let (from, to) = (input(data), output(out));
    unsafe { mop_write_dump_data(address, from, data.len(), to, out.len()) }
}

pub fn write_dump_complete(out: &mut [u8]) -> Written {
    unsafe { mop_write_dump_complete(output(out), out.len()) }
}

pub fn write_volunteer(out: &mut [u8]) -> Written {
    unsafe { mop_write_volunteer(output(out), out.len()) }
}

pub fn write_parameters(
    version: u8,
    number: u8,
    entries: &[u8],
    transfer: u32,
    out: &mut [u8],
) -> Written {
    let (from, to) = (input(entries), output(out));
    unsafe {
        mop_write_parameters(
            version,
            number,
            from,
            entries.len(),
            transfer,
            to,
            out.len(),
        )
    }
}

pub fn write_loop(receipt: u16, data: &[u8], out: &mut [u8]) -> Written {
    let (from, to) = (input(data), output(out));
    unsafe { mop_write_loop(receipt, from, data.len(), to, out.len()) }
}

pub fn write_looped(receipt: u16, data: &[u8], out: &mut [u8]) -> Written {
    let (from, to) = (input(data), output(out));
    unsafe { mop_write_looped(receipt, from, data.len(), to, out.len()) }
}

pub fn image_check(file: &[u8], segment_size: u32) -> Image {
    unsafe { mop_image_check(input(file), file.len(), segment_size) }
}

pub fn image_segment(file: &[u8], segment_size: u32, index: u64) -> Segment {
    unsafe { mop_image_segment(input(file), file.len(), segment_size, index) }
}
