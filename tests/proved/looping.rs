//! The host's loop test.

use crate::{Step, input, output};

/// `mop_loop_settings`
#[repr(C)]
#[derive(Clone, Copy, Debug, Default, PartialEq, Eq)]
pub struct LoopSettings {
    pub repeats: u32,
    pub receipt: u16,
    pub version: u8,
}

/// `mop_loop`
#[repr(C)]
#[derive(Clone, Copy, Debug, Default, PartialEq, Eq)]
pub struct Loop {
    pub sent: u64,
    pub repeats: u32,
    pub verdict: u8,
}

unsafe extern "C" {
    pub fn mop_loop_start(
        settings: LoopSettings,
        data: *const u8,
        data_length: usize,
        reply: *mut u8,
        reply_length: usize,
    ) -> Step<Loop>;
    pub fn mop_loop_frame(
        settings: LoopSettings,
        session: Loop,
        data: *const u8,
        data_length: usize,
        frame: *const u8,
        frame_length: usize,
        reply: *const u8,
        reply_length: usize,
    ) -> Step<Loop>;
    pub fn mop_loop_timer(
        settings: LoopSettings,
        session: Loop,
        data: *const u8,
        data_length: usize,
        reply: *mut u8,
        reply_length: usize,
    ) -> Step<Loop>;
}

// The pointers are as in lib.rs.

pub fn loop_start(settings: LoopSettings, data: &[u8], reply: &mut [u8]) -> Step<Loop> {
    let (from, to) = (input(data), output(reply));
    unsafe { mop_loop_start(settings, from, data.len(), to, reply.len()) }
}

pub fn loop_frame(
    settings: LoopSettings,
    session: Loop,
    data: &[u8],
    frame: &[u8],
    reply: &[u8],
) -> Step<Loop> {
    let (pattern, from, room) = (input(data), input(frame), input(reply));
    unsafe {
        mop_loop_frame(
            settings,
            session,
            pattern,
            data.len(),
            from,
            frame.len(),
            room,
            reply.len(),
        )
    }
}

pub fn loop_timer(
    settings: LoopSettings,
    session: Loop,
    data: &[u8],
    reply: &mut [u8],
) -> Step<Loop> {
    let (from, to) = (input(data), output(reply));
    unsafe { mop_loop_timer(settings, session, from, data.len(), to, reply.len()) }
}
