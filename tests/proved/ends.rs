//! The machine end and the host's load and dump.

use crate::{Written, input, output};

/// `mop_window`
#[repr(C)]
#[derive(Clone, Copy, Debug, Default, PartialEq, Eq)]
pub struct Window {
    pub start: u64,
    pub length: u64,
}

/// `mop_machine_settings`
#[repr(C)]
#[derive(Clone, Copy, Debug, Default, PartialEq, Eq)]
pub struct MachineSettings {
    pub reply_bytes: u32,
    pub device: u8,
    pub processor: u8,
    pub version: u8,
    pub window: Window,
}

/// `mop_value`
#[repr(C)]
#[derive(Clone, Copy, Debug, Default, PartialEq, Eq)]
pub struct Value {
    pub length: u8,
    pub bytes: [u8; 16],
}

/// `mop_parameters`
#[repr(C)]
#[derive(Clone, Copy, Debug, Default, PartialEq, Eq)]
pub struct Parameters {
    pub target_name: Value,
    pub target_address: Value,
    pub host_name: Value,
    pub host_address: Value,
    pub host_time: Value,
}

/// `mop_machine`
#[repr(C)]
#[derive(Clone, Copy, Debug, Default, PartialEq, Eq)]
pub struct Machine {
    pub transfer: u32,
    pub state: u8,
    pub expected: u8,
    pub error: u8,
    pub parameters: Parameters,
}

/// `mop_load_settings`
#[repr(C)]
#[derive(Clone, Copy, Debug, Default, PartialEq, Eq)]
pub struct LoadSettings {
    pub segment_size: u32,
    pub repeats: u32,
    pub with_parameters: u8,
    pub version: u8,
    pub restart: u8,
}

/// `mop_counts`
#[repr(C)]
#[derive(Clone, Copy, Debug, Default, PartialEq, Eq)]
pub struct Counts {
    pub starts: u64,
    pub advances: u64,
    pub ignored: u64,
    pub rejections: u64,
}

/// `mop_load`
#[repr(C)]
#[derive(Clone, Copy, Debug, Default, PartialEq, Eq)]
pub struct Load {
    pub position: u64,
    pub sent: u64,
    pub counts: Counts,
    pub repeats: u32,
    pub restarts: u32,
    pub waiting: u8,
    pub verdict: u8,
}

/// `mop_dump_settings`
#[repr(C)]
#[derive(Clone, Copy, Debug, Default, PartialEq, Eq)]
pub struct DumpSettings {
    pub length: u64,
    pub address: u32,
    pub request_bytes: u32,
    pub repeats: u32,
    pub version: u8,
}

/// `mop_dump`
#[repr(C)]
#[derive(Clone, Copy, Debug, Default, PartialEq, Eq)]
pub struct Dump {
    pub filled: u64,
    pub replies: u64,
    pub sent: u64,
    pub counts: Counts,
    pub repeats: u32,
    pub waiting: u8,
    pub verdict: u8,
}

/// `mop_machine_step`, `mop_load_step`, `mop_dump_step`; a loop test's too
#[repr(C)]
#[derive(Clone, Copy, Debug, Default, PartialEq, Eq)]
pub struct Step<Record> {
    pub record: Record,
    pub answer: Written,
}

unsafe extern "C" {
    pub fn mop_machine_start_load(
        settings: MachineSettings,
        memory: *const u8,
        memory_length: usize,
        reply: *mut u8,
        reply_length: usize,
    ) -> Step<Machine>;
    pub fn mop_machine_start_dump(
        settings: MachineSettings,
        memory: *const u8,
        memory_length: usize,
        reply: *mut u8,
        reply_length: usize,
    ) -> Step<Machine>;
    pub fn mop_machine_frame(
        settings: MachineSettings,
        machine: Machine,
        frame: *const u8,
        frame_length: usize,
        memory: *mut u8,
        memory_length: usize,
        reply: *mut u8,
        reply_length: usize,
    ) -> Step<Machine>;
    pub fn mop_machine_timer(
        settings: MachineSettings,
        machine: Machine,
        memory: *const u8,
        memory_length: usize,
        reply: *mut u8,
        reply_length: usize,
    ) -> Step<Machine>;
    pub fn mop_load_start() -> Load;
    pub fn mop_load_frame(
        settings: LoadSettings,
        session: Load,
        file: *const u8,
        file_length: usize,
        parameters: *const u8,
        parameters_length: usize,
        frame: *const u8,
        frame_length: usize,
        reply: *mut u8,
        reply_length: usize,
    ) -> Step<Load>;
    pub fn mop_load_timer(
        settings: LoadSettings,
        session: Load,
        file: *const u8,
        file_length: usize,
        parameters: *const u8,
        parameters_length: usize,
        reply: *mut u8,
        reply_length: usize,
    ) -> Step<Load>;
    pub fn mop_dump_start() -> Dump;
    pub fn mop_dump_frame(
        settings: DumpSettings,
        session: Dump,
        frame: *const u8,
        frame_length: usize,
        buffer: *mut u8,
        buffer_length: usize,
        reply: *mut u8,
        reply_length: usize,
    ) -> Step<Dump>;
    pub fn mop_dump_timer(
        settings: DumpSettings,
        session: Dump,
        buffer: *const u8,
        buffer_length: usize,
        reply: *mut u8,
        reply_length: usize,
    ) -> Step<Dump>;
    pub fn mop_load_update_frame(
        settings: LoadSettings,
        session: *mut Load,
        file: *const u8,
        file_length: usize,
        parameters: *const u8,
        parameters_length: usize,
        frame: *const u8,
        frame_length: usize,
        reply: *mut u8,
        reply_length: usize,
    ) -> Written;
    pub fn mop_load_update_timer(
        settings: LoadSettings,
        session: *mut Load,
        file: *const u8,
        file_length: usize,
        parameters: *const u8,
        parameters_length: usize,
        reply: *mut u8,
        reply_length: usize,
    ) -> Written;
    pub fn mop_dump_update_frame(
        settings: DumpSettings,
        session: *mut Dump,
        frame: *const u8,
        frame_length: usize,
        buffer: *mut u8,
        buffer_length: usize,
        reply: *mut u8,
        reply_length: usize,
    ) -> Written;
    pub fn mop_dump_update_timer(
        settings: DumpSettings,
        session: *mut Dump,
        buffer: *const u8,
        buffer_length: usize,
        reply: *mut u8,
        reply_length: usize,
    ) -> Written;
}

// As in lib.rs, the pointers are good for the lengths beside them, and what is
// borrowed for writing overlaps nothing else.

pub fn machine_start_load(
    settings: MachineSettings,
    memory: &[u8],
    reply: &mut [u8],
) -> Step<Machine> {
    let (from, to) = (input(memory), output(reply));
    unsafe { mop_machine_start_load(settings, from, memory.len(), to, reply.len()) }
}

pub fn machine_start_dump(
    settings: MachineSettings,
    memory: &[u8],
    reply: &mut [u8],
) -> Step<Machine> {
    let (from, to) = (input(memory), output(reply));
    unsafe { mop_machine_start_dump(settings, from, memory.len(), to, reply.len()) }
}

pub fn machine_frame(
    settings: MachineSettings,
    machine: Machine,
    frame: &[u8],
    memory: &mut [u8],
    reply: &mut [u8],
) -> Step<Machine> {
    let (from, store, to) = (input(frame), output(memory), output(reply));
    unsafe {
        mop_machine_frame(
            settings,
            machine,
            from,
            frame.len(),
            store,
            memory.len(),
            to,
            reply.len(),
        )
    }
}

pub fn machine_timer(
    settings: MachineSettings,
    machine: Machine,
    memory: &[u8],
    reply: &mut [u8],
) -> Step<Machine> {
    let (from, to) = (input(memory), output(reply));
    unsafe { mop_machine_timer(settings, machine, from, memory.len(), to, reply.len()) }
}

pub fn load_start() -> Load {
    unsafe { mop_load_start() }
}

pub fn load_frame(
    settings: LoadSettings,
    session: Load,
    file: &[u8],
    parameters: &[u8],
    frame: &[u8],
    reply: &mut [u8],
) -> Step<Load> {
    let (image, string) = (input(file), input(parameters));
    let (from, to) = (input(frame), output(reply));
    unsafe {
        mop_load_frame(
            settings,
            session,
            image,
            file.len(),
            string,
            parameters.len(),
            from,
            frame.len(),
            to,
            reply.len(),
        )
    }
}

pub fn load_timer(
    settings: LoadSettings,
    session: Load,
    file: &[u8],
    parameters: &[u8],
    reply: &mut [u8],
) -> Step<Load> {
    let (image, string, to) = (input(file), input(parameters), output(reply));
    unsafe {
        mop_load_timer(
            settings,
            session,
            image,
            file.len(),
            string,
            parameters.len(),
            to,
            reply.len(),
        )
    }
}

pub fn load_update_frame(
    settings: LoadSettings,
    session: &mut Load,
    file: &[u8],
    parameters: &[u8],
    frame: &[u8],
    reply: &mut [u8],
) -> Written {
    let (image, string) = (input(file), input(parameters));
    let (from, to) = (input(frame), output(reply));
    unsafe {
        mop_load_update_frame(
            settings,
            session,
            image,
            file.len(),
            string,
            parameters.len(),
            from,
            frame.len(),
            to,
            reply.len(),
        )
    }
}

pub fn load_update_timer(
    settings: LoadSettings,
    session: &mut Load,
    file: &[u8],
    parameters: &[u8],
    reply: &mut [u8],
) -> Written {
    let (image, string, to) = (input(file), input(parameters), output(reply));
    unsafe {
        mop_load_update_timer(
            settings,
            session,
            image,
            file.len(),
            string,
            parameters.len(),
            to,
            reply.len(),
        )
    }
}

pub fn dump_start() -> Dump {
    unsafe { mop_dump_start() }
}

pub fn dump_frame(
    settings: DumpSettings,
    session: Dump,
    frame: &[u8],
    buffer: &mut [u8],
    reply: &mut [u8],
) -> Step<Dump> {
    let (from, store, to) = (input(frame), output(buffer), output(reply));
    unsafe {
        mop_dump_frame(
            settings,
            session,
            from,
            frame.len(),
            store,
            buffer.len(),
            to,
            reply.len(),
        )
    }
}

pub fn dump_timer(
    settings: DumpSettings,
    session: Dump,
    buffer: &[u8],
    reply: &mut [u8],
) -> Step<Dump> {
    let (from, to) = (input(buffer), output(reply));
    unsafe { mop_dump_timer(settings, session, from, buffer.len(), to, reply.len()) }
}

pub fn dump_update_frame(
    settings: DumpSettings,
    session: &mut Dump,
    frame: &[u8],
    buffer: &mut [u8],
    reply: &mut [u8],
) -> Written {
    let (from, store, to) = (input(frame), output(buffer), output(reply));
    unsafe {
        mop_dump_update_frame(
            settings,
            session,
            from,
            frame.len(),
            store,
            buffer.len(),
            to,
            reply.len(),
        )
    }
}

pub fn dump_update_timer(
    settings: DumpSettings,
    session: &mut Dump,
    buffer: &[u8],
    reply: &mut [u8],
) -> Written {
    let (from, to) = (input(buffer), output(reply));
    unsafe { mop_dump_update_timer(settings, session, from, buffer.len(), to, reply.len()) }
}
