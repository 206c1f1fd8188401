//! The layout of the structs, under their names in mop.h: each one's size, and
//! each field's place and size.

use crate::*;
use std::fmt::Write;
use std::mem::offset_of;

/// A field's name in mop.h.
macro_rules! name {
    ($field:ident) => {
        stringify!($field)
    };
    ($field:ident $name:ident) => {
        stringify!($name)
    };
}

/// The lines of all structs. A field that is left out does not compile.
macro_rules! layout {
    ($($struct:ident = $type:ident $(<$of:ident>)? { $($field:ident $($name:ident)?),+ })+) => {
        pub fn layout() -> String {
            let mut text = String::new();
            $({
                type Whole = $type $(<$of>)?;
                let _ = |$type { $($field: _),+ }: Whole| ();
                let name = stringify!($struct);
                let _ = writeln!(text, "{name} {}", size_of::<Whole>());
                $({
                    fn size<F>(_: fn(&Whole) -> &F) -> usize {
                        size_of::<F>()
                    }
                    let (field, place) = (name!($field $($name)?), offset_of!(Whole, $field));
                    let _ = writeln!(text, "{name}.{field} {place} {}", size(|whole| &whole.$field));
                })+
            })+
            text
        }
    };
}

layout! {
    mop_fields = Fields {
        data_at, data_length, id_at, id_length, address, transfer, memory_size, count, receipt,
        refusal, code, number, error, device, format, program, form, processor, compatibility
    }
    mop_written = Written { length, refusal }
    mop_image = Image { segments, transfer, regions, refusal }
    mop_segment = Segment { at, length, address, last, refusal }
    mop_window = Window { start, length }
    mop_machine_settings = MachineSettings { reply_bytes, device, processor, version, window }
    mop_value = Value { length, bytes }
    mop_parameters = Parameters { target_name, target_address, host_name, host_address, host_time }
    mop_machine = Machine { transfer, state, expected, error, parameters }
    mop_machine_step = Step<Machine> { record machine, answer }
    mop_load_settings = LoadSettings { segment_size, repeats, with_parameters, version, restart }
    mop_counts = Counts { starts, advances, ignored, rejections }
    mop_load = Load { position, sent, counts, repeats, restarts, waiting, verdict }
    mop_load_step = Step<Load> { record session, answer }
    mop_dump_settings = DumpSettings { length, address, request_bytes, repeats, version }
    mop_dump = Dump { filled, replies, sent, counts, repeats, waiting, verdict }
    mop_dump_step = Step<Dump> { record session, answer }
    mop_loop_settings = LoopSettings { repeats, receipt, version }
    mop_loop = Loop { sent, repeats, verdict }
    mop_loop_step = Step<Loop> { record session, answer }
}
