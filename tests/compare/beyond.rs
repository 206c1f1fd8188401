//! Lengths above 32 bits, which must not be taken for what their low half
//! says. The bytes are zeros that the system lends without filling them.

use std::alloc::{Layout, alloc_zeroed, dealloc};
use std::slice;

use crate::make::V3_0;
use crate::tally::Hex;
use crate::writing::write_proved;
use crate::{Compare, Wanted, images};
use mop_plain::frame::Frame;

pub const BEYOND: usize = 1 << 32;
const LENGTH: usize = BEYOND + 65_536;

pub struct Zeros {
    start: *mut u8,
}

impl Zeros {
    fn layout() -> Layout {
        Layout::array::<u8>(LENGTH).expect("a length that fits the address space")
    }

    /// None if the system does not lend that much.
    pub fn new() -> Option<Self> {
        // The layout's size is not zero.
        let start = unsafe { alloc_zeroed(Self::layout()) };
        if start.is_null() {
            None
        } else {
            Some(Zeros { start })
        }
    }

    pub fn bytes(&mut self) -> &mut [u8] {
        // The block has this length, is filled, and is borrowed through self.
        unsafe { slice::from_raw_parts_mut(self.start, LENGTH) }
    }
}

impl Drop for Zeros {
    fn drop(&mut self) {
        // The block came from the same layout and is not borrowed any more.
        unsafe { dealloc(self.start, Self::layout()) }
    }
}

impl Compare {
    pub fn beyond_32_bits(&mut self) {
        if size_of::<usize>() < 8 {
            return;
        }
        let Some(mut zeros) = Zeros::new() else {
            println!("  lengths above 32 bits left out: no room for them");
            return;
        };
        self.read_beyond(zeros.bytes());
        self.write_beyond(zeros.bytes());
        self.room_beyond(zeros.bytes());
        self.image_beyond(zeros.bytes());
    }

    fn read_beyond(&mut self, bytes: &mut [u8]) {
        for (first, length, wanted) in [
            (10, 3, 2),
            (4, 7, 2),
            (1, 1, 2),
            (0, 10, 2),
            (24, 3, 2),
            (20, 7, 2),
            (16, 1, 3),
        ] {
            bytes[0] = first;
            self.read_alike("above 32 bits", &bytes[..BEYOND + length], Some(wanted));
        }
        bytes[0] = 0;
    }

    fn write_beyond(&mut self, bytes: &[u8]) {
        let data = &bytes[..BEYOND];
        let frames = [
            (
                Frame::LoadTransfer {
                    number: 1,
                    address: 2,
                    data,
                    transfer: 3,
                },
                2,
            ),
            (
                Frame::Load {
                    number: 1,
                    address: 2,
                    data,
                },
                2,
            ),
            (Frame::DumpData { address: 1, data }, 2),
            (Frame::Loop { receipt: 1, data }, 2),
            (Frame::Looped { receipt: 1, data }, 2),
            (
                Frame::Parameters {
                    number: 1,
                    entries: data,
                    transfer: 2,
                },
                4,
            ),
            (request_program(0, &[], data), 2),
            (request_program(0, data, &[]), 4),
            (request_program(16, &bytes[..BEYOND + 16], &[]), 4),
        ];
        // 2 comes before 9 here too.
        for (frame, wanted) in frames.into_iter().filter(|&(_, wanted)| wanted == 2) {
            for room in [0, 20] {
                let (version, wanted) = (self.any_version(), Wanted::Refusal(wanted));
                self.write(version, "above 32 bits", &frame, room, wanted);
            }
        }
        for (frame, wanted) in frames {
            let (version, wanted) = (self.any_version(), Wanted::Refusal(wanted));
            self.write(version, "above 32 bits", &frame, 1500, wanted);
        }
    }

    /// An output buffer that is long enough only in all of its bits.
    fn room_beyond(&mut self, bytes: &mut [u8]) {
        let frame = Frame::RequestLoad {
            number: 7,
            error: 1,
        };
        let seen = write_proved(V3_0, &frame, &mut bytes[..BEYOND + 1]);
        let wanted = mop_proved::Written {
            length: 3,
            refusal: 0,
        };
        self.tally.write("above 32 bits", 10, seen.refusal);
        if seen != wanted || bytes[..4] != [10, 7, 1, 0] {
            let what = format_args!("writer, buffer above 32 bits");
            self.tally.differ(what, Hex(&bytes[..4]), seen, wanted);
        }
        bytes[..3].fill(0);
    }

    fn image_beyond(&mut self, bytes: &mut [u8]) {
        let file = images::smallest();
        let length = file.len();
        bytes[..length].copy_from_slice(&file);
        self.image("above 32 bits", &bytes[..BEYOND + length], Some(5));
        bytes[..length].fill(0);
        bytes[BEYOND..BEYOND + length].copy_from_slice(&file);
        self.image("above 32 bits", &bytes[..BEYOND + length], Some(5));
        bytes[BEYOND..BEYOND + length].fill(0);
    }
}

fn request_program<'a>(form: u8, id: &'a [u8], info: &'a [u8]) -> Frame<'a> {
    Frame::RequestProgram {
        device: 1,
        format: 1,
        program: 2,
        form,
        id,
        processor: 0,
        info,
    }
}
