//! The frames that the ends exchange, byte by byte, and spoilt ones.

use crate::Compare;
use crate::make::{self, V3_0};
use crate::tally::CODES;

/// Code 0 if there is a transfer address, else code 2.
pub fn load(number: u8, address: u32, data: &[u8], transfer: Option<u32>) -> Vec<u8> {
    let mut frame = vec![if transfer.is_some() { 0 } else { 2 }, number];
    frame.extend(address.to_le_bytes());
    frame.extend(data);
    if let Some(transfer) = transfer {
        frame.extend(transfer.to_le_bytes());
    }
    frame
}

/// Code 20.
pub fn parameters(number: u8, entries: &[u8], transfer: u32) -> Vec<u8> {
    let mut frame = vec![20, number];
    frame.extend(entries);
    frame.push(0);
    frame.extend(transfer.to_le_bytes());
    frame
}

/// Code 10.
pub fn request_load(number: u8, error: u8) -> Vec<u8> {
    vec![10, number, error]
}

/// Code 4.
pub fn request_dump(address: u32, count: u16) -> Vec<u8> {
    let mut frame = vec![4];
    frame.extend(address.to_le_bytes());
    frame.extend(count.to_le_bytes());
    frame
}

/// Code 14.
pub fn dump_data(address: u32, data: &[u8]) -> Vec<u8> {
    let mut frame = vec![14];
    frame.extend(address.to_le_bytes());
    frame.extend(data);
    frame
}

impl Compare {
    /// Code 8, mostly of type 2.
    pub fn any_request(&mut self) -> Vec<u8> {
        let mut frame = make::frame(&mut self.random, V3_0, 8);
        frame[3] = self.random.pick(&[0, 1, 2, 2, 2, 2]);
        frame
    }

    /// A good frame of any code and of either version.
    pub fn any_good_frame(&mut self) -> Vec<u8> {
        let listed = self.random.range(0, CODES.len() - 1);
        let version = self.any_version();
        make::frame(&mut self.random, version, CODES[listed].code)
    }

    /// The frame, or now and then one that is spoilt.
    pub fn perhaps_spoilt(&mut self, frame: Vec<u8>) -> Vec<u8> {
        match self.random.below(40) {
            0..=2 => self.damage(&frame),
            3 => frame[..self.random.range(0, frame.len())].to_vec(),
            4 => {
                let count = self.random.pick(&[1, 1, 2, 4, 1500]);
                [frame, self.random.bytes(count)].concat()
            }
            5 => {
                let length = self.random.range(0, 30);
                self.random.bytes(length)
            }
            6 => vec![8, 0, 1, 2, 17, 0],
            _ => frame,
        }
    }
}
