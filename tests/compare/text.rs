//! Bytes and numbers as they are shown.

use std::fmt::{self, Debug};

/// Bytes shown in hexadecimal, a long string by its two ends.
#[derive(Clone, Copy)]
pub struct Hex<'a>(pub &'a [u8]);

impl Debug for Hex<'_> {
    fn fmt(&self, to: &mut fmt::Formatter) -> fmt::Result {
        const END: usize = 2048;
        let Hex(bytes) = self;
        let (first, rest) = bytes.split_at(bytes.len().min(END));
        let (between, last) = rest.split_at(rest.len().saturating_sub(END));
        first.iter().try_for_each(|byte| write!(to, "{byte:02X}"))?;
        if !between.is_empty() {
            write!(to, " ({} bytes) ", between.len())?;
        }
        last.iter().try_for_each(|byte| write!(to, "{byte:02X}"))
    }
}

/// A number with a comma at every third digit.
pub fn commas(number: u64) -> String {
    let digits = number.to_string();
    let mut text = String::new();
    for (place, digit) in digits.chars().enumerate() {
        if place > 0 && (digits.len() - place).is_multiple_of(3) {
            text.push(',');
        }
        text.push(digit);
    }
    text
}
