//! The image check as it was when a directory had at most 64 entries, and the
//! trailer a count of 2 bytes and a zero field of 2; and what may have become
//! of its answers.

use crate::images::{ADDRESS_END, FILE_MOST, REGIONS_MOST, Region};
use crate::images::{cut, get_u32, refused, trailer};
use crate::tally::{Hex, Tally};

/// A sort of answer of before, and the answers that it may be now.
pub type Sort = (&'static str, &'static [u8]);
const ACCEPTED: Sort = ("before 0", &[0]);
const BAD_LENGTH: Sort = ("before 5, a length", &[5]);
/// Zero field and count are a count of 65,536 to 100,000 now.
const ZERO_SET: Sort = ("before 5, zero field", &[0, 6, 7, 8]);
/// They are one above.
const ZERO_SET_ABOVE: Sort = ("before 5, zero field, above", &[6]);
const BAD_DIRECTORY: Sort = ("before 6, count to 64", &[6]);
const MANY_ENTRIES: Sort = ("before 6, count above 64", &[0, 6, 7, 8]);
const BAD_ENTRY: Sort = ("before 7", &[7]);
const BAD_ORDER: Sort = ("before 8", &[8]);
const BAD_SIZE: Sort = ("before 10", &[10]);

pub const SORTS: [Sort; 9] = [
    ACCEPTED,
    BAD_LENGTH,
    ZERO_SET,
    ZERO_SET_ABOVE,
    BAD_DIRECTORY,
    MANY_ENTRIES,
    BAD_ENTRY,
    BAD_ORDER,
    BAD_SIZE,
];

/// An image that was accepted, with the segment size.
pub struct Image {
    regions: Vec<Region>,
    transfer: u32,
    size: u32,
}

pub fn check(file: &[u8], size: u32) -> Result<Image, Sort> {
    if !(1..=1490).contains(&size) {
        return Err(BAD_SIZE);
    }
    if !(16..=FILE_MOST).contains(&file.len()) {
        return Err(BAD_LENGTH);
    }
    let end = trailer(file);
    let [directory, both, transfer, length] = [0, 4, 8, 12].map(|at| get_u32(file, end + at));
    let (count, zero) = (both % 65_536, both / 65_536);
    let directory_end = u64::from(directory) + 12 * u64::from(count);
    if length as usize != file.len() {
        return Err(BAD_LENGTH);
    }
    if zero != 0 {
        let above = both as usize > REGIONS_MOST;
        return Err(if above { ZERO_SET_ABOVE } else { ZERO_SET });
    }
    if count > 64 {
        return Err(MANY_ENTRIES);
    }
    if count == 0 || directory_end != end as u64 {
        return Err(BAD_DIRECTORY);
    }
    let entries = file[directory as usize..end].chunks(12);
    Ok(Image {
        regions: regions(entries, directory)?,
        transfer,
        size,
    })
}

fn regions<'a>(
    entries: impl Iterator<Item = &'a [u8]>,
    directory: u32,
) -> Result<Vec<Region>, Sort> {
    let mut regions = Vec::new();
    let mut end = 0;
    for entry in entries {
        let [address, offset, length] = [0, 4, 8].map(|at| get_u32(entry, at));
        let region = Region {
            address,
            offset,
            length,
        };
        let file_end = u64::from(offset) + u64::from(length);
        if length == 0 || file_end > directory.into() || region.end() > ADDRESS_END {
            return Err(BAD_ENTRY);
        }
        if u64::from(address) < end {
            return Err(BAD_ORDER);
        }
        end = region.end();
        regions.push(region);
    }
    Ok(regions)
}

impl Image {
    fn answer(&self) -> mop_proved::Image {
        let segments = |region: &Region| u64::from(region.length.div_ceil(self.size));
        mop_proved::Image {
            segments: self.regions.iter().map(segments).sum(),
            transfer: self.transfer,
            regions: self.regions.len() as u32,
            refusal: 0,
        }
    }

    fn segment(&self, index: u64) -> mop_proved::Segment {
        let mut part = index;
        for (place, region) in self.regions.iter().enumerate() {
            let parts = u64::from(region.length.div_ceil(self.size));
            if part < parts {
                let last = place + 1 == self.regions.len() && part + 1 == parts;
                return cut(region, part, self.size, last);
            }
            part -= parts;
        }
        refused(10)
    }
}

impl Tally {
    /// Holds an answer of the proved image check to that of before.
    pub fn since(&mut self, file: &[u8], before: &Result<Image, Sort>, seen: mop_proved::Image) {
        let (name, now) = before.as_ref().err().copied().unwrap_or(ACCEPTED);
        self.became(name, seen.refusal);
        let right = match before {
            Ok(image) => seen == image.answer(),
            Err(_) => now.contains(&seen.refusal),
        };
        if !right {
            let what = format_args!("image check since before");
            self.differ(what, Hex(file), seen, (name, now));
        }
    }

    /// The same for a segment of an image that was accepted.
    pub fn segment_since(
        &mut self,
        file: &[u8],
        image: &Image,
        index: u64,
        seen: mop_proved::Segment,
    ) {
        let wanted = image.segment(index);
        if seen != wanted {
            let what = format_args!("segment {index} since before, segment size {}", image.size);
            self.differ(what, Hex(file), seen, wanted);
        }
    }
}
