//! The image file and its segments (PROTOCOL 3, "Image files"). All sums are
//! made in 64 bits, since two 32-bit fields may add up to more than fits.

use crate::refusal::{BAD_DIRECTORY, BAD_FILE, BAD_REGION, BAD_SETTING, OUT_OF_ORDER, Refusal};

/// S, the bytes of a segment, is 1 to this.
pub const SEGMENT_MOST: u32 = 1490;

const FILE_MOST: usize = 16_777_216;
const REGIONS_MOST: u32 = 100_000;
const TRAILER_LENGTH: usize = 16;
const ENTRY_LENGTH: usize = 12;
const ADDRESS_END: u64 = 1 << 32;

/// An accepted image and the size in which its regions are cut.
#[derive(Clone, Copy, Debug)]
pub struct Image<'a> {
    /// The bytes before the directory.
    body: &'a [u8],
    directory: &'a [u8],
    transfer: u32,
    segment_size: u32,
    segments: u64,
}

/// A directory entry.
#[derive(Clone, Copy, Debug, PartialEq, Eq)]
pub struct Region {
    /// Where it goes in memory.
    pub address: u32,
    /// Where its bytes begin in the file.
    pub offset: u32,
    pub length: u32,
}

/// A part of a region, as it is sent.
#[derive(Clone, Copy, Debug, PartialEq, Eq)]
pub struct Segment<'a> {
    pub address: u32,
    pub data: &'a [u8],
    /// Whether it is the image's last.
    pub last: bool,
}

/// Checks an image file. The order is: segment size, file and trailer,
/// directory, then the entries in turn.
pub fn check(file: &[u8], segment_size: u32) -> Result<Image<'_>, Refusal> {
    if !(1..=SEGMENT_MOST).contains(&segment_size) {
        return Err(BAD_SETTING);
    }
    let (before, trailer) = Trailer::split(file)?;
    let (body, directory) = trailer.split_directory(before)?;
    let mut image = Image {
        body,
        directory,
        transfer: trailer.transfer,
        segment_size,
        segments: 0,
    };
    image.judge_regions()?;
    Ok(image)
}

/// The last 16 bytes, which point back.
struct Trailer {
    directory_offset: u32,
    count: u32,
    transfer: u32,
}

impl Trailer {
    /// The bytes before the trailer, and the trailer.
    fn split(file: &[u8]) -> Result<(&[u8], Trailer), Refusal> {
        if file.len() > FILE_MOST {
            return Err(BAD_FILE);
        }
        let (before, trailer) = file.split_last_chunk::<TRAILER_LENGTH>().ok_or(BAD_FILE)?;
        let file_length = u32_at(trailer, 12);
        if file_length as usize != file.len() {
            return Err(BAD_FILE);
        }
        let trailer = Trailer {
            directory_offset: u32_at(trailer, 0),
            count: u32_at(trailer, 4),
            transfer: u32_at(trailer, 8),
        };
        Ok((before, trailer))
    }

    /// The region bytes and the directory, which fills the rest exactly.
    fn split_directory<'a>(&self, before: &'a [u8]) -> Result<(&'a [u8], &'a [u8]), Refusal> {
        if !(1..=REGIONS_MOST).contains(&self.count) {
            return Err(BAD_DIRECTORY);
        }
        let (body, directory) = before
            .split_at_checked(self.directory_offset as usize)
            .ok_or(BAD_DIRECTORY)?;
        if directory.len() != ENTRY_LENGTH * self.count as usize {
            return Err(BAD_DIRECTORY);
        }
        Ok((body, directory))
    }
}

impl<'a> Image<'a> {
    pub fn transfer(&self) -> u32 {
        self.transfer
    }

    /// The regions in directory order.
    pub fn regions(&self) -> impl ExactSizeIterator<Item = Region> + use<'a> {
        self.directory
            .chunks_exact(ENTRY_LENGTH)
            .map(Region::from_entry)
    }

    /// N, the number of segments.
    pub fn segments(&self) -> u64 {
        self.segments
    }

    /// Segment number `index`, counted from 0, if there is one.
    pub fn segment(&self, index: u64) -> Option<Segment<'a>> {
        let mut regions = self.regions();
        let mut part = index;
        while let Some(region) = regions.next() {
            let parts = region.segments(self.segment_size);
            if part < parts {
                let last = regions.len() == 0 && part + 1 == parts;
                return Some(self.cut(region, part, last));
            }
            part -= parts;
        }
        None
    }

    /// Part number `part` of a region.
    fn cut(&self, region: Region, part: u64, last: bool) -> Segment<'a> {
        let from = part * u64::from(self.segment_size);
        let length = u64::from(self.segment_size).min(u64::from(region.length) - from);
        let at = u64::from(region.offset) + from;
        Segment {
            address: (u64::from(region.address) + from) as u32,
            data: &self.body[at as usize..(at + length) as usize],
            last,
        }
    }

    /// The entries in turn, and their segments counted.
    fn judge_regions(&mut self) -> Result<(), Refusal> {
        let mut end = 0;
        for region in self.regions() {
            if !region.is_good(self.body.len() as u64) {
                return Err(BAD_REGION);
            }
            if u64::from(region.address) < end {
                return Err(OUT_OF_ORDER);
            }
            end = region.end();
            self.segments += region.segments(self.segment_size);
        }
        Ok(())
    }
}

impl Region {
    fn from_entry(entry: &[u8]) -> Region {
        Region {
            address: u32_at(entry, 0),
            offset: u32_at(entry, 4),
            length: u32_at(entry, 8),
        }
    }

    /// The entry's own rule; `body` is the number of bytes before the
    /// directory.
    fn is_good(&self, body: u64) -> bool {
        let file_end = u64::from(self.offset) + u64::from(self.length);
        self.length >= 1 && file_end <= body && self.end() <= ADDRESS_END
    }

    /// The first address behind it.
    fn end(&self) -> u64 {
        u64::from(self.address) + u64::from(self.length)
    }

    fn segments(&self, segment_size: u32) -> u64 {
        self.length.div_ceil(segment_size).into()
    }
}

fn u32_at(bytes: &[u8], at: usize) -> u32 {
    u32::from_le_bytes([bytes[at], bytes[at + 1], bytes[at + 2], bytes[at + 3]])
}
