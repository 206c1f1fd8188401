//! Compares the image check and the segments.

use crate::Compare;
use crate::before;
pub use crate::file::{Region, build};
use crate::random::Random;
use crate::reading::place;
use crate::tally::Hex;
use mop_plain::image;

pub const FILE_MOST: usize = 16_777_216;
pub const REGIONS_MOST: usize = 100_000;
pub const ADDRESS_END: u64 = 1 << 32;
/// A walk through all segments is made up to this many of them.
const WALK_MOST: u64 = 300;

// Places in the trailer and in a directory entry.
pub const DIRECTORY_OFFSET: usize = 0;
pub const COUNT: usize = 4;
/// The count's upper half.
const COUNT_HIGH: usize = 6;
const FILE_LENGTH: usize = 12;
const ADDRESS: usize = 0;
const OFFSET: usize = 4;
const LENGTH: usize = 8;

/// Adjacent regions from address 0 on, each made of the same bytes.
pub fn shared(body: &[u8], count: u32, transfer: u32) -> Vec<u8> {
    let length = body.len() as u32;
    let region = |place| Region {
        address: place * length,
        offset: 0,
        length,
    };
    let regions: Vec<Region> = (0..count).map(region).collect();
    build(body, &regions, transfer)
}

/// One region of one byte at address 0.
pub fn smallest() -> Vec<u8> {
    shared(&[7], 1, 0)
}

pub fn set_u32(file: &mut [u8], at: usize, number: u32) {
    file[at..at + 4].copy_from_slice(&number.to_le_bytes());
}

pub fn get_u32(file: &[u8], at: usize) -> u32 {
    u32::from_le_bytes([file[at], file[at + 1], file[at + 2], file[at + 3]])
}

/// Makes the length field right again.
pub fn mend_length(file: &mut [u8]) {
    let at = trailer(file) + FILE_LENGTH;
    set_u32(file, at, file.len() as u32);
}

pub fn trailer(file: &[u8]) -> usize {
    file.len() - 16
}

/// A good image, kept in parts so that they can be spoilt.
pub struct Good {
    pub body: Vec<u8>,
    pub regions: Vec<Region>,
    pub transfer: u32,
}

impl Good {
    pub fn new(random: &mut Random, count: usize) -> Good {
        let body_length = match random.below(4) {
            0 => random.range(1, 4),
            1 => random.range(1400, 4000),
            _ => random.range(1, 300),
        };
        let body = random.bytes(body_length);
        let regions = regions(random, count, body_length as u64);
        Good {
            body,
            regions,
            transfer: random.u32(),
        }
    }

    pub fn file(&self) -> Vec<u8> {
        self.with(&self.regions)
    }

    pub fn with(&self, regions: &[Region]) -> Vec<u8> {
        build(&self.body, regions, self.transfer)
    }

    /// The file with one entry changed.
    pub fn changed(&self, entry: usize, change: impl Fn(&mut Region)) -> Vec<u8> {
        let mut regions = self.regions.clone();
        change(&mut regions[entry]);
        self.with(&regions)
    }
}

/// Regions in order, at times adjacent, over bytes that they may share.
fn regions(random: &mut Random, count: usize, body: u64) -> Vec<Region> {
    let lengths: Vec<u64> = (0..count).map(|_| 1 + random.below(body)).collect();
    let total: u64 = lengths.iter().sum();
    let widest = (ADDRESS_END - total) / (count as u64 + 1);
    let mut end = 0;
    let mut regions = Vec::new();
    for length in lengths {
        let address = end + random.pick(&[0, 1, widest / 2, widest]);
        end = address + length;
        regions.push(Region {
            address: address as u32,
            offset: random.below(body - length + 1) as u32,
            length: length as u32,
        });
    }
    regions
}

/// The segment call's answer that is a refusal.
pub fn refused(refusal: u8) -> mop_proved::Segment {
    mop_proved::Segment {
        refusal,
        ..Default::default()
    }
}

/// Its answer that is part number `part` of a region.
pub fn cut(region: &Region, part: u64, size: u32, last: bool) -> mop_proved::Segment {
    let size = u64::from(size);
    let from = part * size;
    mop_proved::Segment {
        at: region.offset as usize + from as usize,
        length: size.min(u64::from(region.length) - from) as usize,
        address: region.address + from as u32,
        last: last.into(),
        refusal: 0,
    }
}

/// A file with a segment size, and what the plain check and that of before
/// make of it.
pub struct Tried<'a> {
    pub file: &'a [u8],
    size: u32,
    plain: Result<image::Image<'a>, u8>,
    before: Result<before::Image, before::Sort>,
}

impl<'a> Tried<'a> {
    pub fn new(file: &'a [u8], size: u32) -> Self {
        Tried {
            file,
            size,
            plain: image::check(file, size),
            before: before::check(file, size),
        }
    }

    /// The plain refusal, 0 for none.
    fn refusal(&self) -> u8 {
        self.plain.as_ref().err().copied().unwrap_or(0)
    }

    /// The plain answers in the shape of mop.h.
    pub fn check(&self) -> mop_proved::Image {
        match self.plain {
            Err(refusal) => mop_proved::Image {
                refusal,
                ..Default::default()
            },
            Ok(image) => mop_proved::Image {
                segments: image.segments(),
                transfer: image.transfer(),
                regions: image.regions().len() as u32,
                refusal: 0,
            },
        }
    }

    pub fn segment(&self, index: u64) -> mop_proved::Segment {
        let answer = (self.plain).and_then(|image| image.segment(index).ok_or(10));
        match answer {
            Err(refusal) => refused(refusal),
            Ok(segment) => {
                let (at, length) = place(segment.data, self.file);
                mop_proved::Segment {
                    at,
                    length,
                    address: segment.address,
                    last: segment.last.into(),
                    refusal: 0,
                }
            }
        }
    }
}

impl Compare {
    /// Checks a file with both implementations at many segment sizes. `wanted`
    /// is the answer for a good size by the protocol, where it is known.
    pub fn image(&mut self, kind: &'static str, file: &[u8], wanted: Option<u8>) {
        let random = &mut self.random;
        let good = random.range(1, 1490) as u32;
        let small = random.range(1, 40) as u32;
        let any = random.u32();
        let sizes = [0, 1, 2, 1490, 1491, u32::MAX, good, small, any];
        self.image_at(&sizes, kind, file, wanted);
    }

    /// The same at these segment sizes.
    pub fn image_at(&mut self, sizes: &[u32], kind: &'static str, file: &[u8], wanted: Option<u8>) {
        self.tally.image(kind);
        if mop_proved::image_check(file, 1).refusal == 0 {
            self.tally.accepted(before::check(file, 1).is_ok());
        }
        for &size in sizes {
            let tried = Tried::new(file, size);
            let in_range = (1..=1490).contains(&size);
            self.check(kind, &tried, if in_range { wanted } else { Some(10) });
            match tried.plain {
                Ok(image) => self.segments(&tried, image),
                Err(_) => {
                    for index in [0, self.random.u64()] {
                        self.segment(&tried, index);
                    }
                }
            }
        }
    }

    fn check(&mut self, kind: &str, tried: &Tried, wanted: Option<u8>) {
        let (file, size, refusal) = (tried.file, tried.size, tried.refusal());
        self.tally.check(refusal);
        let expected = tried.check();
        let seen = mop_proved::image_check(file, size);
        if seen != expected {
            let what = format_args!("image check, {kind}, segment size {size}");
            self.tally.differ(what, Hex(file), seen, expected);
        }
        if wanted.is_some_and(|wanted| wanted != refusal) {
            let what =
                format_args!("plain image check against the protocol, {kind}, segment size {size}");
            self.tally.differ(what, Hex(file), refusal, wanted);
        }
        self.tally.since(file, &tried.before, seen);
    }

    /// Segments of an accepted image: the ends, both sides of N, any, and all
    /// in turn where they are few.
    fn segments(&mut self, tried: &Tried, image: image::Image) {
        let count = image.segments();
        let any = [(); 4].map(|()| self.random.below(count));
        let low = any[0];
        let ends = [0, count - 1, count, count + 1, u64::MAX, self.random.u64()];
        // Right only in the low 8, 16 or 32 bits.
        let short = [8, 16, 32].map(|bits| low + (1 << bits));
        for index in (ends.into_iter())
            .chain(short)
            .chain(any)
            .chain(self.region_bounds(image, tried.size))
        {
            self.segment(tried, index);
        }
        if count <= WALK_MOST {
            self.walk(tried.file, tried.size, count);
        }
    }

    /// The last segment of some region and the one behind it.
    fn region_bounds(&mut self, image: image::Image, size: u32) -> [u64; 2] {
        let regions = self.random.range(1, image.regions().len());
        let counts = image.regions().map(|region| region.length.div_ceil(size));
        let behind: u64 = counts.take(regions).map(u64::from).sum();
        [behind - 1, behind]
    }

    pub fn segment(&mut self, tried: &Tried, index: u64) {
        let (file, size) = (tried.file, tried.size);
        let expected = tried.segment(index);
        self.tally.segment(expected.refusal);
        let seen = mop_proved::image_segment(file, size, index);
        if seen != expected {
            let what = format_args!("segment {index}, segment size {size}");
            self.tally.differ(what, Hex(file), seen, expected);
        }
        if let Ok(image) = &tried.before {
            self.tally.segment_since(file, image, index, seen);
        }
    }

    /// Takes the proved segments in turn and puts the regions together from
    /// them: each has its bytes in order, in full parts but for its last.
    fn walk(&mut self, file: &[u8], size: u32, count: u64) {
        let directory = get_u32(file, trailer(file) + DIRECTORY_OFFSET) as usize;
        let mut index = 0;
        for entry in file[directory..trailer(file)].chunks(12) {
            let offset = get_u32(entry, OFFSET) as usize;
            let length = get_u32(entry, LENGTH) as usize;
            let mut bytes = Vec::new();
            while bytes.len() < length && index < count {
                let segment = mop_proved::image_segment(file, size, index);
                let full = (length - bytes.len()).min(size as usize);
                let address = get_u32(entry, ADDRESS) + bytes.len() as u32;
                let good = segment.refusal == 0
                    && segment.address == address
                    && segment.length == full
                    && (segment.last == 1) == (index + 1 == count);
                if !good {
                    let what = format_args!("walk at segment {index}, segment size {size}");
                    self.tally.differ(what, Hex(file), segment, (address, full));
                    return;
                }
                let at = segment.at;
                bytes.extend_from_slice(&file[at..at + full]);
                index += 1;
            }
            if bytes != file[offset..offset + length] {
                let what = format_args!("region put together, segment size {size}");
                self.tally.differ(
                    what,
                    Hex(file),
                    Hex(&bytes),
                    Hex(&file[offset..offset + length]),
                );
            }
        }
        if index != count {
            self.tally.differ(
                format_args!("segments in all regions"),
                Hex(file),
                count,
                index,
            );
        }
    }

    pub fn all_images(&mut self) {
        self.set_images();
        self.small_files();
        for _ in 0..40 {
            for count in 1..=64 {
                self.good_and_spoilt("good, 1 to 64 regions", count);
            }
        }
        for count in 65..=128 {
            self.good_and_spoilt("good, 65 to 2,000 regions", count);
            let more = self.random.range(129, 2000);
            self.good_and_spoilt("good, 65 to 2,000 regions", more);
        }
        self.counts();
        self.wraps();
        self.cut_everywhere();
        self.large_files();
        self.many_regions();
    }

    fn good_and_spoilt(&mut self, kind: &'static str, count: usize) {
        let good = Good::new(&mut self.random, count);
        self.image(kind, &good.file(), Some(0));
        self.damaged(&good);
        self.cut_or_extended(&good);
        self.bad_trailer(&good);
        self.bad_entry(&good);
        self.bad_order(&good);
        self.moved(&good);
    }

    /// Paper 01's set cases K6 and K10, and the example of its rehearsal.
    fn set_images(&mut self) {
        let top = |length| Region {
            address: u32::MAX,
            offset: 0,
            length,
        };
        let low = |length| Region {
            address: 0,
            offset: 0,
            length,
        };
        self.image("set cases", &build(&[1, 2], &[top(1)], 0), Some(0));
        self.image("set cases", &build(&[1, 2], &[top(2)], 0), Some(7));
        let three = build(&[1, 2, 3], &[low(3)], 0);
        self.image("set cases", &three, Some(0));
        let segments = mop_proved::image_check(&three, 2).segments;
        if segments != 2 {
            self.tally.differ(
                format_args!("K10, segment size 2"),
                Hex(&three),
                segments,
                2,
            );
        }
        let example = Region {
            address: 2,
            offset: 0,
            length: 3,
        };
        self.image("set cases", &build(&[10, 11, 12], &[example], 2), Some(0));
    }

    /// Files of 0 to 60 bytes, the length field wrong and right.
    fn small_files(&mut self) {
        for length in 0..=60 {
            for filling in [0, 1, 255] {
                let mut file = vec![filling; length];
                self.image(
                    "small files",
                    &file,
                    if length < 16 { Some(5) } else { None },
                );
                if length >= 16 {
                    mend_length(&mut file);
                    self.image("small files", &file, None);
                }
            }
            for _ in 0..10 {
                let mut file = self.random.bytes(length);
                if length >= 16 {
                    mend_length(&mut file);
                    file[length - 16 + COUNT_HIGH..][..2].fill(0);
                }
                self.image("small files", &file, None);
            }
        }
    }

    fn damaged(&mut self, good: &Good) {
        let file = good.file();
        let tail = file.len() - good.body.len();
        for reach in [16, tail, tail, file.len()] {
            let mut file = file.clone();
            let at = file.len() - self.random.range(1, reach);
            file[at] = self.random.other_than(file[at]);
            self.image("damaged by one byte", &file, None);
        }
    }

    /// Bytes taken or added at the front, the end, or before the trailer, with
    /// the length field left or mended.
    fn cut_or_extended(&mut self, good: &Good) {
        let file = good.file();
        let count = self.random.pick(&[1, 1, 2, 12, 16, 30]);
        let more = self.random.bytes(count);
        let less = count.min(file.len() - 16);
        let before_trailer = [&file[..trailer(&file)], &more, &file[trailer(&file)..]];
        for mut file in [
            file[less..].to_vec(),
            file[..file.len() - less].to_vec(),
            [&more[..], &file].concat(),
            [&file[..], &more].concat(),
            before_trailer.concat(),
        ] {
            let by_chance = get_u32(&file, trailer(&file) + FILE_LENGTH) as usize == file.len();
            self.image(
                "cut or extended",
                &file,
                if by_chance { None } else { Some(5) },
            );
            mend_length(&mut file);
            self.image("cut or extended, length field mended", &file, None);
        }
        let mut roomy = good.regions.clone();
        roomy
            .iter_mut()
            .for_each(|region| region.offset += count as u32);
        let body = [&more[..], &good.body].concat();
        let file = build(&body, &roomy, good.transfer);
        self.image("unused file bytes", &file, Some(0));
    }

    /// Wrong trailer fields; the length comes before the count.
    fn bad_trailer(&mut self, good: &Good) {
        let file = good.file();
        let end = trailer(&file);
        let mut uncounted = file.clone();
        uncounted[end + COUNT] = self.random.other_than(uncounted[end + COUNT]);
        self.image("trailer fields off", &uncounted, Some(6));
        let moved = self.with_field_off(&file, DIRECTORY_OFFSET);
        self.image("trailer fields off", &moved, Some(6));
        for file in [&file, &uncounted] {
            let long = self.with_field_off(file, FILE_LENGTH);
            self.image("trailer fields off", &long, Some(5));
        }
        for mut file in [file, uncounted] {
            file[end + COUNT_HIGH + self.random.range(0, 1)] = self.random.range(1, 255) as u8;
            self.image("upper half of the count set", &file, Some(6));
        }
    }

    /// The file with a trailer field one off, or at an extreme.
    fn with_field_off(&mut self, file: &[u8], field: usize) -> Vec<u8> {
        let at = trailer(file) + field;
        let right = get_u32(file, at);
        let any = self.random.u32();
        let others = [
            right.wrapping_add(1),
            right.wrapping_sub(1),
            right.wrapping_add(12),
            right.wrapping_sub(12),
            u32::MAX,
            any,
        ];
        let other = match self.random.pick(&others) {
            same if same == right => right ^ 1,
            other => other,
        };
        let mut file = file.to_vec();
        set_u32(&mut file, at, other);
        file
    }

    /// An entry that breaks its own rule, in any place.
    fn bad_entry(&mut self, good: &Good) {
        let entry = self.random.range(0, good.regions.len() - 1);
        let body = good.body.len() as u32;
        let length = good.regions[entry].length;
        let spill = self.random.below(length.into()) as u32;
        let empty = good.changed(entry, |region| region.length = 0);
        self.image("length 0", &empty, Some(7));
        let past = good.changed(entry, |region| region.offset = body - length + 1);
        self.image("file bytes one beyond the directory", &past, Some(7));
        let wrap = good.changed(entry, |region| region.offset = spill.wrapping_sub(length));
        self.image("32-bit wrap of offset + length", &wrap, Some(7));
        let high = good.changed(entry, |region| region.address = 1u32.wrapping_sub(length));
        let wanted = if length == 1 { None } else { Some(7) };
        self.image("one beyond the top of the addresses", &high, wanted);
        let long = good.changed(entry, |region| region.length = u32::MAX);
        self.image("lengths of 32 bits", &long, Some(7));
    }

    /// Entries that begin too early; their own rule (7) comes before the
    /// order (8), and an entry's 8 before the next one's 7.
    fn bad_order(&mut self, good: &Good) {
        if good.regions.len() < 2 {
            return;
        }
        let entry = self.random.range(1, good.regions.len() - 1);
        let before = good.regions[entry - 1];
        let early = (before.end() - 1) as u32;
        let overlap = |region: &mut Region| region.address = early;
        self.image(
            "overlap by one byte",
            &good.changed(entry, overlap),
            Some(8),
        );
        let same = good.changed(entry, |region| region.address = before.address);
        self.image("overlap, same address", &same, Some(8));
        let both = good.changed(entry, |region| {
            overlap(region);
            region.length = 0;
        });
        self.image("two faults in one entry", &both, Some(7));

        let mut swapped = good.regions.clone();
        swapped.swap(entry - 1, entry);
        self.image("out of order", &good.with(&swapped), Some(8));

        let mut faults = good.regions.clone();
        overlap(&mut faults[entry]);
        let other = self.random.range(0, faults.len() - 1);
        if other != entry {
            faults[other].length = 0;
            let wanted = if other < entry { 7 } else { 8 };
            self.image("two faulty entries", &good.with(&faults), Some(wanted));
        }
    }

    /// Regions moved where they may be: adjacent, over the same file bytes, to
    /// the very top; and one at the top that is not the last.
    fn moved(&mut self, good: &Good) {
        let last = good.regions.len() - 1;
        let entry = self.random.range(0, last);
        let to_top = |region: &mut Region| region.address = region.length.wrapping_neg();
        self.image(
            "last region at the top",
            &good.changed(last, to_top),
            Some(0),
        );
        if entry < last {
            self.image(
                "region at the top, then another",
                &good.changed(entry, to_top),
                Some(8),
            );
        }
        if entry > 0 {
            let end = good.regions[entry - 1].end() as u32;
            let adjacent = good.changed(entry, |region| region.address = end);
            self.image("adjacent regions", &adjacent, Some(0));
        }
        let shared = good.changed(entry, |region| region.offset = 0);
        self.image("shared file bytes", &shared, Some(0));
        let to_end = good.body.len() as u32 - good.regions[entry].length;
        let ends = good.changed(entry, |region| region.offset = to_end);
        self.image("file bytes up to the directory", &ends, Some(0));
    }

    /// Directories of 0 to 70 and some more entries, all else right.
    fn counts(&mut self) {
        let many = (0..=70).chain([127, 128, 255, 256, 257, 320, 512, 4096, 65_535]);
        for count in many {
            for _ in 0..4 {
                let regions = regions(&mut self.random, count, 40);
                let body = self.random.bytes(40);
                let file = build(&body, &regions, self.random.u32());
                let wanted = if count == 0 { 6 } else { 0 };
                self.image("every entry count", &file, Some(wanted));
            }
        }
    }

    /// A directory offset that is right only in 32 bits: the directory would
    /// begin before the file.
    fn wraps(&mut self) {
        for length in 16..=200u32 {
            for count in [1, 2, 16, 64, 65, 65_536, REGIONS_MOST as u32] {
                let mut file = self.random.bytes(length as usize);
                let end = trailer(&file);
                let offset = length.wrapping_sub(12 * count + 16);
                set_u32(&mut file, end + DIRECTORY_OFFSET, offset);
                set_u32(&mut file, end + COUNT, count);
                mend_length(&mut file);
                let wanted = if offset > length { Some(6) } else { None };
                self.image("32-bit wrap of the directory's end", &file, wanted);
            }
        }
    }

    /// Some files cut at every length, the length field left and mended.
    fn cut_everywhere(&mut self) {
        for count in [1, 2, 5] {
            let mut random = Random::new(self.random.u64());
            let regions = regions(&mut random, count, 20);
            let file = build(&random.bytes(20), &regions, 5);
            for length in 0..file.len() {
                let mut cut = file[..length].to_vec();
                self.image(
                    "cut at every length",
                    &cut,
                    if length < 16 { Some(5) } else { None },
                );
                if length >= 16 {
                    mend_length(&mut cut);
                    self.image("cut at every length", &cut, None);
                }
            }
        }
    }

    /// About the greatest length, in one region and in 64 that share all the
    /// bytes.
    fn large_files(&mut self) {
        for count in [1, 64] {
            for length in [FILE_MOST - 1, FILE_MOST, FILE_MOST + 1] {
                let body_length = length - 16 - 12 * count;
                let body = self.random.bytes(body_length);
                let file = shared(&body, count as u32, self.random.u32());
                let wanted = if length <= FILE_MOST { 0 } else { 5 };
                self.image("about 16,777,216 bytes", &file, Some(wanted));
                if length == FILE_MOST && count == 1 {
                    self.walk(&file, 1490, (body_length as u64).div_ceil(1490));
                }
            }
        }
    }
}
