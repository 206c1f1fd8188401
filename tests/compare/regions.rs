//! Images of more than 64 regions, up to all that there may be; entry counts
//! that are not the directory's; and images of as many segments as there can
//! be.

use crate::Compare;
use crate::images::{ADDRESS_END, COUNT, DIRECTORY_OFFSET, FILE_MOST, REGIONS_MOST};
use crate::images::{Good, Region, Tried};
use crate::images::{cut, get_u32, mend_length, refused, set_u32, shared, trailer};
use crate::random::Random;
use crate::tally::Hex;

/// About the limit of before, the limit, and the steps of a count's bytes.
const COUNTS: [usize; 9] = [
    64,
    65,
    255,
    256,
    65_535,
    65_536,
    65_537,
    REGIONS_MOST - 1,
    REGIONS_MOST,
];

/// Regions that have in turn each of some lengths about a segment size, which is
/// at least 2.
pub fn mixed(random: &mut Random, count: usize, size: usize) -> Good {
    let body = random.bytes(2 * size + 1);
    let lengths = [1, size - 1, size, size, size + 1, 2 * size, 2 * size + 1];
    let mut end = 0;
    let mut regions = Vec::new();
    for place in 0..count {
        let length = lengths[place % lengths.len()];
        let address = end + random.pick(&[0, 0, 1, 7]);
        end = address + length;
        regions.push(Region {
            address: address as u32,
            offset: random.range(0, body.len() - length) as u32,
            length: length as u32,
        });
    }
    Good {
        body,
        regions,
        transfer: random.u32(),
    }
}

/// Adjacent regions over the same bytes, from address 0 on up to this end. In
/// one-byte segments, segment i has the address i.
pub fn tiles(random: &mut Random, count: usize, end: u64) -> Good {
    let longest = end.div_ceil(count as u64);
    let bound = |place: usize| (place as u64 * longest).min(end);
    let region = |place| Region {
        address: bound(place) as u32,
        offset: 0,
        length: (bound(place + 1) - bound(place)) as u32,
    };
    Good {
        body: random.bytes(longest as usize),
        regions: (0..count).map(region).collect(),
        transfer: random.u32(),
    }
}

/// The ends of a directory, the steps of a place's bytes and the middle; all
/// places of a short one.
fn places(count: usize) -> Vec<usize> {
    if count <= 256 {
        return (0..count).collect();
    }
    let steps = [0, 63, 64, 255, 256, 65_535, 65_536, count / 2, count - 1];
    steps.into_iter().filter(|&place| place < count).collect()
}

/// The first and the last segment of the regions there and close by, each with
/// its index.
pub fn segments_about_places(good: &Good, size: u32) -> Vec<(u64, mop_proved::Segment)> {
    let count = good.regions.len();
    let places = places(count);
    let mut segments = Vec::new();
    let mut first = 0;
    for (place, region) in good.regions.iter().enumerate() {
        let parts = u64::from(region.length.div_ceil(size));
        if places.iter().any(|other| place.abs_diff(*other) <= 4) {
            for part in [0, parts - 1] {
                let last = place + 1 == count && part + 1 == parts;
                segments.push((first + part, cut(region, part, size, last)));
            }
        }
        first += parts;
    }
    segments
}

impl Compare {
    pub fn many_regions(&mut self) {
        for count in COUNTS {
            let size = self.random.range(2, 40);
            let good = mixed(&mut self.random, count, size);
            let file = good.file();
            let sizes = [0, 1, size as u32, size as u32 + 1, 1490];
            self.image_at(&sizes, "64 to 100,000 regions", &file, Some(0));
            self.segments_of_regions(&good, &file, size as u32);
            self.bad_among_many(&good);
            self.other_counts(&file);
        }
        for count in 1..64 {
            let file = Good::new(&mut self.random, count).file();
            self.other_counts(&file);
        }
        self.too_many_entries();
        self.counts_come_round();
        self.most_segments();
    }

    /// The first and the last segment of regions are where the entries say.
    fn segments_of_regions(&mut self, good: &Good, file: &[u8], size: u32) {
        let tried = Tried::new(file, size);
        for (index, wanted) in segments_about_places(good, size) {
            self.known_segment(&tried, index, wanted);
        }
    }

    fn known_segment(&mut self, tried: &Tried, index: u64, wanted: mop_proved::Segment) {
        self.segment(tried, index);
        let seen = tried.segment(index);
        if seen != wanted {
            let what = format_args!("plain segment {index} against the protocol");
            self.tally.differ(what, Hex(tried.file), seen, wanted);
        }
    }

    /// An entry that breaks its own rule, or the order, in many places; the
    /// order also with a last entry that breaks its own rule, which comes later.
    fn bad_among_many(&mut self, good: &Good) {
        const KIND: &str = "a bad entry among many";
        let sizes = [1, self.random.range(2, 1490) as u32];
        let body = good.body.len() as u32;
        let last = good.regions.len() - 1;
        for place in places(last + 1) {
            let empty = good.changed(place, |region| region.length = 0);
            self.image_at(&sizes, KIND, &empty, Some(7));
            let past = good.changed(place, |region| region.offset = body - region.length + 1);
            self.image_at(&sizes, KIND, &past, Some(7));
            if place == 0 {
                continue;
            }
            let mut regions = good.regions.clone();
            regions[place].address = (regions[place - 1].end() - 1) as u32;
            self.image_at(&sizes, KIND, &good.with(&regions), Some(8));
            if place < last {
                regions[last].length = 0;
                self.image_at(&sizes, KIND, &good.with(&regions), Some(8));
            }
        }
    }

    /// A good file with its count changed: halves or bytes in another order, a
    /// half alone, one more or less, and what is the same in 16 bits, or 12
    /// times over in 32.
    fn other_counts(&mut self, file: &[u8]) {
        let at = trailer(file) + COUNT;
        let right = get_u32(file, at);
        let quarter = 1 << 30;
        let others = [
            [right.rotate_left(16), right.swap_bytes(), right << 16],
            [right % 65_536, right / 65_536, right ^ 65_536],
            [right - 1, right + 1, right + 65_536],
            [right + quarter, right + 2 * quarter, right + 3 * quarter],
            [0, REGIONS_MOST as u32 + 1, u32::MAX],
        ];
        for other in others.into_iter().flatten() {
            if other != right {
                let mut file = file.to_vec();
                set_u32(&mut file, at, other);
                self.image("another entry count", &file, Some(6));
            }
        }
    }

    /// Directories that are right but for their length, up to the longest that a
    /// file has room for, and one more.
    fn too_many_entries(&mut self) {
        let room = (FILE_MOST - 16 - 1) / 12;
        for (count, wanted) in [
            (REGIONS_MOST + 1, 6),
            (REGIONS_MOST + 2, 6),
            (2 * 65_536, 6),
            (2 * 65_536 + 1, 6),
            (2 * 65_536 + 64, 6),
            (65_536 + REGIONS_MOST, 6),
            (room, 6),
            (room + 1, 5),
        ] {
            let file = shared(&[7], count as u32, 5);
            self.image("more than 100,000 entries", &file, Some(wanted));
        }
    }

    /// Counts of which 12 times as much is a little above or below a multiple
    /// of 2^32, and directory offsets that are right in 32 bits only.
    fn counts_come_round(&mut self) {
        for turns in 1..=12u64 {
            let above = (turns << 32).div_ceil(12);
            for count in (above - 2..above + 4).filter(|&count| count < ADDRESS_END) {
                for length in [16, 24, 40, 100] {
                    let mut file = self.random.bytes(length);
                    let end = trailer(&file);
                    let offset = (end as u32).wrapping_sub((12 * count) as u32);
                    set_u32(&mut file, end + DIRECTORY_OFFSET, offset);
                    set_u32(&mut file, end + COUNT, count as u32);
                    mend_length(&mut file);
                    self.image("32-bit wrap of 12 x count", &file, Some(6));
                }
            }
        }
    }

    /// Regions that fill all addresses, or all but the last.
    fn most_segments(&mut self) {
        for (count, end) in [
            (257, ADDRESS_END),
            (257, ADDRESS_END - 1),
            (REGIONS_MOST, ADDRESS_END),
        ] {
            let good = tiles(&mut self.random, count, end);
            let file = good.file();
            self.image("about 2^32 segments", &file, Some(0));
            let tried = Tried::new(&file, 1);
            let wanted = mop_proved::Image {
                segments: end,
                transfer: good.transfer,
                regions: count as u32,
                refusal: 0,
            };
            if tried.check() != wanted {
                let what = format_args!("plain image check against the protocol");
                self.tally.differ(what, Hex(&file), tried.check(), wanted);
            }
            self.segments_of_regions(&good, &file, 1);
            self.known_segment(&tried, end, refused(10));
            self.known_segment(&tried, end + 1, refused(10));
        }
    }
}
