//! Parameter strings, entry by entry: good ones, bad ones, and what a machine
//! keeps of them (PROTOCOL 4, "A code 20 that is taken").

use crate::Compare;
use crate::make::{self, TIME_BOUNDS, V2_1, V3_0, short_types};
use crate::random::Random;
use mop_plain::entries;
use mop_plain::version::Version;
use mop_proved::{Parameters, Value};

/// The longest string.
pub const STRING_MOST: usize = 1493;

/// A string, and its refusal at a load: 0, 4 or 2.
pub type Judged = (Vec<u8>, u8);

/// The last value of a type, empty if it is absent.
pub fn last_of(entries: &[Vec<u8>], kind: u8) -> &[u8] {
    let entry = entries.iter().rev().find(|entry| entry[0] == kind);
    entry.map_or(&[], |entry| &entry[2..])
}

/// What a machine keeps: of each type the last value, then zeros.
pub fn kept(entries: &[Vec<u8>]) -> Parameters {
    let last = |kind| value(last_of(entries, kind));
    Parameters {
        target_name: last(1),
        target_address: last(2),
        host_name: last(3),
        host_address: last(4),
        host_time: last(5),
    }
}

fn value(bytes: &[u8]) -> Value {
    Value {
        length: bytes.len() as u8,
        bytes: std::array::from_fn(|place| bytes.get(place).copied().unwrap_or(0)),
    }
}

/// Good entries of every sort: none, each type, types more than once, all
/// types, and as many as a frame holds.
pub fn good_lists(random: &mut Random, version: u8) -> Vec<Vec<Vec<u8>>> {
    let mut lists = vec![vec![]];
    for (kind, most) in short_types(version) {
        let [none, one, short, long] =
            [0, 1, most - 1, most].map(|length| make::with_head(kind, random.bytes(length)));
        lists.extend([&none, &one, &short, &long].map(|entry| vec![entry.clone()]));
        lists.push(vec![long.clone(), one.clone()]);
        lists.push(vec![one.clone(), long.clone()]);
        lists.push(vec![long.clone(), none.clone()]);
        lists.push(vec![none, long.clone()]);
        lists.push(vec![one, long, short]);
    }
    if version == V3_0 {
        let [first, second] = [(); 2].map(|()| make::with_head(5, make::time(random).to_vec()));
        lists.push(vec![first.clone()]);
        lists.push(vec![first, second]);
    }
    let mut all = all_types(random, version);
    lists.push(all.clone());
    all.extend(all_types(random, version));
    lists.push(all.clone());
    all.reverse();
    lists.push(all);
    lists.extend([1492, STRING_MOST].map(|length| make::filling(random, version, length)));
    lists
}

/// One entry of each type that the version has.
fn all_types(random: &mut Random, version: u8) -> Vec<Vec<u8>> {
    let mut all = Vec::new();
    for (kind, most) in short_types(version) {
        let length = random.range(0, most);
        all.push(make::with_head(kind, random.bytes(length)));
    }
    if version == V3_0 {
        all.push(make::with_head(5, make::time(random).to_vec()));
    }
    all
}

/// Entries that are bad wherever they stand.
fn bad_entries(random: &mut Random, version: u8) -> Vec<Vec<u8>> {
    let mut bad: Vec<Vec<u8>> = Vec::new();
    for kind in [0, 6, 7, 64, 128, 255] {
        bad.push(make::with_head(kind, vec![]));
        bad.push(make::with_head(kind, random.bytes(3)));
    }
    for (kind, most) in short_types(version) {
        for length in [most + 1, most + 2, 255] {
            bad.push(make::with_head(kind, random.bytes(length)));
        }
    }
    for length in [0, 1, 9, 11, 16, 255] {
        let mut time = make::time(random).to_vec();
        time.resize(length, 0);
        bad.push(make::with_head(5, time));
    }
    if version == V2_1 {
        bad.push(make::with_head(5, make::time(random).to_vec()));
    }
    bad.extend(bad_times(random));
    bad
}

/// Host times with one field out of its range, or an offset of two signs.
fn bad_times(random: &mut Random) -> Vec<Vec<u8>> {
    let mut bad = Vec::new();
    let mut with = |random: &mut Random, fields: &[(usize, u8)]| {
        let mut time = make::time(random);
        fields.iter().for_each(|&(at, field)| time[at] = field);
        bad.push(make::with_head(5, time.to_vec()));
    };
    for (at, (least, most)) in TIME_BOUNDS.into_iter().enumerate() {
        with(random, &[(at, most + 1)]);
        with(random, &[(at, 255)]);
        if least > 0 {
            with(random, &[(at, 0)]);
        }
    }
    for (hours, minutes) in [(14, 0), (-13, 0), (0, 60), (0, -60), (1, -30), (-1, 30)] {
        with(random, &[(8, hours as u8), (9, minutes as u8)]);
    }
    bad
}

/// Entries that end too early.
fn cut_entries(random: &mut Random, version: u8) -> Vec<Vec<u8>> {
    let types = short_types(version);
    let mut longest = |(kind, most)| make::with_head(kind, random.bytes(most));
    let whole = [
        longest(types[0]),
        longest(types[3]),
        make::with_head(5, make::time(random).to_vec()),
    ];
    let cuts = |entry: &Vec<u8>| (1..entry.len()).map(|end| entry[..end].to_vec()).collect();
    whole.iter().flat_map::<Vec<_>, _>(cuts).collect()
}

/// Strings about and above the greatest length; 4 comes before 2.
fn long_strings(random: &mut Random, version: u8) -> Vec<Judged> {
    let mut long = Vec::new();
    for length in [1494, 1495, 1500, 2000, 4096, 70_000] {
        let good = make::filling(random, version, length).concat();
        for end in [&[0][..], &[5], &[1, 17], &[6, 0]] {
            long.push(([&good, end].concat(), 4));
        }
        long.push((good, 2));
    }
    // One byte more than a frame holds, which is no entry.
    let full = make::filling(random, version, STRING_MOST).concat();
    long.push(([&full[..], &[1]].concat(), 4));
    long
}

/// Strings of every sort, with their refusals.
pub fn set_strings(random: &mut Random, version: u8) -> Vec<Judged> {
    let good = good_lists(random, version).into_iter();
    let mut strings: Vec<Judged> = good.map(|list| (list.concat(), 0)).collect();
    for bad in bad_entries(random, version) {
        let [before, behind] = [(); 2].map(|()| make::entry(random, version));
        strings.push(([&before, &bad, &behind].map(|entry| &entry[..]).concat(), 4));
        strings.push((bad, 4));
    }
    for cut in cut_entries(random, version) {
        strings.push(([make::entry(random, version), cut.clone()].concat(), 4));
        strings.push((cut, 4));
    }
    strings.extend(long_strings(random, version));
    strings
}

impl Compare {
    /// Good entries that a load may end with.
    pub fn any_entries(&mut self, version: u8) -> Vec<Vec<u8>> {
        let room = self.random.pick(&[40, 80, 80, 80, STRING_MOST]);
        make::entries(&mut self.random, version, room)
    }

    /// A string, mostly a good one.
    pub fn any_string(&mut self, version: u8) -> Judged {
        let mut entries = self.any_entries(version);
        let place = self.random.range(0, entries.len());
        match self.random.below(16) {
            0 => {
                let bad = bad_entries(&mut self.random, version);
                entries.insert(place, bad[self.random.range(0, bad.len() - 1)].clone());
                (entries.concat(), 4)
            }
            1 => {
                let cut = cut_entries(&mut self.random, version);
                entries.push(cut[self.random.range(0, cut.len() - 1)].clone());
                (entries.concat(), 4)
            }
            2 => {
                let length = self.random.range(1494, 2500);
                (make::filling(&mut self.random, version, length).concat(), 2)
            }
            3 if !entries.is_empty() => {
                let string = self.damage(&entries.concat());
                let known = Version::from_number(version);
                let good = known.is_ok_and(|known| entries::are_good(known, &string));
                (string, if good { 0 } else { 4 })
            }
            _ => (entries.concat(), 0),
        }
    }
}
