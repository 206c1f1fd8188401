//! Inputs of the wrong form, one fault in each. Half have a bad image
//! besides, which must not be seen.

use crate::inputs::Input;
use crate::job::{INPUT_MOST, Job, Lines};
use crate::loads::small;
use crate::random::Random;

/// A good job, or one whose image is bad.
fn any_job(random: &mut Random) -> Job {
    let mut job = small(random);
    job.events = random.pick(&[&b""[..], b"ththt", b"txmhtht"]).to_vec();
    match random.below(8) {
        0 => job.regions.clear(),
        1 => job.regions[0].length = 0,
        2 => job.regions.push(job.regions[0]),
        3 => job.body.clear(),
        _ => {}
    }
    job
}

fn any_lines(random: &mut Random) -> Lines {
    any_job(random).lines()
}

fn malformed(lines: &Lines) -> Input {
    Input::bad(lines.text(), 10)
}

/// One of the three numbers is changed.
fn with_number(random: &mut Random, change: impl Fn(&mut Random, usize, usize) -> String) -> Input {
    let job = any_job(random);
    let mut numbers = [job.memory, job.size, job.repeats].map(|number| number.to_string());
    let place = random.range(0, 2);
    let right = [job.memory, job.size, job.repeats][place];
    numbers[place] = change(random, place, right);
    let mut lines = job.lines();
    lines.numbers = numbers.join(" ").into_bytes();
    malformed(&lines)
}

/// No number, signs, leading zeros and other ways to write one.
pub fn numbers(random: &mut Random) -> Input {
    with_number(random, |random, _, right| match random.below(14) {
        0 => String::new(),
        1 => "00".to_string(),
        2 => format!("+{right}"),
        3 => format!("-{right}"),
        4 => format!("{right}."),
        5 => format!("0x{right}"),
        6 => format!("{right}h"),
        7 => format!("{right}\0"),
        8 => format!("{right},"),
        9 => format!("{right}:"),
        10 => format!("/{right}"),
        11 => format!("1{right}e0"),
        12 => format!("A{right}"),
        _ => "0".repeat(random.range(1, 3)) + &right.to_string(),
    })
}

/// The greatest of each number.
const MOST: [usize; 3] = [4096, 1490, 255];

/// Just outside the range, or inside it modulo a power of 2.
pub fn ranges(random: &mut Random) -> Input {
    with_number(random, |random, place, right| {
        let most = MOST[place];
        let above = random.range(most + 1, 9999);
        let power = random.pick(&[16, 31, 32, 63, 64, 65]);
        let times = 1 + u128::from(random.below(1000));
        let wrapped = right as u128 + (times << power);
        match random.below(4) {
            0 if place < 2 => "0".to_string(),
            1 => (most + 1).to_string(),
            2 => above.to_string(),
            _ => wrapped.to_string(),
        }
    })
}

/// Numbers of a thousand digits and more. With 64 noughts before it a number
/// is the same modulo 2^64.
pub fn long_numbers(random: &mut Random) -> Input {
    with_number(random, |random, _, right| {
        let count = random.pick(&[70, 1000, 1000, 1000, 3000]);
        let digit = random.range(1, 9).to_string();
        match random.below(4) {
            0 => digit.repeat(count),
            1 => format!("{right:0count$}"),
            2 => format!("{digit}{}{right:064}", "0".repeat(count)),
            _ => {
                let any = (0..count).map(|_| random.below(10).to_string());
                digit + &any.collect::<String>()
            }
        }
    })
}

/// Other marks between the numbers, and about them.
pub fn spaces(random: &mut Random) -> Input {
    let mut lines = any_lines(random);
    let text = String::from_utf8_lossy(&lines.numbers).to_string();
    let changed = match random.below(11) {
        0 => text.replacen(' ', "  ", 1),
        1 => text.replacen(' ', "\t", 1),
        2 => text.replace(' ', "\t"),
        3 => text.replacen(' ', ",", 1),
        4 => text.replacen(' ', "", 1),
        5 => format!(" {text}"),
        6 => format!("{text} "),
        7 => format!("{text}\t"),
        8 => format!("{text} 1"),
        9 => text.replacen(' ', "\0", 1),
        _ => text.replacen(' ', "\r", 1),
    };
    lines.numbers = changed.into_bytes();
    malformed(&lines)
}

/// Neighbours of the digits and of the letters, small letters, marks.
const NO_DIGITS: &[u8] = b"/:@G`abcdefg xX-_.,\t\r\x0B\0\x7F\x80\xB0\xC1\xFF";

/// Bytes that are no capital hexadecimal digits, and odd numbers of digits.
pub fn digits(random: &mut Random) -> Input {
    let mut lines = any_lines(random);
    let image = &mut lines.image;
    if image.is_empty() {
        image.extend(b"0A");
    }
    let place = random.range(0, image.len() - 1);
    match random.below(8) {
        0 => drop(image.remove(place)),
        1 => image.insert(place, b'0'),
        2 => image.push(b'0'),
        3 => {
            image.insert(place, b' ');
            image.push(b' ');
        }
        4 => {
            image[place] = b'A';
            image.make_ascii_lowercase();
        }
        _ => image[place] = random.pick(NO_DIGITS),
    }
    malformed(&lines)
}

/// An event that is none of the eight letters.
pub fn events(random: &mut Random) -> Input {
    let mut lines = any_lines(random);
    let mut other = random.u8();
    while b"hkxtuymn\n".contains(&other) {
        other = random.pick(b"HKXTUYMN gijlopswvz0\r\t\0\x80\xE8\xF4\xFF");
    }
    let place = random.range(0, lines.events.len());
    lines.events.insert(place, other);
    malformed(&lines)
}

/// Carriage returns before the line feeds, or in their place.
pub fn carriage_returns(random: &mut Random) -> Input {
    let mut lines = any_lines(random);
    let return_only = String::from_utf8_lossy(&lines.text()).replace('\n', "\r");
    match random.below(5) {
        0 => lines.numbers.push(b'\r'),
        1 => lines.image.push(b'\r'),
        2 => lines.events.push(b'\r'),
        3 => return Input::bad(return_only.into_bytes(), 10),
        _ => {
            for line in [&mut lines.numbers, &mut lines.image, &mut lines.events] {
                line.push(b'\r');
            }
        }
    }
    malformed(&lines)
}

/// Line feeds missing, added or moved.
pub fn line_feeds(random: &mut Random) -> Input {
    let mut text = any_lines(random).text();
    let feeds: Vec<usize> = (0..text.len()).filter(|&at| text[at] == b'\n').collect();
    let place = random.pick(&feeds);
    match random.below(7) {
        0 => drop(text.remove(place)),
        1 => drop(text.pop()),
        2 => text.push(b'\n'),
        3 => text.insert(0, b'\n'),
        4 => text.insert(random.range(0, text.len()), b'\n'),
        5 => text[place] = random.pick(b"\0\r \x0B\x85"),
        _ => text.extend(text.clone()),
    }
    Input::bad(text, 10)
}

/// A good input cut anywhere before its end.
pub fn cut(random: &mut Random) -> Input {
    let mut text = any_lines(random).text();
    text.truncate(random.range(0, text.len() - 1));
    Input::bad(text, 10)
}

/// Something behind a good input.
pub fn more(random: &mut Random) -> Input {
    let mut text = any_lines(random).text();
    let more: &[u8] = random.pick(&[&b"\0"[..], b" ", b"h", b"\r\n", b"END", b"\x1A", b"\0\0\0"]);
    text.extend(more);
    Input::bad(text, 10)
}

pub fn empty(_: &mut Random) -> Input {
    Input::bad(Vec::new(), 10)
}

/// A byte of a good input changed, added or taken, anywhere.
pub fn damaged(random: &mut Random) -> Input {
    let mut text = any_lines(random).text();
    let place = random.range(0, text.len() - 1);
    let common = random.pick(b"0123456789ABCDEFabchkxtuymn \n\r\t\0\xFF");
    match random.below(5) {
        0 => text[place] = random.other_than(text[place]),
        1 => text[place] = common,
        2 => text.insert(place, common),
        3 => text.insert(place, random.u8()),
        _ => drop(text.remove(place)),
    }
    Input::agreed(text)
}

/// Any bytes, or any of those that can occur.
pub fn noise(random: &mut Random) -> Input {
    let count = random.pick(&[1, 2, 3, 10, 100]);
    let any = random.bytes(count);
    let text = match random.below(4) {
        0 => any,
        1 => any
            .iter()
            .map(|&byte| b"01 \n"[usize::from(byte % 4)])
            .collect(),
        2 => b"\n".repeat(count.min(8)),
        _ => (any.iter())
            .map(|&byte| b"0128 \nAht"[usize::from(byte % 9)])
            .collect(),
    };
    Input::agreed(text)
}

/// More bytes than are read, whatever they are: some are a good input and
/// more behind it.
pub fn too_many_bytes(random: &mut Random) -> Input {
    let length = random.pick(&[1, 1, 2, 1000, 8192, 60_000, 200_000]) + INPUT_MOST;
    let mut text = any_lines(random).text();
    match random.below(5) {
        0 => text = random.bytes(length),
        1 => text.resize(length, b'\n'),
        2 => text.resize(length, 0),
        3 => {
            let last = text.pop();
            text.resize(length - 1, b'h');
            text.extend(last);
        }
        _ => {
            // The first 8,192 bytes would do.
            text.pop();
            text.resize(INPUT_MOST - 1, b'x');
            text.push(b'\n');
            text.resize(length, random.pick(b"\n\0h "));
        }
    }
    Input::bad(text, 10)
}
