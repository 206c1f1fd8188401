//! Set inputs with their whole output, by the protocol's rules and by hand.

use crate::inputs::{Input, Wanted};

/// The protocol's image: three bytes at address 2, transfer address 2.
const IMAGE: &str = "0A0B0C0200000000000000030000000300000001000000020000001F000000";

/// An input, in which `I` stands for the protocol's image, and its output.
const CASES: &[(&str, &str)] = &[
    // The protocol's own.
    (
        "8 2 1\nI\ntxmhtht\n",
        "T 08000102FF00\nH 0200020000000A0B\nH 0200020000000A0B\nT 0A0100\n\
         H 0001040000000C02000000\nT 0A0200\nEND 1 3 00000002 00000A0B0C000000\n",
    ),
    // The first frame is printed and queued before the events, also with none.
    (
        "8 2 1\nI\n\n",
        "T 08000102FF00\nEND 0 0 - 0000000000000000\n",
    ),
    // Events on empty queues.
    ("1 2 1\nI\nhkxm\n", "T 08000102FF00\nEND 0 0 - 00\n"),
    ("1 2 1\nI\nytuyhkx\n", "T 08000102FF00\nEND 0 0 - 00\n"),
    // The machine's timer; a request is handed over and kept.
    (
        "2 3 0\nI\nnuu\n",
        "T 08000102FF00\nT 08000102FF00\nH 0000020000000A0B0C02000000\nEND 0 1 - 0000\n",
    ),
    // A started machine ignores the frame that was kept; a loading one takes
    // number 0 anew.
    (
        "5 3 0\nI\ntkh\n",
        "T 08000102FF00\nH 0000020000000A0B0C02000000\nT 0A0100\nEND 0 1 00000002 00000A0B0C\n",
    ),
    (
        "4 2 0\nI\ntkk\n",
        "T 08000102FF00\nH 0200020000000A0B\nT 0A0100\nT 0A0100\nEND 0 1 - 00000A0B\n",
    ),
    // One byte too few: rejected, with the first segment in.
    (
        "4 2 9\nI\nththtm\n",
        "T 08000102FF00\nH 0200020000000A0B\nT 0A0100\nH 0001040000000C02000000\n\
         T 0A0201\nEND 2 2 - 00000A0B\n",
    ),
    // R 0: the first timer ends it, given up with two segments, else unconfirmed.
    (
        "5 2 0\nI\ntmm\n",
        "T 08000102FF00\nH 0200020000000A0B\nEND 3 1 - 0000000000\n",
    ),
    (
        "5 1490 0\nI\nthm\n",
        "T 08000102FF00\nH 0000020000000A0B0C02000000\nT 0A0100\n\
         END 4 1 00000002 00000A0B0C\n",
    ),
    (
        "5 3 0\nI\ntxm\n",
        "T 08000102FF00\nH 0000020000000A0B0C02000000\nEND 4 1 - 0000000000\n",
    ),
    // The form comes before the image.
    ("8 2 1\n\n\n", "BAD 5\n"),
    ("8 2 1\n\nq\n", "BAD 10\n"),
    ("8 0 1\n\n\n", "BAD 10\n"),
    ("8 2 1\n00\n\n", "BAD 5\n"),
    ("8 2 1\n0\n\n", "BAD 10\n"),
    // The ends of the ranges.
    ("1 1 0\nI\n\n", "T 08000102FF00\nEND 0 0 - 00\n"),
    ("1 1490 255\nI\n\n", "T 08000102FF00\nEND 0 0 - 00\n"),
    ("0 2 1\nI\n\n", "BAD 10\n"),
    ("4097 2 1\nI\n\n", "BAD 10\n"),
    ("8 0 1\nI\n\n", "BAD 10\n"),
    ("8 1491 1\nI\n\n", "BAD 10\n"),
    ("8 2 256\nI\n\n", "BAD 10\n"),
    // Noughts: one is a number, two are none.
    (
        "8 2 0\nI\n\n",
        "T 08000102FF00\nEND 0 0 - 0000000000000000\n",
    ),
    ("8 2 00\nI\n\n", "BAD 10\n"),
    ("08 2 1\nI\n\n", "BAD 10\n"),
    ("8 02 1\nI\n\n", "BAD 10\n"),
    ("8 2 01\nI\n\n", "BAD 10\n"),
    ("8 +2 1\nI\n\n", "BAD 10\n"),
    ("8 2 -0\nI\n\n", "BAD 10\n"),
    ("4294967304 2 1\nI\n\n", "BAD 10\n"),
    ("8 18446744073709551618 1\nI\n\n", "BAD 10\n"),
    // Marks between the numbers.
    ("8  2 1\nI\n\n", "BAD 10\n"),
    ("8\t2 1\nI\n\n", "BAD 10\n"),
    (" 8 2 1\nI\n\n", "BAD 10\n"),
    ("8 2 1 \nI\n\n", "BAD 10\n"),
    ("8 2\nI\n\n", "BAD 10\n"),
    ("8 2 1 1\nI\n\n", "BAD 10\n"),
    // Line ends.
    ("", "BAD 10\n"),
    ("\n", "BAD 10\n"),
    ("\n\n\n", "BAD 10\n"),
    ("8 2 1\nI\n", "BAD 10\n"),
    ("8 2 1\nI\nt", "BAD 10\n"),
    ("8 2 1\nI\nt\n\n", "BAD 10\n"),
    ("\n8 2 1\nI\nt\n", "BAD 10\n"),
    ("8 2 1\r\nI\nt\n", "BAD 10\n"),
    ("8 2 1\nI\r\nt\n", "BAD 10\n"),
    ("8 2 1\nI\nt\r\n", "BAD 10\n"),
    // Letters.
    ("8 2 1\n0a\n\n", "BAD 10\n"),
    ("8 2 1\nI \n\n", "BAD 10\n"),
    ("8 2 1\nI\nT\n", "BAD 10\n"),
    ("8 2 1\nI\nt h\n", "BAD 10\n"),
];

pub fn cases() -> Vec<Input> {
    let case = |&(text, printed): &(&str, &str)| Input {
        text: text.replace('I', IMAGE).into_bytes(),
        wanted: Wanted::Printed(printed.as_bytes().to_vec()),
    };
    let mut cases: Vec<Input> = CASES.iter().map(case).collect();
    cases.extend(longest());
    cases.extend([14, 15].map(requests));
    cases.extend([14, 15].map(segments));
    cases
}

/// So many more requests than the first, then a reply, which finds the 16th
/// place or none; then all is handed over.
fn requests(more: usize) -> Input {
    let letters = "n".repeat(more) + "uh" + &"t".repeat(17);
    let next = match more {
        14 => "H 0001040000000C02000000\nEND 0 2 - 00000A0B00\n",
        _ => "END 0 1 - 00000A0B00\n",
    };
    let first = "T 08000102FF00\n".repeat(1 + more);
    let printed = first + "H 0200020000000A0B\nT 0A0100\n" + next;
    Input {
        text: format!("5 2 0\n{IMAGE}\n{letters}\n").into_bytes(),
        wanted: Wanted::Printed(printed.into_bytes()),
    }
}

/// So many repeats of the first segment, then the second one, which finds the
/// 16th place or none; then all is handed over.
fn segments(repeats: usize) -> Input {
    let letters = "t".to_string() + &"m".repeat(repeats) + "kt" + &"h".repeat(17);
    let rest = match repeats {
        14 => "T 0A0100\n".repeat(15) + "T 0A0200\nEND 0 16 00000002 00000A0B0C\n",
        _ => "T 0A0100\n".repeat(16) + "END 0 17 - 00000A0B00\n",
    };
    let first = "H 0200020000000A0B\n".repeat(1 + repeats);
    let second = "T 0A0100\nH 0001040000000C02000000\n";
    let printed = "T 08000102FF00\n".to_string() + &first + second + &rest;
    Input {
        text: format!("5 2 255\n{IMAGE}\n{letters}\n").into_bytes(),
        wanted: Wanted::Printed(printed.into_bytes()),
    }
}

/// 8,192 bytes pass and 8,193 do not.
fn longest() -> [Input; 2] {
    let text = |length: usize| {
        let start = format!("1 1 0\n{IMAGE}\n");
        let letters = "h".repeat(length - start.len() - 1);
        (start + &letters + "\n").into_bytes()
    };
    let printed = b"T 08000102FF00\nEND 0 0 - 00\n".to_vec();
    let passes = Input {
        text: text(8192),
        wanted: Wanted::Printed(printed),
    };
    [passes, Input::bad(text(8193), 10)]
}
