//! Compares the two ends: single steps on all sorts of records, and whole runs
//! over a link that loses and doubles frames.

mod beyond;
mod blocks;
mod count_cases;
mod counts;
mod dump;
mod frames;
mod link;
mod load;
mod load_parameters;
mod looping;
mod machine;
mod machine_parameters;
mod machine_windows;
mod noise;
mod regions;
mod repeats;
mod reset_runs;
mod restarts;
mod runs;
mod seen;
mod strings;
mod too_many;
mod versions;
mod window_runs;

use std::fmt::{self, Debug};

use crate::Compare;
use crate::random::Random;
use crate::tally::Hex;
use mop_plain::frame::{self, Frame};
use mop_plain::step::Sent;
use mop_plain::version::Version;
use mop_proved::{Step, Written};

use counts::Host;
pub use seen::Seen;

/// A step needs a reply buffer of this many bytes.
const ROOM: usize = 1500;
/// Bytes kept before and behind each buffer, to see that they stay.
const MARGIN: usize = 24;

/// The machine, or the host's load, dump or loop test, with all that stays the
/// same over its calls.
pub trait End: Debug {
    /// In the shape of mop.h.
    type Record: Copy + Debug + Default + PartialEq;
    const NAME: &'static str;
    /// Heads the counts of its cases.
    const STEPS: &'static str;

    /// The plain implementation's step. `store` is the machine's memory, the
    /// dump's buffer, or empty.
    fn plain(
        &self,
        record: Self::Record,
        event: Event,
        store: &mut [u8],
        reply: &mut [u8],
    ) -> Result<(Self::Record, Sent), u8>;

    fn proved(
        &self,
        record: Self::Record,
        event: Event,
        store: &mut [u8],
        reply: &mut [u8],
    ) -> Step<Self::Record>;

    /// The same step with the record updated in its place, where there is one.
    fn in_place(
        &self,
        _: &mut Self::Record,
        _: Event,
        _: &mut [u8],
        _: &mut [u8],
    ) -> Option<Written> {
        None
    }

    /// The record that a start makes; a start that is refused gives it too.
    fn begun(&self) -> Self::Record;

    /// The record's verdict, or the machine's state.
    fn verdict(record: &Self::Record) -> u8;

    /// What the record says of the frames that came, if it has counts.
    fn host(_: &Self::Record) -> Option<Host> {
        None
    }

    /// The version in its settings, which may be none.
    fn version(&self) -> u8;
}

/// What happens to an end.
#[derive(Clone, Copy, Debug)]
pub enum Event<'a> {
    Start,
    Frame(Hex<'a>),
    Timer,
}

impl Event<'_> {
    fn name(&self) -> &'static str {
        match self {
            Event::Start => "start",
            Event::Frame(_) => "frame",
            Event::Timer => "timer",
        }
    }

    /// The frame's own refusal at an end, 0 for none.
    fn refusal(&self, end: &impl End) -> u8 {
        match self {
            Event::Frame(Hex(bytes)) => read(end, bytes).err().unwrap_or(0),
            _ => 0,
        }
    }
}

/// One call.
#[derive(Debug)]
pub struct Case<'a, E: End> {
    kind: &'static str,
    end: &'a E,
    /// All 0 for a start, which is given none.
    record: E::Record,
    event: Event<'a>,
    /// The reply buffer's length.
    room: usize,
    /// The refusal by the protocol, 0 for none.
    wanted: u8,
}

impl<'a, E: End> Case<'a, E> {
    /// A call with this refusal of its settings or record, 0 for none; those
    /// of the reply buffer and of the frame come behind it.
    fn judged(
        kind: &'static str,
        end: &'a E,
        record: E::Record,
        event: Event<'a>,
        room: usize,
        refusal: u8,
    ) -> Self {
        Case {
            kind,
            end,
            record,
            event,
            room,
            wanted: first(&[refusal, room_refusal(room), event.refusal(end)]),
        }
    }

    /// The record that a refusal gives back.
    fn kept(&self) -> E::Record {
        match self.event {
            Event::Start => self.end.begun(),
            _ => self.record,
        }
    }
}

/// What a call gave.
pub struct Outcome<R> {
    pub record: R,
    pub refusal: u8,
    pub frame: Option<Vec<u8>>,
}

/// Reads a frame under an end's version.
fn read<'a>(end: &impl End, bytes: &'a [u8]) -> Result<Frame<'a>, u8> {
    Version::from_number(end.version()).and_then(|version| frame::read(version, bytes))
}

/// The record, frame and store that a call is to give.
type Known<'a, R> = (R, Option<&'a [u8]>, &'a [u8]);

/// The buffers of a call, each between margins.
#[derive(Clone, PartialEq)]
struct Lent {
    store: Vec<u8>,
    reply: Vec<u8>,
}

impl Lent {
    fn new(random: &mut Random, store: &[u8], room: usize) -> Lent {
        let margins = random.bytes(2 * MARGIN);
        let (before, behind) = margins.split_at(MARGIN);
        Lent {
            store: [before, store, behind].concat(),
            reply: random.bytes(MARGIN + room + MARGIN),
        }
    }

    /// The store and the reply buffer.
    fn parts(&mut self) -> (&mut [u8], &mut [u8]) {
        (inside(&mut self.store), inside(&mut self.reply))
    }
}

fn inside(bytes: &mut [u8]) -> &mut [u8] {
    let end = bytes.len() - MARGIN;
    &mut bytes[MARGIN..end]
}

impl Compare {
    pub fn all_ends(&mut self) {
        self.machine_steps();
        self.load_steps();
        self.region_steps();
        self.dump_steps();
        self.count_cases();
        self.restart_steps();
        self.set_run();
        self.load_runs();
        self.window_runs();
        self.region_runs();
        self.reset_runs();
        self.one_frame_too_many();
        self.dump_runs();
        self.larger_limits();
        self.noisy_sessions();
        self.all_loops();
        self.host_versions();
        self.ends_beyond_32_bits();
    }

    /// Makes one call of both implementations, and compares the answers,
    /// records and all bytes in and around the buffers. The store is left as
    /// the plain one left it.
    pub fn step<E: End>(&mut self, case: Case<E>, store: &mut [u8]) -> Outcome<E::Record> {
        let before = Lent::new(&mut self.random, store, case.room);
        let mut plain = before.clone();
        let mut proved = before.clone();
        let answer = run_plain(&case, &mut plain);
        let seen = run_proved(&case, &mut proved);
        let expected = in_c(&case, answer);

        if seen != expected {
            self.differ_in_step("answer", &case, store, seen, expected);
        }
        if proved.reply != plain.reply {
            let (seen, wanted) = (Hex(&proved.reply), Hex(&plain.reply));
            self.differ_in_step("reply buffer", &case, store, seen, wanted);
        }
        if proved.store != plain.store {
            let (seen, wanted) = (Hex(&proved.store), Hex(&plain.store));
            self.differ_in_step("memory or dump buffer", &case, store, seen, wanted);
        }
        if let Some((seen, lent)) = run_in_place(&case, &before)
            && (seen != expected || lent != plain)
        {
            self.differ_in_step("in its place", &case, store, seen, expected);
        }
        if let Err(wanted) = judge(&case, answer, &before, &plain) {
            self.differ_in_step(
                "plain step against the protocol",
                &case,
                store,
                answer,
                wanted,
            );
        }

        let outcome = Outcome {
            record: expected.record,
            refusal: expected.answer.refusal,
            frame: sent_bytes(answer, &plain.reply),
        };
        self.tally.step(&case, &outcome);
        store.copy_from_slice(inside(&mut plain.store));
        outcome
    }

    fn differ_in_step<E: End>(
        &mut self,
        what: &str,
        case: &Case<E>,
        store: &[u8],
        seen: impl Debug,
        wanted: impl Debug,
    ) {
        let what = format_args!("{} {}, {what}", E::NAME, case.event.name());
        self.report(what, (case, Hex(store)), seen, wanted);
    }

    /// Reports a difference, with its numbers in decimal.
    fn report(
        &mut self,
        what: fmt::Arguments,
        input: impl Debug,
        seen: impl Debug,
        wanted: impl Debug,
    ) {
        let input = format_args!("{input:?}");
        let seen = format_args!("{seen:?}");
        let wanted = format_args!("{wanted:?}");
        self.tally.differ(what, input, seen, wanted);
    }

    /// A call that is to give this record, frame and store, by the protocol.
    fn set_case<E: End>(
        &mut self,
        end: &E,
        record: E::Record,
        event: Event,
        store: &[u8],
        wanted: Known<E::Record>,
    ) {
        self.known_case("set cases", end, record, event, store, wanted);
    }

    /// The same for a case of another kind.
    fn known_case<E: End>(
        &mut self,
        kind: &'static str,
        end: &E,
        record: E::Record,
        event: Event,
        store: &[u8],
        wanted: Known<E::Record>,
    ) {
        let case = Case {
            kind,
            end,
            record,
            event,
            room: ROOM,
            wanted: 0,
        };
        let mut store = store.to_vec();
        let Outcome {
            record: after,
            frame,
            ..
        } = self.step(case, &mut store);
        let seen = (after, frame.as_deref(), &store[..]);
        if seen != wanted {
            let what = format_args!("plain {}, {kind}", E::NAME);
            self.report(what, (end, record, event), seen, wanted);
        }
    }

    /// A call with reply buffers of every length about the bound, and of some
    /// others, where all else is good: 9 below 1,500 bytes.
    fn rooms<E: End>(&mut self, end: &E, record: E::Record, event: Event, store: &[u8]) {
        let rooms = (0..=20).chain(1480..=1520);
        for room in rooms.chain([255, 256, 3000, 65_535, 65_536, 67_036]) {
            let case = Case {
                kind: "reply buffers of many lengths",
                end,
                record,
                event,
                room,
                wanted: room_refusal(room),
            };
            self.step(case, &mut store.to_vec());
        }
    }

    /// A reply buffer's length, mostly enough.
    fn any_reply_room(&mut self) -> usize {
        match self.random.below(16) {
            0 => self.random.range(1490, 1499),
            1 => self.random.pick(&[0, 1, 3, 1024, 1499]),
            2 => self.random.range(1501, 1600),
            _ => ROOM,
        }
    }

    /// A byte of at least this, often the least.
    fn number_from(&mut self, least: u8) -> u8 {
        let any = self.random.range(least.into(), 255) as u8;
        self.random.pick(&[least, any])
    }

    /// Whether a case is to have a fault of some sort.
    fn faulty(&mut self) -> bool {
        self.random.once_in(8)
    }
}

fn run_plain<E: End>(case: &Case<E>, lent: &mut Lent) -> Result<(E::Record, Sent), u8> {
    let (store, reply) = lent.parts();
    case.end.plain(case.record, case.event, store, reply)
}

fn run_proved<E: End>(case: &Case<E>, lent: &mut Lent) -> Step<E::Record> {
    let (store, reply) = lent.parts();
    case.end.proved(case.record, case.event, store, reply)
}

fn run_in_place<E: End>(case: &Case<E>, before: &Lent) -> Option<(Step<E::Record>, Lent)> {
    let mut lent = before.clone();
    let mut record = case.record;
    let (store, reply) = lent.parts();
    let answer = case.end.in_place(&mut record, case.event, store, reply)?;
    Some((Step { record, answer }, lent))
}

/// A plain answer in the shape of mop.h; a refusal gives the record back.
fn in_c<E: End>(case: &Case<E>, answer: Result<(E::Record, Sent), u8>) -> Step<E::Record> {
    match answer {
        Ok((record, sent)) => Step {
            record,
            answer: Written {
                length: sent.unwrap_or(0),
                refusal: 0,
            },
        },
        Err(refusal) => Step {
            record: case.kept(),
            answer: Written { length: 0, refusal },
        },
    }
}

/// Checks a plain step by itself: the wanted refusal, which changes nothing;
/// the right count raised; a readable frame; all bytes outside the frame and
/// the store in their place.
fn judge<E: End>(
    case: &Case<E>,
    answer: Result<(E::Record, Sent), u8>,
    before: &Lent,
    after: &Lent,
) -> Result<(), String> {
    let refusal = answer.err().unwrap_or(0);
    if refusal != case.wanted {
        return Err(format!("refusal {}", case.wanted));
    }
    if refusal != 0 && before != after {
        return Err("a refusal changes nothing".to_string());
    }
    if let Ok((record, _)) = answer {
        counts::judge(case, &record)?;
    }
    let frame = sent_bytes(answer, &after.reply).unwrap_or_default();
    if !frame.is_empty() && read(case.end, &frame).is_err() {
        return Err("a readable frame".to_string());
    }
    let end = MARGIN + frame.len();
    let outside = |lent: &Lent| {
        let store_end = lent.store.len() - MARGIN;
        let margins = [&lent.store[..MARGIN], &lent.store[store_end..]];
        [&margins.concat(), &lent.reply[..MARGIN], &lent.reply[end..]].concat()
    };
    if outside(before) != outside(after) {
        return Err("all bytes outside frame and store stay".to_string());
    }
    Ok(())
}

/// The frame that a call left in the guarded reply buffer.
fn sent_bytes<R>(answer: Result<(R, Sent), u8>, reply: &[u8]) -> Option<Vec<u8>> {
    let length = answer.ok()?.1?;
    Some(reply[MARGIN..MARGIN + length].to_vec())
}

fn room_refusal(room: usize) -> u8 {
    if room < ROOM { 9 } else { 0 }
}

/// The first refusal in PROTOCOL 7's order, 0 for none.
fn first(refusals: &[u8]) -> u8 {
    let found = refusals.iter().find(|&&refusal| refusal != 0);
    found.copied().unwrap_or(0)
}
