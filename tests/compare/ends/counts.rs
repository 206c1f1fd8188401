//! The four counts of a load and of a dump: what the protocol says of them
//! (PROTOCOL 5, "Counts"), and records that have them.

use super::{Case, End, Event, Known, ROOM, read};
use crate::Compare;
use crate::tally::Hex;
use mop_plain::counts;
use mop_proved::Counts;

/// The four, in the order of mop.h.
pub type Four = [u64; 4];

pub const STARTS: usize = 0;
pub const ADVANCES: usize = 1;
pub const IGNORED: usize = 2;
pub const REJECTIONS: usize = 3;

/// A record with a count of this is bad.
pub const TOP: u64 = u64::MAX;

const REJECTED: u8 = 2;

/// What a load's or a dump's record says of the frames that came.
#[derive(Clone, Copy, Debug)]
pub struct Host {
    pub waits: bool,
    pub verdict: u8,
    /// Frames answered, or bytes filled.
    pub progress: u64,
    /// Frames answered, or replies taken.
    pub taken: u64,
    /// How often a load began again.
    pub restarts: u64,
    pub counts: Four,
}

/// An end whose record has counts.
pub trait Counting: End {
    fn with_counts(record: Self::Record, counts: Counts) -> Self::Record;
}

pub fn four(counts: Counts) -> Four {
    [
        counts.starts,
        counts.advances,
        counts.ignored,
        counts.rejections,
    ]
}

pub fn named([starts, advances, ignored, rejections]: Four) -> Counts {
    Counts {
        starts,
        advances,
        ignored,
        rejections,
    }
}

/// Those of the plain implementation.
pub fn from_plain(counts: counts::Counts) -> Counts {
    named([
        counts.starts,
        counts.advances,
        counts.ignored,
        counts.rejections,
    ])
}

/// The same the other way.
pub fn plain(counts: Counts) -> counts::Counts {
    counts::Counts {
        starts: counts.starts,
        advances: counts.advances,
        ignored: counts.ignored,
        rejections: counts.rejections,
    }
}

/// Those of a host that waits.
pub fn only_ignored(ignored: u64) -> Counts {
    named([0, 0, ignored, 0])
}

/// The counts with one of them raised, or none.
fn raise(mut counts: Four, which: Option<usize>) -> Four {
    if let Some(which) = which {
        counts[which] += 1;
    }
    counts
}

/// Which count an accepted call raises, seen from the record before and after.
fn raised_by(event: Event, before: Host, after: Host) -> Option<usize> {
    if !matches!(event, Event::Frame(_)) || before.verdict != 0 {
        return None;
    }
    Some(
        if before.waits && !after.waits || after.restarts > before.restarts {
            STARTS
        } else if after.progress > before.progress {
            ADVANCES
        } else if after.verdict == REJECTED {
            REJECTIONS
        } else {
            IGNORED
        },
    )
}

/// Checks the counts that an accepted call gave.
pub fn judge<E: End>(case: &Case<E>, after: &E::Record) -> Result<(), String> {
    let (Some(before), Some(after)) = (E::host(&case.record), E::host(after)) else {
        return Ok(());
    };
    let wanted = raise(before.counts, raised_by(case.event, before, after));
    match after.counts == wanted {
        true => Ok(()),
        false => Err(format!("counts {wanted:?}")),
    }
}

/// The refusal of a record for its counts, 0 for none.
pub fn refusal(host: Host) -> u8 {
    let [starts, advances, _, rejections] = host.counts;
    let begun = [starts, advances, rejections] != [0; 3];
    match host.counts.contains(&TOP) || host.waits && begun {
        true => 10,
        false => 0,
    }
}

/// Whether a call hands over a frame that is to be counted.
pub fn is_handed<E: End>(case: &Case<E>) -> bool {
    let Event::Frame(Hex(bytes)) = case.event else {
        return false;
    };
    read(case.end, bytes).is_ok() && case.room >= ROOM && E::verdict(&case.record) == 0
}

/// PROTOCOL 6's claim of the counts, after so many frames handed over. What was
/// answered before a restart counts as well.
pub fn claim<E: End>(record: &E::Record, handed: u64) -> Result<(), String> {
    let Some(host) = E::host(record) else {
        return Ok(());
    };
    let starts = if host.waits { 0 } else { host.restarts + 1 };
    let advances = match host.restarts {
        0 => host.taken,
        _ => host.taken.max(host.counts[ADVANCES]),
    };
    let rejections = u64::from(host.verdict == REJECTED);
    let ignored = host.counts[IGNORED];
    let wanted = [starts, advances, ignored, rejections];
    if host.counts != wanted {
        return Err(format!("counts {wanted:?}"));
    }
    match wanted.iter().sum::<u64>() == handed {
        true => Ok(()),
        false => Err(format!("the counts' sum is {handed}")),
    }
}

impl Compare {
    /// A call that is to give this record, frame and store, and to raise this
    /// count or none, whatever the counts were.
    pub fn counted_case<E: Counting>(
        &mut self,
        end: &E,
        record: E::Record,
        event: Event,
        store: &[u8],
        (after, frame, laid): Known<E::Record>,
        raised: Option<usize>,
    ) {
        let waits = E::host(&record).is_some_and(|host| host.waits);
        for counts in [[0; 4], [1, 2, 3, 4], [TOP - 1; 4]] {
            let counts = match waits {
                true => four(only_ignored(counts[IGNORED])),
                false => counts,
            };
            let before = E::with_counts(record, named(counts));
            let after = E::with_counts(after, named(raise(counts, raised)));
            self.set_case(end, before, event, store, (after, frame, laid));
        }
    }

    /// A count that is not at the top.
    pub fn any_count(&mut self) -> u64 {
        let small = self.random.below(300);
        let any = self.random.u64().min(TOP - 1);
        self.random.pick(&[0, 0, small, any, TOP - 1])
    }

    pub fn any_counts(&mut self) -> Counts {
        named([(); 4].map(|()| self.any_count()))
    }

    /// One of them at the top.
    pub fn full_counts(&mut self) -> Counts {
        let mut counts = four(self.any_counts());
        counts[self.random.range(0, 3)] = TOP;
        named(counts)
    }

    /// Counts that a waiting record cannot have.
    pub fn begun_counts(&mut self) -> Counts {
        let mut counts = four(only_ignored(self.any_count()));
        let which = self.random.pick(&[STARTS, ADVANCES, REJECTIONS]);
        counts[which] = self.random.pick(&[1, 2, 1 << 32, TOP - 1]);
        named(counts)
    }
}
