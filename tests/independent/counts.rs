//! What the frames that a host was handed came to (PROTOCOL 5, "Counts").

/// Each frame that can be read, and comes before the verdict, is in one of
/// these.
#[derive(Clone, Copy, Debug, Default, PartialEq, Eq)]
pub struct Counts {
    /// Those that ended the waiting, or began a load again.
    pub starts: u64,
    /// Those that moved the session on, the last one too.
    pub advances: u64,
    /// Those that did nothing.
    pub ignored: u64,
    /// Those that rejected a load.
    pub rejections: u64,
}

impl Counts {
    /// While a session waits, a frame can only have been ignored.
    pub(crate) fn while_waiting(ignored: u64) -> Counts {
        Counts {
            ignored,
            ..Counts::default()
        }
    }

    /// Of a session that the frame at hand begins.
    pub(crate) fn at_start(ignored: u64) -> Counts {
        Counts {
            starts: 1,
            ..Counts::while_waiting(ignored)
        }
    }

    /// Whether a further frame can be counted, whatever it comes to.
    pub(crate) fn have_room(&self) -> bool {
        let most = self.starts.max(self.advances);
        most.max(self.ignored).max(self.rejections) < u64::MAX
    }
}
