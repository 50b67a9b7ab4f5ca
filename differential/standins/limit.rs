//! A stand-in for the crate `limit`, with what oq3_parser uses of it. `check` fails for a number above the bound. `Parser::nth`
//! calls it once for each lookup, with the lookups made since the last token, so it also counts the lookups of a run.

use std::cell::Cell;

/// The bound under which the 10,001st lookup since a token fails.
pub const PORT: usize = 9_999;

/// Leaves the crate's own bound in force.
pub const CRATE: usize = usize::MAX;

thread_local! {
    static BOUND: Cell<usize> = const { Cell::new(CRATE) };
    static LOOKUPS: Cell<u64> = const { Cell::new(0) };
    static MOST: Cell<u64> = const { Cell::new(0) };
    static STUCK: Cell<bool> = const { Cell::new(false) };
}

/// Starts the count of a run on this thread. The bound in force is the lower of the given one and the crate's.
pub fn begin(bound: usize) {
    BOUND.set(bound);
    LOOKUPS.set(0);
    MOST.set(0);
    STUCK.set(false);
}

/// The lookups of the run so far.
pub fn lookups() -> u64 {
    LOOKUPS.get()
}

/// The most lookups that the run has made since a token (or its begin).
pub fn most() -> u64 {
    MOST.get()
}

/// Whether a check has failed.
pub fn stuck() -> bool {
    STUCK.get()
}

pub struct Limit {
    upper_bound: usize,
}

impl Limit {
    pub const fn new(upper_bound: usize) -> Limit {
        Limit { upper_bound }
    }

    #[inline]
    pub fn check(&self, other: usize) -> Result<(), ()> {
        if other > self.upper_bound.min(BOUND.get()) {
            STUCK.set(true);
            return Err(());
        }
        LOOKUPS.set(LOOKUPS.get() + 1);
        if other as u64 >= MOST.get() {
            MOST.set(other as u64 + 1);
        }
        Ok(())
    }
}
