//! What the called build notes of a run: for each function of the grammar that was called, the messages that it reported, whether one was
//! reported while it was unfinished, and whether the run stopped there.

use std::cell::RefCell;
use std::collections::{BTreeMap, BTreeSet};

#[derive(Clone, Default, PartialEq, Eq, Debug)]
pub struct Noted {
    /// The messages that it reported itself.
    pub own: BTreeSet<String>,
    /// Whether a function that it called, or one below, reported a message.
    pub below: bool,
    /// Whether the run stopped before it was finished.
    pub stopped: bool,
}

impl Noted {
    /// Whether it was finished each time without a message.
    pub fn clean(&self) -> bool {
        self.own.is_empty() && !self.below && !self.stopped
    }
}

thread_local! {
    static STACK: RefCell<Vec<&'static str>> = const { RefCell::new(Vec::new()) };
    static NOTED: RefCell<BTreeMap<&'static str, Noted>> = const { RefCell::new(BTreeMap::new()) };
}

/// What a run on this thread calls, by where each function begins.
pub fn noted(run: impl FnOnce()) -> BTreeMap<&'static str, Noted> {
    NOTED.take();
    run();
    NOTED.take()
}

/// An unfinished call: it is finished when this is dropped.
pub struct Call(&'static str);

/// The function that begins there is called.
pub fn call(place: &'static str) -> Call {
    STACK.with_borrow_mut(|stack| stack.push(place));
    NOTED.with_borrow_mut(|noted| {
        noted.entry(place).or_default();
    });
    Call(place)
}

impl Drop for Call {
    fn drop(&mut self) {
        STACK.with_borrow_mut(Vec::pop);
        if std::thread::panicking() {
            NOTED.with_borrow_mut(|noted| noted.entry(self.0).or_default().stopped = true);
        }
    }
}

/// A message is reported.
pub fn error(message: &str) {
    STACK.with_borrow(|stack| {
        NOTED.with_borrow_mut(|noted| {
            let Some((own, above)) = stack.split_last() else { return };
            let own = noted.entry(own).or_default();
            if !own.own.contains(message) {
                own.own.insert(message.to_string());
            }
            for place in above {
                noted.entry(place).or_default().below = true;
            }
        })
    });
}
