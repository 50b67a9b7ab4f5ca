//! What the watched build asks at each pushed event and at each begin of a counted call: whether the run stops here, because the
//! room is full or too many calls are unfinished. A stop unwinds with a `Stop` and calls no panic hook.

use std::cell::Cell;
use std::ops::{Deref, DerefMut};
use std::panic::resume_unwind;

#[derive(Clone, Copy, PartialEq, Eq, Debug)]
pub enum Stop {
    Room,
    Depth,
}

/// The depth of docs/RULES.md.
pub const DEPTH: usize = 64;

thread_local! {
    static ROOM: Cell<usize> = const { Cell::new(usize::MAX) };
    static MOST: Cell<usize> = const { Cell::new(usize::MAX) };
    static PEAK: Cell<usize> = const { Cell::new(0) };
    static CALLS: Cell<usize> = const { Cell::new(0) };
    static DEEPEST: Cell<usize> = const { Cell::new(0) };
}

/// Starts a run on this thread that may hold `room` events and `most` unfinished counted calls.
pub fn begin(room: usize, most: usize) {
    ROOM.set(room);
    MOST.set(most);
    PEAK.set(0);
    CALLS.set(0);
    DEEPEST.set(0);
}

/// Ends the run: no room is watched from here on. Answers the most events and the most unfinished calls that were held at once.
pub fn end() -> (usize, usize) {
    ROOM.set(usize::MAX);
    MOST.set(usize::MAX);
    (PEAK.get(), DEEPEST.get())
}

/// A list that counts its pushes.
pub struct Vec<T>(std::vec::Vec<T>);

impl<T> Vec<T> {
    pub fn new() -> Vec<T> {
        Vec(std::vec::Vec::new())
    }

    pub fn push(&mut self, item: T) {
        if self.0.len() >= ROOM.get() {
            resume_unwind(Box::new(Stop::Room));
        }
        self.0.push(item);
        PEAK.set(PEAK.get().max(self.0.len()));
    }
}

impl<T> From<std::vec::Vec<T>> for Vec<T> {
    fn from(list: std::vec::Vec<T>) -> Vec<T> {
        Vec(list)
    }
}

impl<T> Deref for Vec<T> {
    type Target = std::vec::Vec<T>;
    fn deref(&self) -> &Self::Target {
        &self.0
    }
}

impl<T> DerefMut for Vec<T> {
    fn deref_mut(&mut self) -> &mut Self::Target {
        &mut self.0
    }
}

/// An unfinished call: it is finished when this is dropped.
pub struct Call(());

/// A counted call begins.
pub fn call() -> Call {
    let calls = CALLS.get();
    if calls >= MOST.get() {
        resume_unwind(Box::new(Stop::Depth));
    }
    CALLS.set(calls + 1);
    DEEPEST.set(DEEPEST.get().max(calls + 1));
    Call(())
}

impl Drop for Call {
    fn drop(&mut self) {
        CALLS.set(CALLS.get() - 1);
    }
}
