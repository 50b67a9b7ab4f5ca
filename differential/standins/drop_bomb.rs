//! A stand-in for the crate `drop_bomb`, with what oq3_parser uses of it: a bomb that is dropped without being defused panics,
//! unless its thread is panicking already.

use std::borrow::Cow;

pub struct DropBomb {
    said: Cow<'static, str>,
    defused: bool,
}

impl DropBomb {
    pub fn new(said: impl Into<Cow<'static, str>>) -> DropBomb {
        DropBomb { said: said.into(), defused: false }
    }

    pub fn defuse(&mut self) {
        self.defused = true;
    }
}

impl Drop for DropBomb {
    fn drop(&mut self) {
        if !self.defused && !std::thread::panicking() {
            panic!("{}", self.said);
        }
    }
}
