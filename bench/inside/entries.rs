//! What the benchmark calls inside the crate: a run of the source file that stops before `process`.

use crate::{event::Event, grammar, input::Input, parser::Parser, SyntaxKind};

/// A list of events, as the parser leaves it.
pub struct List(Vec<Event>);

impl List {
    /// How many events it has.
    pub fn events(&self) -> usize {
        self.0.len()
    }
}

/// The crate's input, token by token.
pub fn input(kinds: &[u16], joints: &[u64]) -> Input {
    let mut input = Input::default();
    for (i, &number) in kinds.iter().enumerate() {
        input.push(SyntaxKind::from(number));
        if joints[i / 64] >> (i % 64) & 1 == 1 {
            input.was_joint();
        }
    }
    input
}

/// The first half of `TopEntryPoint::SourceFile.parse`.
pub fn parse(input: &Input) -> List {
    let mut p = Parser::new(input);
    grammar::entry::top::source_file(&mut p);
    List(p.finish())
}
