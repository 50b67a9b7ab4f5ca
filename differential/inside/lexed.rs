//! What the lexed build adds to the entry points: the crate's own way from a text to its input, and from its steps back to the text.

use crate::{entries, LexedStr, StrStep, SyntaxKind, TopEntryPoint};
use answer::{Bounds, Entry, Run};

/// A text lexed. With the crate's own lexed_str.rs in the place of the stand-in this is `LexedStr::new(std::str::from_utf8(text)..)`.
fn lexed(text: &[u8]) -> LexedStr<'_> {
    LexedStr::new(text)
}

/// The bytes of a token's text: the stand-in shows each as the character of its number. With the crate's own it is `text.as_bytes().to_vec()`.
fn bytes(text: &str) -> Vec<u8> {
    text.chars().map(|c| c as u8).collect()
}

/// The crate's `to_input` of a text: kinds and joint bits.
pub fn input(text: &[u8]) -> (Vec<u16>, Vec<bool>) {
    let input = lexed(text).to_input();
    let count = (0..).take_while(|&i| input.kind(i) != SyntaxKind::EOF).count();
    (0..count).map(|i| (input.kind(i) as u16, input.is_joint(i))).unzip()
}

/// A run on the input that `to_input` makes.
pub fn parse(entry: Entry, text: &[u8], bounds: Bounds) -> Run {
    entries::run(entry, &lexed(text).to_input(), bounds)
}

/// The texts of all tokens that `intersperse_trivia` gives, one behind the other, and whether it says that it has come to the end. Each error
/// must stand at a place of the text. For a source file on which the crate is done.
pub fn texts(text: &[u8]) -> (Vec<u8>, bool) {
    let lexed = lexed(text);
    limit::begin(limit::CRATE);
    let output = TopEntryPoint::SourceFile.parse(&lexed.to_input());
    let mut all = Vec::new();
    let whole = lexed.intersperse_trivia(&output, &mut |step| match step {
        StrStep::Token { text, .. } => all.extend(bytes(text)),
        StrStep::Error { pos, .. } => assert!(pos <= text.len(), "an error behind the text"),
        StrStep::Enter { .. } | StrStep::Exit => {}
    });
    (all, whole)
}
