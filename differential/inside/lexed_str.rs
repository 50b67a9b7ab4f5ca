//! A stand-in for the crate's own lexing, over the second lexer: what shortcuts.rs asks of it. A text is bytes here, so a byte above 127 can
//! be a token; in the strings that shortcuts.rs is shown, each byte is the character of its number.

use crate::SyntaxKind;

pub struct LexedStr<'a> {
    bytes: &'a [u8],
    text: String,
    kinds: Vec<SyntaxKind>,
    /// Where each token begins in the bytes and in the string, and where the last one ends.
    starts: Vec<(usize, usize)>,
}

impl<'a> LexedStr<'a> {
    pub fn new(bytes: &'a [u8]) -> LexedStr<'a> {
        let mut lexed = LexedStr { bytes, text: String::new(), kinds: Vec::new(), starts: vec![(0, 0)] };
        let mut at = 0;
        for (kind, length) in lexer::Lexer::new(bytes) {
            lexed.text.extend(bytes[at..at + length].iter().map(|&b| b as char));
            at += length;
            lexed.kinds.push(SyntaxKind::from(kind));
            lexed.starts.push((at, lexed.text.len()));
        }
        assert_eq!(at, lexed.bytes.len());
        lexed
    }

    pub fn len(&self) -> usize {
        self.kinds.len()
    }

    pub fn kind(&self, i: usize) -> SyntaxKind {
        self.kinds[i]
    }

    pub fn text(&self, i: usize) -> &str {
        self.range_text(i..i + 1)
    }

    pub fn text_start(&self, i: usize) -> usize {
        self.starts[i].0
    }

    pub fn range_text(&self, range: std::ops::Range<usize>) -> &str {
        &self.text[self.starts[range.start].1..self.starts[range.end].1]
    }
}
