//! The lexical rules read word by word: an expression for each of the fourteen, the longest match, among equals the first. Slow, and in
//! nothing like the second lexer, which is held to it; and with a fault put in it is a wrong one, which `compare lex` must find.

use crate::text::kind;
use answer::kinds;

/// What takes bytes.
#[derive(Clone)]
enum Re {
    /// one byte of a set
    One(fn(u8) -> bool),
    /// these bytes
    Word(&'static [u8]),
    All(Vec<Re>),
    Either(Vec<Re>),
    Any(Box<Re>),
}

use Re::{All, Either, One, Word};

fn any(re: Re) -> Re {
    Re::Any(Box::new(re))
}

fn some(re: Re) -> Re {
    All(vec![re.clone(), any(re)])
}

fn maybe(re: Re) -> Re {
    Either(vec![All(vec![]), re])
}

impl Re {
    /// Where a match can end that begins at one of these places: both are lists in order.
    fn ends(&self, text: &[u8], from: &[usize]) -> Vec<usize> {
        let mut ends = match self {
            One(set) => from.iter().filter(|&&at| at < text.len() && set(text[at])).map(|at| at + 1).collect(),
            Word(word) => from.iter().filter(|&&at| text[at..].starts_with(word)).map(|at| at + word.len()).collect(),
            All(parts) => parts.iter().fold(from.to_vec(), |from, part| part.ends(text, &from)),
            Either(parts) => parts.iter().flat_map(|part| part.ends(text, from)).collect(),
            Re::Any(part) => {
                let (mut all, mut new) = (from.to_vec(), from.to_vec());
                let mut seen = vec![false; text.len() + 1];
                while !new.is_empty() {
                    new = part.ends(text, &new);
                    new.retain(|&at| !std::mem::replace(&mut seen[at], true));
                    all.extend(&new);
                }
                all
            }
        };
        ends.sort();
        ends.dedup();
        ends
    }
}

impl Re {
    /// Whether a match that is not empty can begin with a byte.
    fn begins(&self, byte: u8) -> bool {
        match self {
            One(set) => set(byte),
            Word(word) => word.first() == Some(&byte),
            All(parts) => {
                let empty = parts.iter().take_while(|part| part.takes_none()).count();
                parts.iter().take(empty + 1).any(|part| part.begins(byte))
            }
            Either(parts) => parts.iter().any(|part| part.begins(byte)),
            Re::Any(part) => part.begins(byte),
        }
    }

    fn takes_none(&self) -> bool {
        match self {
            One(_) => false,
            Word(word) => word.is_empty(),
            All(parts) => parts.iter().all(Re::takes_none),
            Either(parts) => parts.iter().any(Re::takes_none),
            Re::Any(_) => true,
        }
    }
}

/// The faults that can be put in.
#[derive(Clone, Copy, PartialEq, Debug)]
pub enum Bend {
    None,
    /// this word is a name
    Word(&'static str),
    /// this mark is no token
    Mark(u8),
    AnyCase,
    Underscore,
    HighInWord,
    HighWord,
    NoExponent,
    NoGreatExponent,
    OpenExponent,
    PointLast,
    PointFirst,
    PointExponent,
    PointPoint,
    TwoUnderscores,
    LastUnderscore,
    NoGreatB,
    NoGreatX,
    GreatO,
    NoOctal,
    Octal8,
    Binary2,
    SmallHex,
    NoBase,
    BareBase,
    Unit,
    StringFirst,
    NoBits,
    BitsTwo,
    BitsLast,
    BitsSingle,
    NoSingle,
    Empty,
    Tab,
    Lines,
    Escapes,
    OpenString,
    LongString,
    AnyQuote,
    Nests,
    OpenComment,
    LongComment,
    Stars,
    OneStar,
    CommentCr,
    CommentLf,
    CommentEnd,
    PragmaCr,
    PragmaBlank,
    PragmaWord,
    PragmaBare,
    NoPoundPragma,
    PragmaHigh,
    AnnotationCr,
    AnnotationWord,
    AnnotationAny,
    NoAnnotation,
    NoHardware,
    HardwareUnderscore,
    HardwareName,
    FormFeed,
    VerticalTab,
    Nul,
    NoCr,
    Blanks,
    Characters,
    Errors,
    Glued,
    Shortest,
}

fn letter(b: u8) -> bool {
    b.is_ascii_alphabetic() || b == b'_'
}

fn in_word(b: u8) -> bool {
    letter(b) || b.is_ascii_digit()
}

fn in_line(b: u8) -> bool {
    b != b'\r' && b != b'\n'
}

/// Digits with single underscores between them.
fn digits(digit: fn(u8) -> bool) -> Re {
    All(vec![One(digit), any(All(vec![maybe(Word(b"_")), One(digit)]))])
}

/// The lexer of these rules, with a fault or none.
pub struct Rules {
    bend: Bend,
    /// none: a word's kind is looked up
    rules: Vec<(Option<u16>, Re)>,
    words: Vec<(&'static str, u16)>,
}

impl Rules {
    pub fn new(bend: Bend) -> Rules {
        let is = |other: Bend| bend == other;
        // what a rule is with a fault, and without
        let or = |fault: Bend, bent: Re, right: Re| if bend == fault { bent } else { right };
        let lines = || any(One(in_line));
        let long = || any(One(|b| b != b'\n'));
        let decimal = match bend {
            Bend::TwoUnderscores => All(vec![One(|b| b.is_ascii_digit()), any(All(vec![any(Word(b"_")), One(|b| b.is_ascii_digit())]))]),
            Bend::LastUnderscore => All(vec![digits(|b| b.is_ascii_digit()), maybe(Word(b"_"))]),
            _ => digits(|b| b.is_ascii_digit()),
        };
        let power = {
            let letter: fn(u8) -> bool = if is(Bend::NoGreatExponent) { |b| b == b'e' } else { |b| b == b'e' || b == b'E' };
            let number = or(Bend::OpenExponent, maybe(decimal.clone()), decimal.clone());
            or(Bend::NoExponent, One(|_| false), All(vec![One(letter), maybe(One(|b| b == b'+' || b == b'-')), number]))
        };
        let mut floats = vec![All(vec![decimal.clone(), power.clone()])];
        match bend {
            Bend::PointLast => floats.push(All(vec![decimal.clone(), Word(b"."), decimal.clone(), maybe(power.clone())])),
            Bend::PointExponent => {
                let behind = maybe(All(vec![decimal.clone(), maybe(power.clone())]));
                floats.push(All(vec![decimal.clone(), Word(b"."), behind]));
            }
            _ => floats.push(All(vec![decimal.clone(), Word(b"."), maybe(decimal.clone()), maybe(power.clone())])),
        }
        if !is(Bend::PointFirst) {
            floats.push(All(vec![Word(b"."), decimal.clone(), maybe(power)]));
        }
        let based = |signs: &[&'static [u8]], digit: fn(u8) -> bool| {
            let number = or(Bend::BareBase, maybe(digits(digit)), digits(digit));
            All(vec![Word(b"0"), Either(signs.iter().map(|&sign| Word(sign)).collect()), number])
        };
        let mut integers = vec![decimal.clone()];
        if !is(Bend::NoBase) {
            let bit: fn(u8) -> bool = if is(Bend::Binary2) { |b| b.is_ascii_digit() } else { |b| b == b'0' || b == b'1' };
            integers.push(based(if is(Bend::NoGreatB) { &[b"b"] } else { &[b"b", b"B"] }, bit));
            let hex: fn(u8) -> bool =
                if is(Bend::SmallHex) { |b| matches!(b, b'0'..=b'9' | b'a'..=b'f') } else { |b| b.is_ascii_hexdigit() };
            integers.push(based(if is(Bend::NoGreatX) { &[b"x"] } else { &[b"x", b"X"] }, hex));
            let octal: fn(u8) -> bool = if is(Bend::Octal8) { |b| b.is_ascii_digit() } else { |b| matches!(b, b'0'..=b'7') };
            if !is(Bend::NoOctal) {
                integers.push(based(if is(Bend::GreatO) { &[b"o", b"O"] } else { &[b"o"] }, octal));
            }
        }
        let with_unit = |re: Re| {
            or(Bend::Unit, All(vec![re.clone(), maybe(Either([&b"ns"[..], b"us", b"ms", b"s", b"dt", b"im"].map(Word).to_vec()))]), re)
        };
        let bit: fn(u8) -> bool = |b| b == b'0' || b == b'1';
        let bits = match bend {
            Bend::BitsTwo => All(vec![One(bit), any(All(vec![any(Word(b"_")), One(bit)]))]),
            Bend::BitsLast => All(vec![digits(bit), maybe(Word(b"_"))]),
            _ => digits(bit),
        };
        let bit_string = match bend {
            Bend::NoBits => One(|_| false),
            Bend::BitsSingle => Either(vec![All(vec![Word(b"\""), bits.clone(), Word(b"\"")]), All(vec![Word(b"'"), bits, Word(b"'")])]),
            _ => All(vec![Word(b"\""), bits, Word(b"\"")]),
        };
        let plain = |quote: u8| -> fn(u8) -> bool {
            match (bend, quote) {
                (Bend::Tab, b'"') => |b| b != b'"' && in_line(b),
                (Bend::Tab, _) => |b| b != b'\'' && in_line(b),
                (Bend::Lines, b'"') => |b| b != b'"' && b != b'\t',
                (Bend::Lines, _) => |b| b != b'\'' && b != b'\t',
                (Bend::Escapes, b'"') => |b| !matches!(b, b'"' | b'\r' | b'\n' | b'\t' | b'\\'),
                (Bend::LongString, _) => |b| !matches!(b, b'\r' | b'\n' | b'\t'),
                (Bend::AnyQuote, _) => |b| !matches!(b, b'"' | b'\'' | b'\r' | b'\n' | b'\t'),
                (_, b'"') => |b| !matches!(b, b'"' | b'\r' | b'\n' | b'\t'),
                _ => |b| !matches!(b, b'\'' | b'\r' | b'\n' | b'\t'),
            }
        };
        let string = |quote: &'static [u8]| {
            let inside = or(Bend::Escapes, Either(vec![One(plain(quote[0])), All(vec![Word(b"\\"), One(in_line)])]), One(plain(quote[0])));
            let inside = or(Bend::Empty, any(inside.clone()), some(inside));
            let close = or(Bend::AnyQuote, One(|b| b == b'"' || b == b'\''), Word(quote));
            All(vec![Word(quote), inside, close])
        };
        let strings = if is(Bend::NoSingle) { vec![string(b"\"")] } else { vec![string(b"\""), string(b"'")] };
        let block = match bend {
            // one star inside is not read before another
            Bend::Stars => Either(vec![One(|b| b != b'*'), All(vec![Word(b"*"), One(|b| b != b'/')])]),
            Bend::LongComment => One(|_| true),
            _ => Either(vec![One(|b| b != b'*'), All(vec![some(Word(b"*")), One(|b| b != b'*' && b != b'/')])]),
        };
        let block = match bend {
            Bend::Stars => All(vec![Word(b"/*"), any(block), Word(b"*/")]),
            Bend::OneStar => Either(vec![Word(b"/*/"), All(vec![Word(b"/*"), any(block), some(Word(b"*")), Word(b"/")])]),
            _ => All(vec![Word(b"/*"), any(block), some(Word(b"*")), Word(b"/")]),
        };
        let head: fn(u8) -> bool = if is(Bend::HighWord) { |b| letter(b) || b > 127 } else { letter };
        let tail: fn(u8) -> bool = if is(Bend::HighWord) || is(Bend::HighInWord) { |b| in_word(b) || b > 127 } else { in_word };
        let blank: fn(u8) -> bool = match bend {
            Bend::FormFeed => |b| b" \t\r\n\x0c".contains(&b),
            Bend::VerticalTab => |b| b" \t\r\n\x0b".contains(&b),
            Bend::Nul => |b| b" \t\r\n\0".contains(&b),
            Bend::NoCr => |b| b" \t\n".contains(&b),
            _ => |b| b" \t\r\n".contains(&b),
        };
        let behind_pragma: fn(u8) -> bool =
            if is(Bend::PragmaHigh) { |b| !in_word(b) && in_line(b) && b < 128 } else { |b| !in_word(b) && in_line(b) };
        let pragma = match bend {
            Bend::PragmaWord => All(vec![Word(b"pragma"), lines()]),
            Bend::PragmaBare => All(vec![Word(b"pragma"), One(behind_pragma), lines()]),
            Bend::PragmaCr => All(vec![Word(b"pragma"), maybe(All(vec![One(|b| !in_word(b) && b != b'\n'), long()]))]),
            _ => All(vec![Word(b"pragma"), maybe(All(vec![One(behind_pragma), lines()]))]),
        };
        let pound = match bend {
            Bend::NoPoundPragma => One(|_| false),
            Bend::PragmaCr => All(vec![Word(b"#pragma"), long()]),
            Bend::PragmaBlank => All(vec![Word(b"#pragma"), One(|b| b == b' '), lines()]),
            _ => All(vec![Word(b"#pragma"), lines()]),
        };
        let note = match bend {
            Bend::NoAnnotation => One(|_| false),
            Bend::AnnotationWord => All(vec![Word(b"@"), One(letter), any(One(in_word))]),
            Bend::AnnotationAny => All(vec![Word(b"@"), One(in_word), lines()]),
            Bend::AnnotationCr => All(vec![Word(b"@"), One(letter), long()]),
            _ => All(vec![Word(b"@"), One(letter), lines()]),
        };
        let comment = match bend {
            Bend::CommentCr => All(vec![Word(b"//"), long()]),
            Bend::CommentLf => All(vec![Word(b"//"), lines(), maybe(Word(b"\n"))]),
            Bend::CommentEnd => All(vec![Word(b"//"), lines(), One(|b| b == b'\r' || b == b'\n')]),
            _ => All(vec![Word(b"//"), lines()]),
        };
        let hardware = match bend {
            Bend::NoHardware => One(|_| false),
            Bend::HardwareUnderscore => All(vec![Word(b"$"), digits(|b| b.is_ascii_digit())]),
            Bend::HardwareName => All(vec![Word(b"$"), some(One(in_word))]),
            _ => All(vec![Word(b"$"), some(One(|b| b.is_ascii_digit()))]),
        };
        let of = |name: &str| Some(kind(name));
        let mut rules = vec![
            (of("WHITESPACE"), or(Bend::Blanks, One(blank), some(One(blank)))),
            (of("COMMENT"), comment),
            (of("COMMENT"), block),
            (of("PRAGMA"), pound),
            (of("PRAGMA"), pragma),
            (of("ANNOTATION"), note),
            (None, All(vec![One(head), any(One(tail))])),
            (of("HARDWAREIDENT"), hardware),
            (of("FLOAT_NUMBER"), with_unit(Either(floats))),
            (of("INT_NUMBER"), with_unit(Either(integers))),
            (of("BIT_STRING"), bit_string),
            (of("STRING"), Either(strings)),
        ];
        if is(Bend::StringFirst) {
            rules.swap(10, 11);
        }
        let mut words = Vec::new();
        for (number, row) in kinds().iter().enumerate().filter(|(_, row)| row.permitted) {
            if let Some(rest) = row.why.strip_prefix("the character `` ") {
                let mark = rest.trim_start_matches('\\').split(' ').next().expect("a mark");
                if bend != Bend::Mark(mark.as_bytes()[0]) {
                    rules.push((Some(number as u16), Word(mark.as_bytes())));
                }
            } else if let Some((_, word)) = row.why.split_once('`').filter(|_| row.why.starts_with("the ")) {
                words.push((word.trim_end_matches('`'), number as u16));
            }
        }
        if is(Bend::Glued) {
            for (word, name) in [("==", "EQ2"), ("->", "THIN_ARROW"), ("++", "DOUBLE_PLUS")] {
                rules.push((of(name), Word(word.as_bytes())));
            }
        }
        let none = match bend {
            // a character of several bytes is one
            Bend::Characters => All(vec![One(|_| true), any(One(|b| (128..192).contains(&b)))]),
            _ => One(|_| true),
        };
        rules.push((of("ERROR"), none));
        Rules { bend, rules, words }
    }

    /// The tokens of a text.
    pub fn lex(&self, text: &[u8]) -> Vec<(u16, usize)> {
        let (mut list, mut at): (Vec<(u16, usize)>, usize) = (Vec::new(), 0);
        while at < text.len() {
            let (kind, length) = self.first(&text[at..]);
            match list.last_mut() {
                Some(last) if self.bend == Bend::Errors && (last.0, kind) == (lexer::ERROR, lexer::ERROR) => last.1 += length,
                _ => list.push((kind, length)),
            }
            at += length;
        }
        list
    }

    /// The first token of a text that has one.
    fn first(&self, text: &[u8]) -> (u16, usize) {
        if let Some(length) = self.other(text) {
            return length;
        }
        let mut best = (None, 0);
        for (kind, re) in self.rules.iter().filter(|(_, re)| re.begins(text[0])) {
            let ends = re.ends(text, &[0]);
            let end = if self.bend == Bend::Shortest { ends.iter().find(|&&end| end > 0) } else { ends.last() };
            if end.is_some_and(|&end| end > best.1) {
                best = (*kind, *end.expect("an end"));
            }
        }
        let (found, length) = best;
        (found.unwrap_or_else(|| self.word(&text[..length])), length)
    }

    /// What no rule of bytes can say: faults that look at the rest of the text.
    fn other(&self, text: &[u8]) -> Option<(u16, usize)> {
        let closed = || text[2..].windows(2).any(|two| two == b"*/");
        match self.bend {
            Bend::OpenComment if text.starts_with(b"/*") && !closed() => Some((lexer::COMMENT, text.len())),
            Bend::Nests if text.starts_with(b"/*") => {
                let (mut depth, mut at) = (1, 2);
                while depth > 0 && at < text.len() {
                    match text.get(at..at + 2) {
                        Some(b"/*") => (depth, at) = (depth + 1, at + 2),
                        Some(b"*/") => (depth, at) = (depth - 1, at + 2),
                        _ => at += 1,
                    }
                }
                (depth == 0).then_some((lexer::COMMENT, at))
            }
            Bend::OpenString if text[0] == b'"' && text[1..].iter().all(|&b| b != b'"') => Some((lexer::STRING, text.len())),
            // `1..2`: a number's point is none where another comes behind it
            Bend::PointPoint if text[0].is_ascii_digit() => {
                let whole = digits(|b| b.is_ascii_digit()).ends(text, &[0]).last().copied()?;
                text[whole..].starts_with(b"..").then_some((lexer::INT_NUMBER, whole))
            }
            _ => None,
        }
    }

    fn word(&self, word: &[u8]) -> u16 {
        let same = |other: &str| match self.bend {
            Bend::Word(lost) if lost == other => false,
            Bend::AnyCase => word.eq_ignore_ascii_case(other.as_bytes()),
            _ => word == other.as_bytes(),
        };
        match word {
            b"_" if self.bend == Bend::Underscore => lexer::IDENT,
            b"_" if self.bend != Bend::Mark(b'_') => lexer::UNDERSCORE,
            _ => self.words.iter().find(|(other, _)| same(other)).map_or(lexer::IDENT, |&(_, kind)| kind),
        }
    }

    /// The words of the crate's tables.
    pub fn words() -> Vec<&'static str> {
        Rules::new(Bend::None).words.into_iter().map(|(word, _)| word).collect()
    }

    /// The bytes that are marks.
    pub fn marks() -> Vec<u8> {
        (0..=255).filter(|&b| kinds()[Rules::new(Bend::None).lex(&[b])[0].0 as usize].why.starts_with("the character")).collect()
    }
}
