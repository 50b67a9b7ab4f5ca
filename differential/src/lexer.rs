//! The second lexer: from bytes to kinds and lengths, written by hand from the rules of docs/LEXER.md and from nothing else. A token's first
//! byte chooses what reads it. It needs no other file.

/// The longest text, in bytes.
pub const MOST: usize = 65_536;

/// Declares the kinds that a token can have, with their numbers, and the list of them that is held to docs/KINDS.md.
macro_rules! kinds {
    ($($name:ident $number:literal,)*) => {
        $(pub const $name: u16 = $number;)*
        pub const KINDS: &[(&str, u16)] = &[$((stringify!($name), $number)),*];
    };
}

#[rustfmt::skip]
kinds! {
    SEMICOLON 3, COMMA 4, L_PAREN 5, R_PAREN 6, L_CURLY 7, R_CURLY 8, L_BRACK 9, R_BRACK 10, L_ANGLE 11, R_ANGLE 12, AT 13, POUND 14, TILDE 15,
    QUESTION 16, DOLLAR 17, AMP 18, PIPE 19, PLUS 20, STAR 21, SLASH 22, CARET 23, PERCENT 24, UNDERSCORE 25, DOT 26, COLON 30, EQ 32, BANG 35,
    MINUS 37, O_P_E_N_Q_A_S_M_KW 55, INCLUDE_KW 56, DEF_KW 58, DEFCALGRAMMAR_KW 59, CAL_KW 60, DEFCAL_KW 61, GATE_KW 62, DELAY_KW 63,
    RESET_KW 64, MEASURE_KW 65, LET_KW 66, BOX_KW 67, EXTERN_KW 68, CONST_KW 69, BARRIER_KW 70, GPHASE_KW 71, IF_KW 72, ELSE_KW 73, FOR_KW 74,
    IN_KW 75, WHILE_KW 76, CONTINUE_KW 77, RETURN_KW 78, BREAK_KW 79, END_KW 80, SWITCH_KW 81, CASE_KW 82, DEFAULT_KW 83, INPUT_KW 84,
    OUTPUT_KW 85, READONLY_KW 86, MUTABLE_KW 87, QREG_KW 88, CREG_KW 89, QUBIT_KW 90, VOID_KW 91, ARRAY_KW 92, CTRL_KW 93, NEGCTRL_KW 94,
    INV_KW 95, POW_KW 96, FALSE_KW 97, TRUE_KW 98, INT_NUMBER 99, FLOAT_NUMBER 100, STRING 103, BIT_STRING 104, FLOAT_TY 105, INT_TY 106,
    UINT_TY 107, COMPLEX_TY 108, BOOL_TY 109, BIT_TY 110, DURATION_TY 111, STRETCH_TY 112, ANGLE_TY 113, ERROR 114, IDENT 115,
    HARDWAREIDENT 116, WHITESPACE 117, COMMENT 118, PRAGMA 119, ANNOTATION 120,
}

/// Whether the parser is not shown tokens of a kind.
pub fn is_trivia(kind: u16) -> bool {
    kind == WHITESPACE || kind == COMMENT
}

/// The tokens of a text, trivia too: kind and bytes.
pub fn lex(text: &[u8]) -> Vec<(u16, usize)> {
    Lexer::new(text).collect()
}

/// Reads a text token by token.
pub struct Lexer<'t> {
    rest: &'t [u8],
    /// A `/*` was not closed: then no later one is.
    open: bool,
}

impl<'t> Lexer<'t> {
    pub fn new(text: &'t [u8]) -> Lexer<'t> {
        Lexer { rest: text, open: false }
    }

    fn slash(&mut self) -> (u16, usize) {
        match self.rest.get(1) {
            Some(b'/') => (COMMENT, line(self.rest)),
            Some(b'*') if !self.open => match self.rest[2..].windows(2).position(|two| two == b"*/") {
                Some(inside) => (COMMENT, inside + 4),
                None => {
                    self.open = true;
                    (SLASH, 1)
                }
            },
            _ => (SLASH, 1),
        }
    }
}

impl Iterator for Lexer<'_> {
    type Item = (u16, usize);

    fn next(&mut self) -> Option<(u16, usize)> {
        let rest = self.rest;
        let (kind, length) = match *rest.first()? {
            b' ' | b'\t' | b'\r' | b'\n' => (WHITESPACE, run(rest, |b| matches!(b, b' ' | b'\t' | b'\r' | b'\n'))),
            b'A'..=b'Z' | b'a'..=b'z' | b'_' => word(rest),
            b'0'..=b'9' => number(rest),
            b'.' => point(rest),
            b'/' => self.slash(),
            b'"' => double_quoted(rest),
            b'\'' => quoted(rest),
            b'#' if rest.starts_with(b"#pragma") => (PRAGMA, line(rest)),
            b'#' => (POUND, 1),
            b'@' if matches!(rest.get(1), Some(b'A'..=b'Z' | b'a'..=b'z' | b'_')) => (ANNOTATION, line(rest)),
            b'@' => (AT, 1),
            b'$' => match run(&rest[1..], |b| b.is_ascii_digit()) {
                0 => (DOLLAR, 1),
                digits => (HARDWAREIDENT, 1 + digits),
            },
            b';' => (SEMICOLON, 1),
            b',' => (COMMA, 1),
            b'(' => (L_PAREN, 1),
            b')' => (R_PAREN, 1),
            b'{' => (L_CURLY, 1),
            b'}' => (R_CURLY, 1),
            b'[' => (L_BRACK, 1),
            b']' => (R_BRACK, 1),
            b'<' => (L_ANGLE, 1),
            b'>' => (R_ANGLE, 1),
            b'~' => (TILDE, 1),
            b'?' => (QUESTION, 1),
            b'&' => (AMP, 1),
            b'|' => (PIPE, 1),
            b'+' => (PLUS, 1),
            b'*' => (STAR, 1),
            b'^' => (CARET, 1),
            b'%' => (PERCENT, 1),
            b':' => (COLON, 1),
            b'=' => (EQ, 1),
            b'!' => (BANG, 1),
            b'-' => (MINUS, 1),
            _ => (ERROR, 1),
        };
        self.rest = &rest[length..];
        Some((kind, length))
    }
}

/// How many bytes at the front are of a sort.
fn run(text: &[u8], sort: impl Fn(u8) -> bool) -> usize {
    text.iter().position(|&b| !sort(b)).unwrap_or(text.len())
}

/// The rest of the line: up to CR or LF.
fn line(text: &[u8]) -> usize {
    run(text, |b| b != b'\r' && b != b'\n')
}

/// Digits with single underscores between them; 0 where no digit comes first.
fn digits(text: &[u8], digit: impl Fn(u8) -> bool) -> usize {
    let is = |at: usize| text.get(at).is_some_and(|&b| digit(b));
    let mut length = 0;
    while is(length) || (length > 0 && text.get(length) == Some(&b'_') && is(length + 1)) {
        length += 1;
    }
    length
}

fn decimals(text: &[u8]) -> usize {
    digits(text, |b| b.is_ascii_digit())
}

fn bits(text: &[u8]) -> usize {
    digits(text, |b| matches!(b, b'0' | b'1'))
}

/// An exponent, `e` and a sign before it; 0 where none is whole.
fn exponent(text: &[u8]) -> usize {
    let before = match text {
        [b'e' | b'E', b'+' | b'-', ..] => 2,
        [b'e' | b'E', ..] => 1,
        _ => return 0,
    };
    match decimals(&text[before..]) {
        0 => 0,
        length => before + length,
    }
}

/// What begins with a digit.
fn number(text: &[u8]) -> (u16, usize) {
    let based = match text {
        [b'0', b'b' | b'B', rest @ ..] => bits(rest),
        [b'0', b'o', rest @ ..] => digits(rest, |b| matches!(b, b'0'..=b'7')),
        [b'0', b'x' | b'X', rest @ ..] => digits(rest, |b| b.is_ascii_hexdigit()),
        _ => 0,
    };
    if based > 0 {
        return (INT_NUMBER, 2 + based);
    }
    let whole = decimals(text);
    let pointed = if text.get(whole) == Some(&b'.') { whole + 1 + decimals(&text[whole + 1..]) } else { whole };
    let length = pointed + exponent(&text[pointed..]);
    (if length == whole { INT_NUMBER } else { FLOAT_NUMBER }, length)
}

/// What begins with a point.
fn point(text: &[u8]) -> (u16, usize) {
    match decimals(&text[1..]) {
        0 => (DOT, 1),
        length => (FLOAT_NUMBER, 1 + length + exponent(&text[1 + length..])),
    }
}

fn double_quoted(text: &[u8]) -> (u16, usize) {
    let length = bits(&text[1..]);
    if length > 0 && text.get(1 + length) == Some(&b'"') {
        return (BIT_STRING, length + 2);
    }
    quoted(text)
}

/// A string up to the quote that it begins with, on one line and without tabs; else an error, which is the quote alone.
fn quoted(text: &[u8]) -> (u16, usize) {
    let quote = text[0];
    let inside = run(&text[1..], |b| b != quote && !matches!(b, b'\r' | b'\n' | b'\t'));
    if inside > 0 && text.get(1 + inside) == Some(&quote) {
        return (STRING, inside + 2);
    }
    (ERROR, 1)
}

/// What begins with a letter or an underscore.
fn word(text: &[u8]) -> (u16, usize) {
    let length = run(text, |b| b.is_ascii_alphanumeric() || b == b'_');
    let kind = match &text[..length] {
        b"_" => UNDERSCORE,
        b"pragma" => return (PRAGMA, line(text)),
        b"OPENQASM" => O_P_E_N_Q_A_S_M_KW,
        b"include" => INCLUDE_KW,
        b"def" => DEF_KW,
        b"defcalgrammar" => DEFCALGRAMMAR_KW,
        b"cal" => CAL_KW,
        b"defcal" => DEFCAL_KW,
        b"gate" => GATE_KW,
        b"delay" => DELAY_KW,
        b"reset" => RESET_KW,
        b"measure" => MEASURE_KW,
        b"let" => LET_KW,
        b"box" => BOX_KW,
        b"extern" => EXTERN_KW,
        b"const" => CONST_KW,
        b"barrier" => BARRIER_KW,
        b"gphase" => GPHASE_KW,
        b"if" => IF_KW,
        b"else" => ELSE_KW,
        b"for" => FOR_KW,
        b"in" => IN_KW,
        b"while" => WHILE_KW,
        b"continue" => CONTINUE_KW,
        b"return" => RETURN_KW,
        b"break" => BREAK_KW,
        b"end" => END_KW,
        b"switch" => SWITCH_KW,
        b"case" => CASE_KW,
        b"default" => DEFAULT_KW,
        b"input" => INPUT_KW,
        b"output" => OUTPUT_KW,
        b"readonly" => READONLY_KW,
        b"mutable" => MUTABLE_KW,
        b"qreg" => QREG_KW,
        b"creg" => CREG_KW,
        b"qubit" => QUBIT_KW,
        b"void" => VOID_KW,
        b"array" => ARRAY_KW,
        b"ctrl" => CTRL_KW,
        b"negctrl" => NEGCTRL_KW,
        b"inv" => INV_KW,
        b"pow" => POW_KW,
        b"false" => FALSE_KW,
        b"true" => TRUE_KW,
        b"float" => FLOAT_TY,
        b"int" => INT_TY,
        b"uint" => UINT_TY,
        b"complex" => COMPLEX_TY,
        b"bool" => BOOL_TY,
        b"bit" => BIT_TY,
        b"duration" => DURATION_TY,
        b"stretch" => STRETCH_TY,
        b"angle" => ANGLE_TY,
        _ => IDENT,
    };
    (kind, length)
}

/// All that a call says of a text.
#[derive(Clone, PartialEq, Eq, Debug)]
pub struct Said {
    /// two words a token, trivia too: kind, bytes
    pub tokens: Vec<u32>,
    /// the kinds that are no trivia
    pub kinds: Vec<u16>,
    /// whether each of them touches another one behind it
    pub joint: Vec<bool>,
}

/// What is said of a text where the rooms suffice.
pub fn said(text: &[u8]) -> Said {
    let list = lex(text);
    let mut said = Said { tokens: Vec::with_capacity(2 * list.len()), kinds: Vec::new(), joint: Vec::new() };
    for (i, &(kind, length)) in list.iter().enumerate() {
        said.tokens.extend([kind as u32, length as u32]);
        if !is_trivia(kind) {
            said.kinds.push(kind);
            said.joint.push(list.get(i + 1).is_some_and(|&(next, _)| !is_trivia(next)));
        }
    }
    said
}

impl Said {
    /// All tokens, trivia too.
    pub fn all(&self) -> usize {
        self.tokens.len() / 2
    }

    /// The joint words, with the further bits of the last as `before` has them.
    pub fn joints(&self, before: u64) -> Vec<u64> {
        let mut words = vec![0; self.kinds.len().div_ceil(64)];
        for (i, _) in self.joint.iter().enumerate().filter(|(_, &joint)| joint) {
            words[i / 64] |= 1 << (i % 64);
        }
        if let (Some(last), bits @ 1..) = (words.last_mut(), self.kinds.len() % 64) {
            *last |= before >> bits << bits;
        }
        words
    }

    /// The number and the first two words of the answer, for a text and rooms of so many kinds, joint words, list words and answer words; no
    /// words where the answer room is too short.
    pub fn answer(&self, text: usize, kinds: usize, joints: usize, tokens: usize, answer: usize) -> (u32, Vec<u64>) {
        let small = kinds < self.kinds.len() || joints < self.kinds.len().div_ceil(64) || tokens < self.tokens.len();
        match () {
            _ if answer < 2 => (100, vec![]),
            _ if text > MOST => (14, vec![0, 0]),
            _ if small => (15, vec![self.all() as u64, 0]),
            _ => (0, vec![self.all() as u64, self.kinds.len() as u64]),
        }
    }
}

/// The whole call, as the port has it, over this lexer: what the benchmark takes.
pub fn call(text: &[u8], kinds: &mut [u16], joints: &mut [u64], tokens: &mut [u32], answer: &mut [u64]) -> u32 {
    let [place, count, ..] = answer else { return 100 };
    (*place, *count) = (0, 0);
    if text.len() > MOST {
        return 14;
    }
    // rooms with a token for each byte need no count
    let fit = |all: usize, shown: usize| kinds.len() >= shown && joints.len() >= shown.div_ceil(64) && tokens.len() >= 2 * all;
    if !fit(text.len(), text.len()) {
        let (all, shown) = Lexer::new(text).fold((0, 0), |(all, shown), (kind, _)| (all + 1, shown + !is_trivia(kind) as usize));
        if !fit(all, shown) {
            *place = all as u64;
            return 15;
        }
    }
    let (mut all, mut shown, mut touches) = (0, 0, false);
    for (kind, length) in Lexer::new(text) {
        tokens[2 * all] = kind as u32;
        tokens[2 * all + 1] = length as u32;
        all += 1;
        if is_trivia(kind) {
            touches = false;
            continue;
        }
        if touches {
            joints[(shown - 1) / 64] |= 1 << ((shown - 1) % 64);
        }
        kinds[shown] = kind;
        joints[shown / 64] &= !(1 << (shown % 64));
        shown += 1;
        touches = true;
    }
    (*place, *count) = (all as u64, shown as u64);
    0
}
