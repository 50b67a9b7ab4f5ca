//! Texts to lex: the named cases, all short ones, programs with their damaged copies, texts around each rule, texts at the limit, the samples.

use crate::generate;
use crate::rng::Rng;
use crate::text::kind;
use answer::{kinds, Entry, ENTRIES};

/// A text with all its tokens, trivia too, and those that are shown, as `text::names` writes them.
pub type Named = (&'static [u8], usize, &'static str);

/// The cases of docs/LEXER.md, and the rows of its table.
pub const NAMED: &[Named] = &[
    (b"", 0, "(no token)"),
    (b"a==b", 4, "IDENT~ EQ~ EQ~ IDENT"),
    (b"a=/**/=b", 5, "IDENT~ EQ EQ~ IDENT"),
    (b"a-->b", 5, "IDENT~ MINUS~ MINUS~ R_ANGLE~ IDENT"),
    (b"1...2", 3, "FLOAT_NUMBER~ DOT~ FLOAT_NUMBER"),
    (b"1_0.5e-1_0", 1, "FLOAT_NUMBER"),
    (b"100ns", 2, "INT_NUMBER~ IDENT"),
    (b"2.5 us", 3, "FLOAT_NUMBER IDENT"),
    (b"\"0_1\"", 1, "BIT_STRING"),
    (b"\"0__1\"", 1, "STRING"),
    (b"\"\"", 2, "ERROR~ ERROR"),
    (b"/* a */ b */", 6, "IDENT STAR~ SLASH"),
    (b"/*/", 3, "SLASH~ STAR~ SLASH"),
    (b"#pragma x // y\nz", 3, "PRAGMA IDENT"),
    (b"@bind x;\nh q;", 6, "ANNOTATION IDENT IDENT~ SEMICOLON"),
    (b"$0a", 2, "HARDWAREIDENT~ IDENT"),
    (b"$q", 2, "DOLLAR~ IDENT"),
    (b"\xc2\xb5", 2, "ERROR~ ERROR"),
    // letters, units and other characters above 127
    (b"\xce\xb8", 2, "ERROR~ ERROR"),
    (b"a\xcf\x80b", 4, "IDENT~ ERROR~ ERROR~ IDENT"),
    (b"5\xc2\xb5s", 4, "INT_NUMBER~ ERROR~ ERROR~ IDENT"),
    (b"\xef\xbb\xbfa", 4, "ERROR~ ERROR~ ERROR~ IDENT"),
    (b"if\xce\xb8 @\xce\xb8", 7, "IF_KW~ ERROR~ ERROR AT~ ERROR~ ERROR"),
    (b"// \xce\xb8\n\"\xce\xb8\"", 3, "STRING"),
    // words and marks
    (b"_", 1, "UNDERSCORE"),
    (b"__", 1, "IDENT"),
    (b"_a", 1, "IDENT"),
    (b"?", 1, "QUESTION"),
    (b"#", 1, "POUND"),
    (b"$", 1, "DOLLAR"),
    (b"durationof(a)", 4, "IDENT~ L_PAREN~ IDENT~ R_PAREN"),
    (b"#dim", 2, "POUND~ IDENT"),
    (b"OpenQASM openqasm IF If", 7, "IDENT IDENT IDENT IDENT"),
    (b"ifx i_f if0 xif", 7, "IDENT IDENT IDENT IDENT"),
    (b"a**b~=c**=d", 11, "IDENT~ STAR~ STAR~ IDENT~ TILDE~ EQ~ IDENT~ STAR~ STAR~ EQ~ IDENT"),
    (b"a\\b`c", 5, "IDENT~ ERROR~ IDENT~ ERROR~ IDENT"),
    // white space and comments
    (b" \t\r\n a", 2, "IDENT"),
    (b"a\x0cb\x0bc\0", 6, "IDENT~ ERROR~ IDENT~ ERROR~ IDENT~ ERROR"),
    (b"// a\r\nb", 3, "IDENT"),
    (b"// a\rb", 3, "IDENT"),
    (b"//", 1, "(no token)"),
    (b"a//", 2, "IDENT"),
    (b"//a//b\n/", 3, "SLASH"),
    (b"/* /* */ a */", 6, "IDENT STAR~ SLASH"),
    (b"/* a", 4, "SLASH~ STAR IDENT"),
    (b"/***/a/****/b/* **/", 5, "IDENT IDENT"),
    (b"/* * / */a", 2, "IDENT"),
    (b"a/*\n*/b", 3, "IDENT IDENT"),
    (b"a /**/ b", 5, "IDENT IDENT"),
    (b"/*/*/a", 2, "IDENT"),
    (b"/*/ */a*/", 4, "IDENT~ STAR~ SLASH"),
    (b"\"/*\" /* \" */ \"a\"", 5, "STRING STRING"),
    (b"/\\*", 3, "SLASH~ ERROR~ STAR"),
    // strings
    (b"\"abc", 2, "ERROR~ IDENT"),
    (b"\"abc\nd\"", 5, "ERROR~ IDENT IDENT~ ERROR"),
    (b"\"a\rb\"", 5, "ERROR~ IDENT IDENT~ ERROR"),
    (b"\"a\tb\"", 5, "ERROR~ IDENT IDENT~ ERROR"),
    (b"'a\tb'", 5, "ERROR~ IDENT IDENT~ ERROR"),
    (b"\"a\\\"b\"", 3, "STRING~ IDENT~ ERROR"),
    (b"'a'\"b'c\"'d\"e'", 3, "STRING~ STRING~ STRING"),
    (b"\"a'", 3, "ERROR~ IDENT~ ERROR"),
    (b"'01'", 1, "STRING"),
    (b"''a'", 2, "ERROR~ STRING"),
    (b"include \"01\";", 4, "INCLUDE_KW BIT_STRING~ SEMICOLON"),
    (b"\"_\" \"0_\" \"_1\" \"012\" \" 01\"", 9, "STRING STRING STRING STRING STRING"),
    (b"\"\0\"", 1, "STRING"),
    (b"\"01", 2, "ERROR~ INT_NUMBER"),
    (b"\"a\" \"b\"", 3, "STRING STRING"),
    // numbers
    (b"1__0", 2, "INT_NUMBER~ IDENT"),
    (b"1_", 2, "INT_NUMBER~ UNDERSCORE"),
    (b"0b12", 2, "INT_NUMBER~ INT_NUMBER"),
    (b"0B1", 1, "INT_NUMBER"),
    (b"0b", 2, "INT_NUMBER~ IDENT"),
    (b"0b_1", 2, "INT_NUMBER~ IDENT"),
    (b"0x1_F", 1, "INT_NUMBER"),
    (b"0Xa 0Xg", 4, "INT_NUMBER INT_NUMBER~ IDENT"),
    (b"0o17 0o8 0O7", 7, "INT_NUMBER INT_NUMBER~ IDENT INT_NUMBER~ IDENT"),
    (b"0o78", 2, "INT_NUMBER~ INT_NUMBER"),
    (b"0x1.5", 2, "INT_NUMBER~ FLOAT_NUMBER"),
    (b"0b1e5", 2, "INT_NUMBER~ IDENT"),
    (b"0_1", 1, "INT_NUMBER"),
    (b"1e", 2, "INT_NUMBER~ IDENT"),
    (b"1e+", 3, "INT_NUMBER~ IDENT~ PLUS"),
    (b"1e+5 1E-5 1e5_0", 5, "FLOAT_NUMBER FLOAT_NUMBER FLOAT_NUMBER"),
    (b"1e5.", 2, "FLOAT_NUMBER~ DOT"),
    (b"1.e5", 1, "FLOAT_NUMBER"),
    (b"1.s", 2, "FLOAT_NUMBER~ IDENT"),
    (b"1.e", 2, "FLOAT_NUMBER~ IDENT"),
    (b"1.", 1, "FLOAT_NUMBER"),
    (b".5", 1, "FLOAT_NUMBER"),
    (b".5e1.", 2, "FLOAT_NUMBER~ DOT"),
    (b"._5", 2, "DOT~ IDENT"),
    (b"1._5", 2, "FLOAT_NUMBER~ IDENT"),
    (b"1.5_ 1_.5", 6, "FLOAT_NUMBER~ UNDERSCORE INT_NUMBER~ UNDERSCORE~ FLOAT_NUMBER"),
    (b"1..2", 2, "FLOAT_NUMBER~ FLOAT_NUMBER"),
    (b"1 .. 2", 6, "INT_NUMBER DOT~ DOT INT_NUMBER"),
    (b"1.2.3", 2, "FLOAT_NUMBER~ FLOAT_NUMBER"),
    (b"2 im 5parsecs", 6, "INT_NUMBER IDENT INT_NUMBER~ IDENT"),
    (b"OPENQASM 3;", 4, "O_P_E_N_Q_A_S_M_KW INT_NUMBER~ SEMICOLON"),
    (b"OPENQASM 3.0;", 4, "O_P_E_N_Q_A_S_M_KW FLOAT_NUMBER~ SEMICOLON"),
    // hardware qubits
    (b"$0_1", 2, "HARDWAREIDENT~ IDENT"),
    (b"$0.5", 2, "HARDWAREIDENT~ FLOAT_NUMBER"),
    (b"$ 0", 3, "DOLLAR INT_NUMBER"),
    (b"$$12", 2, "DOLLAR~ HARDWAREIDENT"),
    // pragmas and annotations
    (b"pragma", 1, "PRAGMA"),
    (b"pragma\r\nx", 3, "PRAGMA IDENT"),
    (b"pragma a b // c\rx", 3, "PRAGMA IDENT"),
    (b"pragmatic pragma_ pragma0 xpragma", 7, "IDENT IDENT IDENT IDENT"),
    (b"a pragma;x\nb", 5, "IDENT PRAGMA IDENT"),
    (b"pragma\xce\xb8 x\ny", 3, "PRAGMA IDENT"),
    (b"#pragmatic\ra", 3, "PRAGMA IDENT"),
    (b"#pragma\na", 3, "PRAGMA IDENT"),
    (b"# pragma a", 3, "POUND PRAGMA"),
    (b"#pragm a", 4, "POUND~ IDENT IDENT"),
    (b"Pragma a", 3, "IDENT IDENT"),
    (b"ctrl @x q;", 3, "CTRL_KW ANNOTATION"),
    (b"ctrl @ x q;", 8, "CTRL_KW AT IDENT IDENT~ SEMICOLON"),
    (b"ctrl(2)@$0", 6, "CTRL_KW~ L_PAREN~ INT_NUMBER~ R_PAREN~ AT~ HARDWAREIDENT"),
    (b"@a.b c\r\n@_\n@1", 6, "ANNOTATION ANNOTATION AT~ INT_NUMBER"),
    (b"@", 1, "AT"),
    (b"@if\nif", 3, "ANNOTATION IF_KW"),
    (b"cal { play(d, 1.5e3); }", 14, "CAL_KW L_CURLY IDENT~ L_PAREN~ IDENT~ COMMA FLOAT_NUMBER~ R_PAREN~ SEMICOLON R_CURLY"),
];

/// Bytes with which the rules begin, go on and end.
pub const TELLING: &[u8] = b"/*\"'01_.e+xb#$@a\n\r\t \xb5";

/// Every text of a length over an alphabet.
pub fn short(alphabet: &[u8], length: usize, each: &mut dyn FnMut(&[u8])) {
    let mut at = vec![0; length];
    let mut text = vec![alphabet[0]; length];
    loop {
        each(&text);
        let Some(i) = (0..length).rev().find(|&i| at[i] + 1 < alphabet.len()) else { return };
        at[i] += 1;
        at[i + 1..].fill(0);
        for i in i..length {
            text[i] = alphabet[at[i]];
        }
    }
}

/// Names, numbers and the like that a kind without a spelling of its own is written as.
const NAMES: &[&str] =
    &["a", "q", "theta", "_x1", "control_qubit", "ifs", "e5", "x", "im", "ns", "pragma_a", "b01", "Int", "durationof", "qubits"];
const INTS: &[&str] = &["0", "7", "42", "1_000", "0b01", "0B1_1", "0o17", "0xff", "0XA_b", "65536", "007"];
const FLOATS: &[&str] = &["3.0", "2.5", "1.", ".5", "1e5", "1.5E-3", "6.02e+2_3", "1_0.0_1", ".5e1", "0.1"];
const STRINGS: &[&str] = &["\"stdgates.inc\"", "'a b.inc'", "\"openpulse\"", "\"it's\"", "'\"'", "\"0__1\"", "\"\u{3b8}\"", "\"//\""];
const BITS: &[&str] = &["\"0\"", "\"01\"", "\"0_1\"", "\"1111_0000\""];
const QUBITS: &[&str] = &["$0", "$1", "$27"];
const PRAGMAS: &[&str] = &["pragma user x", "#pragma a \u{b5}s // b", "pragma", "#pragma", "pragma \"x", "#pragmas"];
const NOTES: &[&str] = &["@bind x[0]", "@a.b \"c\"", "@reversible", "@_ 1"];
const ERRORS: &[&str] = &["\\", "`", "\x0c", "\x0b", "\0", "\x7f"];
const SPACES: &[&str] =
    &[" ", " ", " ", "  ", "\n", "\n    ", "\t", "\r\n", "\n\n", "/* a */", "/**/", " // a \u{3b8}\n", "//\r\n", "/* \n* /* */", "\r"];

/// The text of a kind. A kind that no text has is written as another.
fn spelt(number: u16, rng: &mut Rng) -> &'static str {
    let row = &kinds()[number as usize];
    let texts: &[&str] = match row.name {
        "IDENT" => NAMES,
        "INT_NUMBER" => INTS,
        "FLOAT_NUMBER" => FLOATS,
        "STRING" | "CHAR" | "BYTE" => STRINGS,
        "BIT_STRING" => BITS,
        "HARDWAREIDENT" => QUBITS,
        "PRAGMA" | "PRAGMA_KW" => PRAGMAS,
        "ANNOTATION" => NOTES,
        "ERROR" => ERRORS,
        _ => {
            let text = row.why.split_once('`').map_or("a", |(_, text)| text.trim_start_matches(['`', ' ', '\\']));
            return text.split(['`', ' ']).next().expect("a text");
        }
    };
    *rng.pick(texts)
}

/// Tokens as text: those that are joint touch, where they stay apart then, and the others have something between them. `wide` in 4 have more
/// than one blank. The rest of a line is a pragma's or an annotation's.
pub fn written(list: &[(u16, bool)], wide: usize, rng: &mut Rng) -> Vec<u8> {
    let mut text: Vec<u8> = Vec::new();
    let lines = [kind("PRAGMA"), kind("PRAGMA_KW"), kind("ANNOTATION")];
    for (i, &(number, _)) in list.iter().enumerate() {
        let next = spelt(number, rng);
        if i > 0 {
            let (before, joint) = list[i - 1];
            if lines.contains(&before) {
                text.extend(rng.pick(&["\n", "\r\n", "\r", "\n  "]).as_bytes());
            } else if !joint || merges(&text, next.as_bytes()) {
                let space = if rng.chance(wide, 4) { *rng.pick(SPACES) } else { " " };
                // behind a slash, no comment may begin
                let space = if text.ends_with(b"/") && space.starts_with('/') { " " } else { space };
                text.extend(space.as_bytes());
            }
        }
        text.extend(next.as_bytes());
    }
    text
}

/// Whether two tokens may not touch, if they are to stay what they are.
fn merges(before: &[u8], next: &[u8]) -> bool {
    let (Some(&last), first) = (before.last(), next[0]) else { return false };
    let in_word = |b: u8| b.is_ascii_alphanumeric() || b == b'_';
    match last {
        b'.' => in_word(first),
        b'/' => first == b'/' || first == b'*',
        b'#' | b'$' | b'@' => in_word(first),
        _ => in_word(last) && (in_word(first) || first == b'.'),
    }
}

/// A program, item or expression of the generator as text.
pub fn program(rng: &mut Rng) -> Vec<u8> {
    let entry = *rng.pick(&[Entry::Source, Entry::Source, ENTRIES[1], ENTRIES[2]]);
    let list = generate::valid(entry, rng);
    let wide = rng.below(5);
    written(&list, wide, rng)
}

/// A copy with one to four faults among its bytes.
pub fn damaged(mut text: Vec<u8>, rng: &mut Rng) -> Vec<u8> {
    for _ in 0..1 + rng.below(4) {
        let size = text.len();
        let (at, to) = (rng.below(size + 1), rng.below(size + 1));
        let (from, to) = (at.min(to), at.max(to));
        let few = from..to.min(from + 1 + rng.below(8));
        match rng.below(10) {
            0 if at < size => text[at] ^= 1 << rng.below(8),
            1 if at < size => text[at] = *rng.pick(TELLING),
            2 if at < size => text[at] = rng.next() as u8,
            3 => text.insert(at, *rng.pick(TELLING)),
            4 => text.insert(at, rng.next() as u8),
            5 if at < size => drop(text.remove(at)),
            6 => drop(text.drain(few)),
            // a piece once more, elsewhere
            7 => {
                let piece = text[few].to_vec();
                text.splice(at..at, piece);
            }
            // two pieces change places
            8 => text[from..to].rotate_left((to - from) / 2),
            _ if rng.chance(1, 2) => text.truncate(at),
            _ => drop(text.drain(..at)),
        }
    }
    text
}

/// So many bytes out of an alphabet, or fewer.
fn out_of(alphabet: &[u8], most: usize, rng: &mut Rng) -> Vec<u8> {
    (0..rng.below(most + 1)).map(|_| *rng.pick(alphabet)).collect()
}

/// A word as one of the tables has it, or nearly; some follow each other.
fn words(rng: &mut Rng) -> Vec<u8> {
    let mut text = Vec::new();
    for _ in 0..1 + rng.below(6) {
        let row = &kinds()[rng.below(kinds().len())];
        let mut word = match row.why.split_once('`').filter(|_| row.why.starts_with("the ") && !row.why.starts_with("the character")) {
            Some((_, word)) => word.trim_end_matches('`').as_bytes().to_vec(),
            None => rng.pick(&["_", "pragma", "#pragma", "@a", "durationof", "a"]).as_bytes().to_vec(),
        };
        match rng.below(8) {
            0 => word.push(*rng.pick(b"a0_Z.\xb5")),
            1 => drop(word.pop()),
            2 => word.insert(0, *rng.pick(b"a_Z0\xb5#@")),
            3 => {
                let at = rng.below(word.len());
                word[at] ^= if rng.chance(1, 2) { 32 } else { 1 << rng.below(8) };
            }
            _ => {}
        }
        text.extend(word);
        text.extend(out_of(b" \n;(@/", 2, rng));
    }
    text
}

/// A sort of text, with what a text of it is.
pub const SORTS: [&str; 9] =
    ["programs", "damaged programs", "telling bytes", "numbers", "strings", "comments", "words", "random bytes", "lists of kinds"];

/// A text at random, and its sort. `programs` are texts that are damaged beside the generated ones.
pub fn random(programs: &[Vec<u8>], rng: &mut Rng) -> (usize, Vec<u8>) {
    let sort = match rng.below(32) {
        0..=8 => 0,
        9..=18 => 1,
        19..=21 => 2,
        22..=24 => 3,
        25 | 26 => 4,
        27 | 28 => 5,
        29 => 6,
        30 => 7,
        _ => 8,
    };
    let text = match sort {
        0 => program(rng),
        1 if rng.chance(1, 8) && !programs.is_empty() => damaged(rng.pick(programs).clone(), rng),
        1 => {
            let text = program(rng);
            damaged(text, rng)
        }
        2 => out_of(TELLING, 40, rng),
        3 => out_of(b"0123456789_..eE+-xXbBoOaFs ", 14, rng),
        4 => out_of(b"\"\"''01_a \t\n\r\\\xb5", 16, rng),
        5 => out_of(b"//**  \n\ra;", 20, rng),
        6 => words(rng),
        7 => (0..rng.below(200)).map(|_| rng.next() as u8).collect(),
        _ => {
            let list = generate::random(rng);
            let wide = rng.below(5);
            written(&list, wide, rng)
        }
    };
    (sort, text)
}

/// A piece over and over, to so many bytes.
pub fn repeated(piece: &[u8], bytes: usize) -> Vec<u8> {
    piece.iter().copied().cycle().take(bytes).collect()
}

/// Pieces that are slow to read, or long, over and over. `/*` closes every five bytes, `/* ` never.
pub const LONG: [&[u8]; 16] =
    [b"/*", b"\"", b"'", b"a", b"/* ", b"1", b"1_", b" ", b"\"'", b"\"a", b"/", b"*", b".", b"1e", b"a;", b"\xb5"];

/// Texts of just `bytes` bytes.
pub fn long(bytes: usize, rng: &mut Rng) -> Vec<Vec<u8>> {
    let mut all: Vec<Vec<u8>> = LONG.iter().map(|piece| repeated(piece, bytes)).collect();
    let mut programs = Vec::new();
    while programs.len() < bytes {
        programs.extend(program(rng));
        programs.push(b'\n');
    }
    programs.truncate(bytes);
    all.push(programs);
    all.push((0..bytes).map(|_| rng.next() as u8).collect());
    all.push((0..bytes).map(|_| *rng.pick(TELLING)).collect());
    for (first, last) in [(&b"/*"[..], &b"*/"[..]), (b"\"", b"\""), (b"#pragma", b""), (b"@a", b"\n"), (b"//", b"\r"), (b"0x", b"g")] {
        let mut text = repeated(b"0", bytes);
        text[..first.len()].copy_from_slice(first);
        text[bytes - last.len()..].copy_from_slice(last);
        all.push(text);
    }
    all
}

/// A sample: its name, its text, and the tokens that it must have, where they are known.
pub struct Sample {
    pub name: String,
    pub text: Vec<u8>,
    pub tokens: Option<Vec<(u16, bool)>>,
}

/// The samples' programs: each NAME.qasm, with the tokens of NAME.tokens where that is beside it; and of a NAME.tokens that has no NAME.qasm the
/// text that stands in its comments.
pub fn samples() -> Vec<Sample> {
    let folder = concat!(env!("GRISOLEMP"), "/samples");
    let mut paths: Vec<_> = std::fs::read_dir(folder).expect("the samples").map(|entry| entry.expect("a sample").path()).collect();
    paths.sort();
    let mut all = Vec::new();
    for path in paths {
        let is = |extension: &str| path.extension().is_some_and(|e| e == extension);
        let beside = |extension: &str| path.with_extension(extension);
        let name = path.file_stem().expect("a name").to_string_lossy().to_string();
        if is("qasm") {
            let tokens = std::fs::read_to_string(beside("tokens")).ok().map(|text| tokens(&text).expect("token text"));
            all.push(Sample { name, text: std::fs::read(&path).expect("a program"), tokens });
        } else if is("tokens") && !beside("qasm").exists() {
            let text = std::fs::read_to_string(&path).expect("token text");
            let lines = text.lines().filter_map(|line| line.strip_prefix('#'));
            let text: String = lines.map(|line| line.strip_prefix(' ').unwrap_or(line).to_string() + "\n").collect();
            all.push(Sample { name, text: text.into_bytes(), tokens: None });
        }
    }
    all
}

/// The tokens of a token text (docs/RULES.md, section 10), or none where a word is no kind.
pub fn tokens(text: &str) -> Option<Vec<(u16, bool)>> {
    let lines = text.lines().map(|line| line.split('#').next().unwrap_or(""));
    let words = lines.flat_map(str::split_whitespace).filter(|word| !word.starts_with('!'));
    words
        .map(|word| {
            let name = word.strip_suffix('~').unwrap_or(word);
            let named = kinds().iter().position(|row| row.name == name).map(|number| number as u16);
            Some((named.or_else(|| name.parse().ok())?, name.len() < word.len()))
        })
        .collect()
}

/// What differs between the tokens of a sample and those that a text was read as, if anything. The sample's joint bits may be the crate's, which
/// has none before an IDENT and one behind a FLOAT_NUMBER that does not end in a point.
pub fn sample_differs(must: &[(u16, bool)], kinds: &[u16], joint: impl Fn(usize) -> bool) -> Option<String> {
    if must.len() != kinds.len() {
        return Some(format!("{} tokens and must have {}", kinds.len(), must.len()));
    }
    let (ident, float) = (kind("IDENT"), kind("FLOAT_NUMBER"));
    let name = |number: u16| answer::kinds()[number as usize].name;
    for (i, &(number, bit)) in must.iter().enumerate() {
        if number != kinds[i] {
            return Some(format!("token {i} is {} and must be {}", name(kinds[i]), name(number)));
        }
        if bit != joint(i) && kinds.get(i + 1) != Some(&ident) && number != float {
            return Some(format!("the joint bit of token {i} is {} and must be {bit}", joint(i)));
        }
    }
    None
}
