//! The library's lexing beside the second lexer of differential/, and from text to steps beside that lexer and the crate. All rooms have a token
//! for each byte.

use super::{program, ratios, timed, DONE, LARGEST, LONGEST};
use differential::{rng::Rng, texts};
use oq3_plain::{entries, TopEntryPoint};
use std::hint::black_box;

use super::port;

/// A lexer's call: text, kinds, joint words, list, answer.
type Lex = fn(&[u8], &mut [u16], &mut [u64], &mut [u32], &mut [u64]) -> u32;

/// What may be taken: the library's time by that of the other side, and the milliseconds of a text that is slow to read.
const LEXING: f64 = 1.5;
const TO_STEPS: f64 = 1.1;
const SLOWEST: f64 = 1.0;

/// The most kinds that a piece of a program has: what a parse takes, and not much less.
const PIECE: usize = 8_000;

/// A lexer with its rooms.
struct Side {
    lex: Lex,
    kinds: Vec<u16>,
    joints: Vec<u64>,
    tokens: Vec<u32>,
    answer: [u64; 2],
}

impl Side {
    fn new(lex: Lex, bytes: usize) -> Side {
        Side { lex, kinds: vec![0; bytes], joints: vec![0; bytes.div_ceil(64)], tokens: vec![0; 2 * bytes], answer: [0; 2] }
    }

    fn turn(&mut self, text: &[u8]) {
        let Side { lex, kinds, joints, tokens, answer } = self;
        assert_eq!(lex(black_box(text), kinds, joints, tokens, answer), DONE);
    }

    /// What was lexed last: kinds, and the joint words that they need.
    fn lexed(&self) -> (&[u16], &[u64]) {
        let count = self.answer[1] as usize;
        (&self.kinds[..count], &self.joints[..count.div_ceil(64)])
    }

    /// All that was said of the last text.
    fn said(&self) -> (&[u16], Vec<bool>, &[u32]) {
        let (kinds, joints) = self.lexed();
        let joint = (0..kinds.len()).map(|i| joints[i / 64] >> (i % 64) & 1 == 1).collect();
        (kinds, joint, &self.tokens[..2 * self.answer[0] as usize])
    }
}

/// The library from text to steps: the bytes of the steps.
struct Port {
    side: Side,
    room: Vec<u32>,
    steps: Vec<u8>,
}

impl Port {
    fn turn(&mut self, text: &[u8]) -> usize {
        self.side.turn(text);
        let (kinds, joints) = self.side.lexed();
        let mut answer = [0; 3];
        assert_eq!(port::parse(0, 0, kinds, joints, &mut self.room, &mut answer), DONE);
        assert_eq!(port::resolve(&mut self.room[..2 * answer[1] as usize], &mut self.steps, &mut answer), DONE);
        answer[0] as usize
    }

    fn turns(&mut self, pieces: &[Vec<u8>]) -> usize {
        pieces.iter().map(|text| self.turn(text)).sum()
    }
}

/// The second lexer and the crate from text to steps.
fn crate_turn(side: &mut Side, text: &[u8]) {
    side.turn(text);
    let (kinds, joints) = side.lexed();
    black_box(TopEntryPoint::SourceFile.parse(&entries::input(kinds, joints)));
}

/// 64 KiB of programs, in pieces that a parse takes: each is done, with errors where it is broken and without them where not.
fn written(broken: bool) -> Vec<Vec<u8>> {
    let mut rng = Rng::new(20 + broken as u64);
    let (mut pieces, mut left) = (Vec::new(), lexer::MOST);
    while left > 0 {
        let case = program(PIECE, broken, &mut rng);
        let list: Vec<(u16, bool)> = case.kinds.iter().enumerate().map(|(i, &kind)| (kind, case.joint(i))).collect();
        let mut text = texts::written(&list, 1, &mut rng);
        text.push(b'\n');
        // a broken program may have a kind that no text has: it is written as another, and may then be refused
        let said = lexer::said(&text);
        if port::parse(0, 0, &said.kinds, &said.joints(0), &mut vec![0; LARGEST], &mut [0; 3]) != DONE {
            continue;
        }
        text.truncate(left);
        left -= text.len();
        pieces.push(text);
    }
    pieces
}

const NAMES: [&str; 2] = ["programs", "broken"];

/// Writes the programs as FOLDER/NAME.NUMBER.qasm.
pub fn texts(folder: &str) {
    for (broken, name) in NAMES.iter().enumerate() {
        for (number, text) in written(broken == 1).iter().enumerate() {
            std::fs::write(format!("{folder}/{name}.{number}.qasm"), text).expect("the programs are written");
        }
    }
}

/// Reads them again: the whole, and the pieces without the last, which is cut off and so may not be done.
fn read(folder: &str, name: &str) -> (Vec<u8>, Vec<Vec<u8>>) {
    let mut pieces: Vec<Vec<u8>> = (0..).map_while(|number| std::fs::read(format!("{folder}/{name}.{number}.qasm")).ok()).collect();
    let all = pieces.concat();
    assert_eq!(all.len(), lexer::MOST, "64 KiB of {name}");
    pieces.pop();
    (all, pieces)
}

/// The samples' programs, over and over.
fn samples() -> Vec<u8> {
    let all: Vec<Vec<u8>> = texts::samples().into_iter().map(|sample| sample.text).collect();
    texts::repeated(&all.concat(), lexer::MOST)
}

/// Both lexers must say the same of a text: bytes, tokens, kinds.
fn agreed(text: &[u8]) -> (usize, u64, u64) {
    let (mut own, mut other) = (Side::new(port::lex, text.len()), Side::new(lexer::call, text.len()));
    own.turn(text);
    other.turn(text);
    assert!(own.said() == other.said(), "the same tokens");
    (text.len(), own.answer[0], own.answer[1])
}

/// Prints a row for each text; false where a limit is passed.
pub fn time(folder: &str) -> bool {
    let mut good = true;
    let [(valid, valid_pieces), (broken, broken_pieces)] = NAMES.map(|name| read(folder, name));
    println!("| text | bytes | tokens | kinds | time, library / second lexer | limit |");
    println!("|---|---|---|---|---|---|");
    for (name, text) in [("programs", &valid), ("broken programs", &broken), ("samples", &samples())] {
        let (bytes, tokens, kinds) = agreed(text);
        let (mut own, mut other) = (Side::new(port::lex, bytes), Side::new(lexer::call, bytes));
        let found = ratios(&mut [&mut || black_box(&mut other).turn(text), &mut || black_box(&mut own).turn(text)])[0];
        println!("| {name} | {bytes} | {tokens} | {kinds} | {found:.2} | {LEXING} |");
        good &= found <= LEXING;
    }
    println!();
    println!("| text to steps | bytes | kinds | bytes of steps | time, library / second lexer and crate | limit |");
    println!("|---|---|---|---|---|---|");
    for (name, pieces) in [("programs", &valid_pieces), ("broken programs", &broken_pieces)] {
        let longest = pieces.iter().map(Vec::len).max().expect("a piece");
        let mut own = Port { side: Side::new(port::lex, longest), room: vec![0; LARGEST], steps: vec![0; LONGEST] };
        let mut other = Side::new(lexer::call, longest);
        let (mut bytes, mut kinds, steps) = (0, 0, own.turns(pieces));
        for text in pieces {
            let (length, _, count) = agreed(text);
            (bytes, kinds) = (bytes + length, kinds + count);
        }
        let found = ratios(&mut [
            &mut || pieces.iter().for_each(|text| crate_turn(black_box(&mut other), text)),
            &mut || assert_eq!(black_box(&mut own).turns(pieces), steps),
        ])[0];
        println!("| {name} | {bytes} | {kinds} | {steps} | {found:.2} | {TO_STEPS} |");
        good &= found <= TO_STEPS;
    }
    println!();
    println!("| over and over, to 65,536 bytes | tokens | milliseconds, library | second lexer | limit |");
    println!("|---|---|---|---|---|");
    for piece in texts::LONG {
        let text = texts::repeated(piece, lexer::MOST);
        let (bytes, tokens, _) = agreed(&text);
        let least = |lex: Lex| {
            let mut side = Side::new(lex, bytes);
            (0..31).map(|_| timed(1, || black_box(&mut side).turn(&text)).as_secs_f64() * 1e3).min_by(f64::total_cmp).expect("a time")
        };
        let (own, other) = (least(port::lex), least(lexer::call));
        println!("| `{}` | {tokens} | {own:.3} | {other:.3} | {SLOWEST} |", piece.escape_ascii());
        good &= own < SLOWEST;
    }
    println!();
    let mut other = Side::new(lexer::call, valid.len());
    let turns = 200;
    let second = timed(turns, || black_box(&mut other).turn(&valid)).as_secs_f64() / turns as f64;
    println!("the second lexer reads {:.0} MB/s of programs", valid.len() as f64 / second / 1e6);
    good
}

/// So many turns of a side on 64 KiB of programs, for an instrument that counts.
pub fn repeat(folder: &str, side: &str, count: usize) {
    let (text, pieces) = read(folder, NAMES[0]);
    let bytes = text.len();
    let (mut own, mut other) = (Side::new(port::lex, bytes), Side::new(lexer::call, bytes));
    let mut whole = Port { side: Side::new(port::lex, bytes), room: vec![0; LARGEST], steps: vec![0; LONGEST] };
    for _ in 0..count {
        match side {
            "port" => black_box(&mut own).turn(&text),
            "second" => black_box(&mut other).turn(&text),
            "port-steps" => assert!(black_box(&mut whole).turns(&pieces) > 0),
            "second-steps" => pieces.iter().for_each(|text| crate_turn(&mut other, text)),
            _ => panic!("no side {side}"),
        }
    }
}
