//! The library and the crate side by side, on the same tokens.
//!
//!     bench programs                        writes the programs, one line each
//!     bench time FILE                       a line for each program, half and room: the ratio of the two times
//!     bench repeat FILE PROGRAM SIDE COUNT  COUNT turns of one side, for an instrument that counts
//!     bench steps FILE PROGRAM              writes the step file of a program
//!     bench texts FOLDER                    writes programs as text (lex.rs)
//!     bench lex FOLDER                      a line for each of these texts, lexed and from text to steps: the ratio of the two times
//!     bench lexing FOLDER SIDE COUNT        COUNT turns of one side of that
//!
//! A SIDE is `crate`, `port` (rooms of the size needed) or `largest` (the largest rooms), with `-both` behind it where the list is resolved
//! too. Nothing is cleared between two calls by the caller.

use answer::{Entry, Ev, Step};
use differential::{case::Case, found, generate, rng::Rng};
use oq3_plain::{entries, Input, TopEntryPoint};
use std::hint::black_box;
use std::io::Write;
use std::time::{Duration, Instant};

mod lex;
#[path = "../../differential/src/port.rs"]
mod port;

const SIZES: [usize; 3] = [50, 1_000, 8_000];
const LARGEST: usize = 131_072;
const LONGEST: usize = 655_360;
const DONE: u32 = 0;
/// The record kinds of an error: the second has what was found.
const ERRORS: [u64; 2] = [4, 5];

/// A port's call with its rooms.
struct Lent<'c> {
    case: &'c Case,
    room: Vec<u32>,
    steps: Vec<u8>,
    answer: [u64; 3],
}

impl Lent<'_> {
    fn new(case: &Case, words: usize, bytes: usize) -> Lent<'_> {
        Lent { case, room: vec![0; words], steps: vec![0; bytes], answer: [0; 3] }
    }

    fn parse(&mut self) -> u32 {
        port::parse(0, 0, &self.case.kinds, &self.case.joints, &mut self.room, &mut self.answer)
    }

    fn resolve(&mut self) -> u32 {
        let words = Ev::WORDS * self.answer[1] as usize;
        port::resolve(&mut self.room[..words], &mut self.steps, &mut self.answer)
    }

    /// A turn: the number of the last call.
    fn turn(&mut self, both: bool) -> u32 {
        let said = self.parse();
        if both && said == DONE {
            return self.resolve();
        }
        said
    }
}

/// The least rooms of a case that is done: words of the event room, bytes of the step room.
fn needed(case: &Case) -> (usize, usize) {
    let enough = |words: usize| Lent::new(case, words, 0).parse() == DONE;
    let (mut below, mut above) = (0, LARGEST / 2);
    while above - below > 1 {
        let middle = (below + above) / 2;
        if enough(2 * middle) {
            above = middle;
        } else {
            below = middle;
        }
    }
    let mut lent = Lent::new(case, 2 * above, 0);
    assert_eq!(lent.parse(), DONE, "the case is done");
    assert_eq!(lent.resolve(), 10, "a step room of no bytes");
    (2 * above, lent.answer[0] as usize)
}

/// The step file of the crate's output, and how many of its steps are errors.
fn file(input: &Input) -> (Vec<u8>, usize) {
    let (mut file, mut errors) = (Vec::new(), 0);
    for step in TopEntryPoint::SourceFile.parse(input).iter() {
        let step = match step {
            oq3_plain::Step::Enter { kind } => Step::Enter(kind as u16),
            oq3_plain::Step::Exit => Step::Leave,
            oq3_plain::Step::Token { kind, n_input_tokens } => Step::Token(kind as u16, n_input_tokens),
            oq3_plain::Step::Error { msg } => {
                errors += 1;
                let (code, argument) = answer::message(msg);
                Step::Error(code, argument)
            }
            oq3_plain::Step::FloatSplit { .. } => unreachable!("no event makes this step"),
        };
        answer::write_step(&mut file, step);
    }
    (file, errors)
}

/// The port's steps of a case, and how many are errors. They must be the crate's, which does not say what was found.
fn agreed(case: &Case) -> (Vec<u8>, usize) {
    let (steps, errors) = file(&entries::input(&case.kinds, &case.joints));
    let mut lent = Lent::new(case, LARGEST, LONGEST);
    assert_eq!(lent.parse(), DONE, "the case is done");
    let words = Ev::WORDS * lent.answer[1] as usize;
    assert_eq!(port::check(&lent.room[..words], &mut [0]), DONE, "a list that passes");
    assert_eq!(lent.resolve(), DONE, "it is resolved");
    lent.steps.truncate(lent.answer[0] as usize);
    assert!(found::steps_without(&lent.steps) == steps, "the same steps");
    assert_eq!(found::wrong_step(&case.kinds, &lent.steps), None, "what was found");
    assert_eq!(port::read_file(&lent.steps, &mut lent.answer), DONE, "a good file");
    (lent.steps, errors)
}

/// Whether the port is done with a list, and how many errors its steps have.
fn tried(list: &[(u16, bool)]) -> Option<usize> {
    let case = Case::of(Entry::Source, list);
    let mut lent = Lent::new(&case, LARGEST, LONGEST);
    if lent.turn(true) != DONE {
        return None;
    }
    let mut file = &lent.steps[..lent.answer[0] as usize];
    let (mut errors, mut step) = (0, [0; 6]);
    while port::read_step(file, &mut step) == DONE && step[1] != 0 {
        errors += ERRORS.contains(&step[1]) as usize;
        file = &file[step[0] as usize..];
    }
    Some(errors)
}

/// A program of just so many tokens: statements of the generator, one after the other. Of a broken one, one statement in four is damaged,
/// and the whole is still done; of one that is not, each statement is done without errors.
fn program(size: usize, broken: bool, rng: &mut Rng) -> Case {
    let mut list: Vec<(u16, bool)> = Vec::new();
    while list.len() < size {
        let mut piece = generate::valid(Entry::Item, rng);
        if piece.len() > size - list.len() || tried(&piece) != Some(0) {
            continue;
        }
        if broken && rng.chance(1, 4) {
            piece = generate::damaged(piece, rng);
        }
        if piece.is_empty() || piece.len() > size - list.len() {
            continue;
        }
        let held = list.len();
        list.extend(&piece);
        if broken && tried(&list).is_none() {
            list.truncate(held);
        }
    }
    Case::of(Entry::Source, &list)
}

fn programs() {
    for (i, &size) in SIZES.iter().enumerate() {
        for broken in [false, true] {
            let mut rng = Rng::new(2 * i as u64 + broken as u64);
            let case = program(size, broken, &mut rng);
            let (_, errors) = agreed(&case);
            assert!(broken == (errors > 0), "errors in a broken program, and none in a valid one");
            println!("{}", case.line());
        }
    }
}

fn read(path: &str) -> Vec<Case> {
    let text = std::fs::read_to_string(path).expect("the programs");
    text.lines()
        .map(|line| {
            let parts: Vec<&str> = line.split(' ').collect();
            Case::read(parts[1], parts[2], parts[3]).expect("a line of a parse")
        })
        .collect()
}

/// The time of so many turns.
fn timed(turns: usize, mut turn: impl FnMut()) -> Duration {
    let begin = Instant::now();
    for _ in 0..turns {
        turn();
    }
    begin.elapsed()
}

/// One turn of the crate. What it has made is dropped in it.
fn crate_turn(input: &Input, both: bool) {
    if both {
        black_box(TopEntryPoint::SourceFile.parse(black_box(input)));
    } else {
        black_box(entries::parse(black_box(input)));
    }
}

/// How many times as long as the first side each other side takes: the median of many rounds. A round runs all of them, one after the other,
/// so what disturbs the machine for longer than a round disturbs them alike.
fn ratios(sides: &mut [&mut dyn FnMut()]) -> Vec<f64> {
    const ROUNDS: usize = 251;
    let batch = Duration::from_millis(2);
    let mut turns = vec![1usize; sides.len()];
    for (side, turns) in sides.iter_mut().zip(&mut turns) {
        while timed(*turns, &mut **side) < batch {
            *turns *= 2;
        }
    }
    let mut rounds: Vec<Vec<f64>> = vec![Vec::new(); sides.len() - 1];
    for _ in 0..ROUNDS {
        let times: Vec<f64> =
            sides.iter_mut().zip(&turns).map(|(side, &turns)| timed(turns, &mut **side).as_secs_f64() / turns as f64).collect();
        for (list, time) in rounds.iter_mut().zip(&times[1..]) {
            list.push(time / times[0]);
        }
    }
    rounds
        .into_iter()
        .map(|mut list| {
            list.sort_by(f64::total_cmp);
            list[ROUNDS / 2]
        })
        .collect()
}

fn time(path: &str) {
    for case in read(path) {
        let (_, errors) = agreed(&case);
        let input = entries::input(&case.kinds, &case.joints);
        let (words, bytes) = needed(&case);
        for both in [false, true] {
            let mut least = Lent::new(&case, words, bytes);
            let mut most = Lent::new(&case, LARGEST, LONGEST);
            let found = ratios(&mut [
                &mut || crate_turn(&input, both),
                &mut || assert_eq!(black_box(&mut least).turn(both), DONE),
                &mut || assert_eq!(black_box(&mut most).turn(both), DONE),
            ]);
            // tokens, errors, events, whether both, the two ratios
            println!(
                "{} {} {} {} {:.2} {:.2}",
                case.kinds.len(),
                errors,
                entries::parse(&input).events(),
                both,
                found[0],
                found[1]
            );
        }
    }
}

fn repeat(path: &str, number: usize, side: &str, count: usize) {
    let case = &read(path)[number];
    let (side, both) = side.strip_suffix("-both").map_or((side, false), |side| (side, true));
    let input = entries::input(&case.kinds, &case.joints);
    let (words, bytes) = if side == "largest" { (LARGEST, LONGEST) } else { needed(case) };
    let mut lent = Lent::new(case, words, bytes);
    match side {
        "crate" => (0..count).for_each(|_| crate_turn(&input, both)),
        "port" | "largest" => (0..count).for_each(|_| assert_eq!(black_box(&mut lent).turn(both), DONE)),
        _ => panic!("no side {side}"),
    }
}

fn steps(path: &str, number: usize) {
    let (file, _) = agreed(&read(path)[number]);
    std::io::stdout().write_all(&file).expect("the step file is written");
}

fn main() {
    let args: Vec<String> = std::env::args().skip(1).collect();
    let args: Vec<&str> = args.iter().map(String::as_str).collect();
    match args[..] {
        ["programs"] => programs(),
        ["time", path] => time(path),
        ["repeat", path, number, side, count] => repeat(path, number.parse().expect("a number"), side, count.parse().expect("a count")),
        ["steps", path, number] => steps(path, number.parse().expect("a number")),
        ["texts", folder] => lex::texts(folder),
        ["lex", folder] => std::process::exit(if lex::time(folder) { 0 } else { 1 }),
        ["lexing", folder, side, count] => lex::repeat(folder, side, count.parse().expect("a count")),
        _ => {
            eprintln!("bench: programs, time FILE, repeat FILE PROGRAM SIDE COUNT, steps FILE PROGRAM");
            eprintln!("bench: texts FOLDER, lex FOLDER, lexing FOLDER SIDE COUNT");
            std::process::exit(2);
        }
    }
}
