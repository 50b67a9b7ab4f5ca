//! What the programs of this folder share: cases and their lines, the readable forms, the generators, the lexical rules, what an error has found.

pub mod case;
pub mod found;
pub mod generate;
pub mod lists;
pub mod replay;
pub mod rng;
pub mod rules;
pub mod text;
pub mod texts;

use answer::{Bounds, End, Ev, Panic, LOOKUPS};
use case::Case;

/// The panic that a case ends in, with the lines of the grammar on the stack, innermost first: what the build that is not optimised says
/// of it. The step limit counts as one.
fn traced(case: &Case, lookups: usize) -> Panic {
    answer::trace(true);
    let run = oq3_named::entries::parse(case.entry, &case.kinds, &case.joints, Bounds { lookups, ..LOOKUPS });
    answer::trace(false);
    match run.end {
        End::Panic(panic) => panic,
        End::Lookups => answer::last_panic().expect("the step limit is a panic"),
        end => panic!("no panic but {end:?}"),
    }
}

/// The place of the panic that a case ends in, and the two innermost lines of the grammar.
pub fn site(case: &Case) -> String {
    let panic = traced(case, LOOKUPS.lookups);
    let from: Vec<&str> = panic.from.split(", ").take(2).collect();
    format!("{}:{} `{}` from {}", panic.file, panic.line, panic.said, from.join(", "))
}

/// The crate's functions that have a loop, but for `expr_bp`, whose loop consumes an operator in each round.
const LOOPS: [&str; 11] = [
    "_param_list_openqasm",
    "array_expr",
    "array_type_spec",
    "delimited",
    "expr_block_contents",
    "indexed_identifier",
    "modified_gate_call_expr",
    "postfix_expr",
    "source_file_contents",
    "switch_case_stmt",
    "tuple_expr",
];

/// The function whose loop spins where a case passes the bound of lookups: the innermost one of `LOOPS` that is on the stack at each of
/// the last lookups.
pub fn spinning(case: &Case) -> String {
    let stack = |lookups| -> Vec<String> {
        let panic = traced(case, lookups);
        panic.from.rsplit(", ").map(|line| line.rsplit(' ').next().unwrap_or("").to_string()).collect()
    };
    let mut common = stack(LOOKUPS.lookups);
    for back in 1..=40 {
        let other = stack(LOOKUPS.lookups - back);
        let same = common.iter().zip(&other).take_while(|(a, b)| a == b).count();
        common.truncate(same);
    }
    common.retain(|name| LOOPS.contains(&name.as_str()));
    common.pop().unwrap_or_default()
}

/// What a spinning loop says over and over: the error codes among the last events, with their arguments.
pub fn spins(words: &[u32]) -> Vec<(u16, u16)> {
    let mut codes: Vec<(u16, u16)> = words
        .chunks(2)
        .rev()
        .take(24)
        .filter_map(|w| if let Some(Ev::Error(code, argument, _)) = Ev::of(w[0], w[1]) { Some((code, argument)) } else { None })
        .collect();
    codes.sort();
    codes.dedup();
    codes
}
