//! The recorded sample: cases and the oracle's answers, made anew by `oracle record`.

use answer::ENTRIES;
use differential::case::{numbers, Case};
use differential::rng::Rng;
use differential::{generate, lists, text};
use std::collections::HashSet;
use std::path::Path;

/// Cases that are worth having by name: the small runs of docs/RULES.md, the panics, operators, a program.
pub const NAMED: [(&str, &str); 38] = [
    ("item", "break ;"),
    ("item", ""),
    ("item", "}"),
    ("item", "reset ;"),
    ("source", ""),
    ("expr", ""),
    ("expr", "a & b == c"),
    ("expr", "a == b < c"),
    ("expr", "a < b == c"),
    ("expr", "a == b == c"),
    ("expr", "a >= b != c"),
    ("expr", "x + y = 3"),
    ("expr", "a = b + c"),
    ("expr", "a >>= b >> c >= d > e"),
    ("expr", "a > > b"),
    ("expr", "a ... b ..= c .. d"),
    ("expr", "a => b"),
    ("expr", "~a"),
    ("expr", "100 ns"),
    ("expr", "\"x\" ns [ 1 ]"),
    ("expr", "a [ 0 : 2 : 8 , { 1 , 2 } ] [ 3 ]"),
    ("item", "delay"),
    ("item", "for {"),
    ("expr", "a [ {"),
    ("item", "array"),
    ("item", "array )"),
    ("item", "array }"),
    ("expr", "array ["),
    ("item", "def f ( 3"),
    ("item", "defcal f ( $0"),
    ("item", "for int i in { 1 , 2 ] ; x q ;"),
    ("item", "def f(int[32] a, array[complex[float[64]], 2, 3] b) -> bit[2] { return a; }"),
    ("item", "if (a) { } else if (b) { } else { }"),
    ("item", "switch (a) { case 1, 2 { x q; } default { } }"),
    ("item", "inv @ pow(2) @ ctrl(3) @ negctrl @ g(a, b) q[0], $1;"),
    ("source", "OPENQASM 3.0; include \"x\"; qubit[2] q; bit[2] c; h q[0]; cx q[0], q[1]; c = measure q;"),
    ("source", "gate g(a) q { U(a, 0, 0) q; } for int i in [0:2] g(i) q[i]; let r = q[0:1] ++ q[2];"),
    ("source", "PRAGMA ANNOTATION const int a = 3; input angle b; a += 1; while (a < 3) { a = a + 1; continue; } end;"),
];

/// The cases of `parse.in`: none twice, and none of more tokens than keep the files small.
pub fn cases() -> Vec<Case> {
    let mut list = Vec::new();
    let mut seen = HashSet::new();
    let mut add = |case: Case| {
        if case.kinds.len() <= 200 && seen.insert(case.clone()) {
            list.push(case);
            return true;
        }
        false
    };
    for (entry, said) in NAMED {
        add(Case::of(answer::Entry::of(entry).unwrap(), &text::tokens(said).unwrap()));
    }
    // every kind alone, for each entry
    for entry in ENTRIES {
        for &kind in answer::permitted() {
            add(Case::new(entry, vec![kind], vec![0]));
        }
    }
    // nests
    for number in 0..generate::nests() {
        for deep in [2, 5, 16] {
            let entry = ENTRIES[(number + deep) % 3];
            add(Case::of(entry, &generate::nest(number, deep, deep == 5)));
        }
    }
    add(Case::of(answer::Entry::Expr, &generate::nest(0, 63, false)));
    add(Case::of(answer::Entry::Expr, &generate::nest(0, 64, false)));
    let mut rng = Rng::new(2);
    let mut left = 1500;
    while left > 0 {
        let case = generate::any(&mut rng);
        if (2..=15).contains(&case.kinds.len()) && add(case) {
            left -= 1;
        }
    }
    list
}

/// The lines of `process.in`.
fn event_lists() -> Vec<String> {
    let mut rng = Rng::new(3);
    let mut lines = vec![
        "process -".to_string(),
        "process 65536,0".to_string(),
        "process 65576,2,65577,1,65578,0,131072,0,131072,0,131072,0".to_string(),
        "process 65536,1,65576,3,196658,1,131072,0,65577,0,196659,1,65536,1,65576,0,196658,1,131072,0,131072,0".to_string(),
    ];
    while lines.len() < 600 {
        let words = lists::any(&mut rng, oq3_parser::entries::LAST);
        if words.len() <= 60 {
            lines.push(format!("process {}", numbers(&words)));
        }
    }
    lines
}

/// One number for the answers to many more cases than the files hold (FNV-1a over their lines): every list of at most two tokens, random
/// cases, random event lists.
fn digest(answer: &impl Fn(&str) -> String) -> String {
    let (mut hash, mut count) = (0xcbf2_9ce4_8422_2325u64, 0u64);
    let mut add = |line: String| {
        for byte in answer(&line).bytes().chain([b'\n']) {
            hash = (hash ^ byte as u64).wrapping_mul(0x100_0000_01b3);
        }
        count += 1;
    };
    for length in 0..=2 {
        generate::short(answer::permitted(), length, |kinds, joints| {
            for entry in ENTRIES {
                add(Case::new(entry, kinds.to_vec(), vec![joints]).line());
            }
        });
    }
    let mut rng = Rng::new(4);
    for _ in 0..20_000 {
        add(generate::any(&mut rng).line());
    }
    for _ in 0..5_000 {
        add(format!("process {}", numbers(&lists::any(&mut rng, oq3_parser::entries::LAST))));
    }
    format!("{count} answers, {hash:016x}")
}

/// Writes the files into a folder.
pub fn run(folder: &Path, answer: impl Fn(&str) -> String) -> bool {
    let mut files = vec![("digest.txt".to_string(), vec![digest(&answer)])];
    let parses = cases().iter().map(Case::line).collect();
    for (name, lines) in [("parse", parses), ("process", event_lists())] {
        println!("differential: {} recorded answers in {name}.out", lines.len());
        files.push((format!("{name}.out"), lines.iter().map(|line| answer(line)).collect()));
        files.push((format!("{name}.in"), lines));
    }
    write(folder, files)
}

/// Writes files of lines.
pub fn write(folder: &Path, files: Vec<(String, Vec<String>)>) -> bool {
    for (name, lines) in files {
        if let Err(error) = std::fs::write(folder.join(&name), lines.join("\n") + "\n") {
            eprintln!("oracle: {name}: {error}");
            return false;
        }
    }
    true
}
