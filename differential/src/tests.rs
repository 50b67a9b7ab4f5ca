//! The oracle's tests: it answers what docs/RULES.md says, and the stand-ins do what the crates do that they stand for.

use answer::{kinds, permitted, read_steps, Bounds, End, Entry, Ev, Run, Step, CRATE, LOOKUPS};
use differential::case::Case;
use differential::rng::Rng;
use differential::text::{kind, names, tokens, tree};
use differential::{found, generate, lists, replay, texts};
use std::panic::{catch_unwind, AssertUnwindSafe};

use Entry::{Expr, Item, Source};

/// Runs every test; true where all pass.
pub fn run() -> bool {
    let tests: &[(&str, fn())] = &[
        ("the stand-in for limit", limit_stands_in),
        ("the stand-in for drop_bomb", drop_bomb_stands_in),
        ("the lists in docs", lists_are_the_crates),
        ("P1 and P2", p1_p2),
        ("P3 and P4", p3_p4),
        ("P5", p5),
        ("P6", p6),
        ("P8, P10 and P11", p8_p10_p11),
        ("the list check, P7 and P9", list_check),
        ("what was found", what_was_found),
        ("what was found in a list", found_in_a_list),
        ("the listing", listing),
        ("minus signs", minus_signs),
        ("nests", depths),
        ("operators", operators),
        ("powers", powers),
        ("glued operators", glued),
        ("the crate's public call", public_call),
        ("panics", panics),
        ("rooms where a loop spins", spinning_rooms),
        ("the port's 10,000 lookups", port_limit),
        ("the crate's 15,000,000 lookups", crate_limit),
        ("lists that process cannot take", bad_lists),
        ("seeds", seeds),
        ("the second lexer's kinds, words and marks", lexed_kinds),
        ("the lexical cases", lexed_cases),
        ("the samples' tokens", lexed_samples),
        ("programs that are written and read", lexed_programs),
        ("long texts", lexed_long),
    ];
    let mut failed = 0;
    for (name, test) in tests {
        if catch_unwind(AssertUnwindSafe(test)).is_err() {
            println!("differential: the test of {name} failed");
            failed += 1;
        }
    }
    println!("differential: {} tests passed, {failed} failed", tests.len() - failed);
    failed == 0
}

fn case(entry: Entry, text: &str) -> Case {
    Case::of(entry, &tokens(text).expect("tokens"))
}

fn plain(case: &Case, bounds: Bounds) -> Run {
    oq3_parser::entries::parse(case.entry, &case.kinds, &case.joints, bounds)
}

fn watched(case: &Case, room: usize) -> Run {
    oq3_watched::entries::parse(case.entry, &case.kinds, &case.joints, Bounds { room, depth: 64, ..LOOKUPS })
}

fn mode1(case: &Case) -> Run {
    oq3_mode1::entries::parse(case.entry, &case.kinds, &case.joints, LOOKUPS)
}

/// How deep each nest may be, in the order of the generator, as a source file.
const DEPTHS: [usize; 34] = [
    62, 62, 62, 62, 62, 62, 62, 32, 31, 62, 62, 62, 62, 31, 31, 31, 20, 31, 32, 32, 32, 31, 64, 64, 62, 62, 63, 65, 62, 31, 63, 32, 63, 62,
];

fn depths() {
    for (number, &deep) in DEPTHS.iter().enumerate() {
        let run = |deep, cut| watched(&Case::of(Source, &generate::nest(number, deep, cut)), usize::MAX);
        for cut in [false, true] {
            let (within, beyond) = (run(deep, cut), run(deep + 1, cut));
            assert!(within.end != End::Depth, "nest {number} of {deep}");
            assert_eq!((beyond.end, beyond.deepest), (End::Depth, 64), "nest {number} of {}", deep + 1);
        }
    }
    assert_eq!(generate::nests(), DEPTHS.len());
}

fn run_of(entry: Entry, text: &str) -> Run {
    plain(&case(entry, text), LOOKUPS)
}

fn tree_of(run: &Run) -> String {
    assert_eq!(run.end, End::Done);
    tree(&read_steps(&run.steps))
}

fn words(events: &[Ev]) -> Vec<u32> {
    events.iter().flat_map(|e| e.words()).collect()
}

fn limit_stands_in() {
    limit::begin(limit::CRATE);
    let bound = limit::Limit::new(5);
    assert!(bound.check(5).is_ok() && bound.check(6).is_err());
    limit::begin(3);
    assert!(bound.check(3).is_ok() && !limit::stuck() && bound.check(4).is_err() && limit::stuck());
    assert_eq!((limit::lookups(), limit::most()), (1, 4));
}

fn drop_bomb_stands_in() {
    let dropped = answer::caught(|| drop(drop_bomb::DropBomb::new("dropped")));
    assert_eq!(dropped.unwrap_err().1.unwrap().said, "dropped");
    let defused = answer::caught(|| drop_bomb::DropBomb::new("dropped").defuse());
    assert!(defused.is_ok());
    // a bomb that is dropped while its thread panics keeps quiet: a second panic would end the program
    let unwound = answer::caught(|| {
        let _bomb = drop_bomb::DropBomb::new("dropped");
        panic!("first")
    });
    assert_eq!(unwound.unwrap_err().1.unwrap().said, "first");
}

fn lists_are_the_crates() {
    assert_eq!(kinds().len(), oq3_parser::entries::LAST as usize + 1);
    for (number, kind) in kinds().iter().enumerate() {
        assert_eq!(kind.name, oq3_parser::entries::kind_name(number as u16));
    }
    assert_eq!(permitted().len(), 92);
    let rows = answer::messages();
    assert!(rows.iter().map(|r| r.0).eq(2..=37));
    for (code, text) in rows {
        assert_eq!(answer::message(&text), (code, 0));
    }
}

fn p1_p2() {
    let case = case(Item, "break ;");
    let run = plain(&case, LOOKUPS);
    let list = [Ev::Start(kind("BREAK_STMT"), 0), Ev::Token(kind("BREAK_KW"), 1), Ev::Token(kind("SEMICOLON"), 1), Ev::Finish];
    assert_eq!((&run.end, run.tokens, run.events, run.lookups), (&End::Done, 2, 4, 3));
    assert_eq!(run.words, words(&list));
    assert_eq!(watched(&case, 4).end, End::Done);
    let full = watched(&case, 3);
    assert_eq!((full.end, full.tokens), (End::Room, 2));
}

fn p3_p4() {
    let case = case(Item, "");
    let run = plain(&case, LOOKUPS);
    assert_eq!((&run.end, run.tokens, run.events, run.lookups), (&End::Done, 0, 0, 4));
    let run = watched(&case, 1);
    assert_eq!((&run.end, run.peak), (&End::Done, 1));
    let full = watched(&case, 0);
    assert_eq!((full.end, full.tokens), (End::Room, 0));
}

fn p5() {
    let run = run_of(Item, "}");
    assert_eq!(tree_of(&run), "(ERROR !32 R_CURLY)");
    assert_eq!(run.lookups, 4);
}

fn p6() {
    let run = run_of(Item, "reset ;");
    assert_eq!(tree_of(&run), "RESET_KW !34 (ERROR !31 SEMICOLON)");
    assert_eq!((run.events, run.lookups), (7, 7));
}

fn resolved(events: &[Ev]) -> Vec<Step> {
    let file = oq3_parser::entries::process(&words(events)).expect("events").expect("no panic");
    read_steps(&file)
}

fn p8_p10_p11() {
    assert_eq!(resolved(&[Ev::Start(0, 0)]), []);
    assert_eq!(resolved(&[]), []);
    let list = [Ev::Start(40, 2), Ev::Start(41, 1), Ev::Start(42, 0), Ev::Finish, Ev::Finish, Ev::Finish];
    let steps = [Step::Enter(42), Step::Enter(40), Step::Enter(41), Step::Leave, Step::Leave, Step::Leave];
    assert_eq!(resolved(&list), steps);
}

/// The list check, which is written from the rules and is not the crate's: P7, P9, lists of an odd number of words, and long ones.
fn list_check() {
    assert_eq!(lists::check(&words(&[Ev::Finish])), Err((9, 0)));
    assert_eq!(lists::check(&words(&[Ev::Start(40, 0)])), Err((9, 1)));
    assert_eq!(lists::check(&[65_536, 0, 65_536]), Err((9, 1)));
    assert_eq!(lists::check(&words(&vec![Ev::Start(0, 0); 65_537])), Err((2, 0)));
    // the longest chains: all of it tombstones, or half of it starts with a kind
    for (kind, starts, steps) in [(0, 65_536, 0), (40, 32_768, 65_536)] {
        let list = lists::chain(kind, starts);
        assert_eq!(lists::check(&words(&list)), Ok(65_536));
        assert_eq!(resolved(&list).len(), steps);
    }
}

/// What the port must answer to a line.
fn said(line: &str) -> String {
    replay::answer(line).expect("a line")
}

/// The crate's answer is without what was found; the port's has it in the second word of code 1, and in record kind 5.
fn what_was_found() {
    // the end of the tokens
    let case = case(Item, "break");
    let run = plain(&case, LOOKUPS);
    assert_eq!((run.tokens, run.events, run.lookups), (1, 4, 3));
    assert_eq!(&run.words[4..6], [262_145, 3]);
    let list = found::with(&case.kinds, &run.words);
    assert_eq!(&list[4..6], [262_145, 65_539]);
    let file = lists::steps(&list);
    assert_eq!((file.len(), run.steps.len()), (27, 25));
    assert_eq!(&file[13..23], [6, 0, 5, 0, 1, 0, 3, 0, 1, 0]);
    assert_eq!(tree(&read_steps(&file)), "(BREAK_STMT BREAK_KW !1:SEMICOLON:EOF)");
    assert_eq!(tree_of(&run), "(BREAK_STMT BREAK_KW !1:SEMICOLON)");
    // where a comma is expected; the first token of a glued one; what stands behind a glued one
    for (entry, text, errors) in [
        (Expr, "f(1 2)", &[("COMMA", "INT_NUMBER")][..]),
        (Item, "break == a", &[("SEMICOLON", "EQ")]),
        (Item, "a = = b ;", &[("SEMICOLON", "IDENT")]),
        (Expr, "( a >>= b ]", &[("COMMA", "R_BRACK"), ("R_PAREN", "R_BRACK")]),
        (Expr, "f(a == 1 2", &[("COMMA", "INT_NUMBER"), ("R_PAREN", "EOF")]),
    ] {
        let case = self::case(entry, text);
        let run = plain(&case, LOOKUPS);
        let list = found::with(&case.kinds, &run.words);
        let seconds: Vec<u32> = list.chunks(2).filter(|pair| pair[0] == 262_145).map(|pair| pair[1]).collect();
        let second = |&(expected, found): &(&str, &str)| kind(expected) as u32 + 65_536 * kind(found) as u32;
        assert_eq!(seconds, errors.iter().map(second).collect::<Vec<_>>(), "{text}");
        assert!(text != "f(1 2)" || seconds == [6_488_068]);
        assert_eq!((found::without(&list), found::wrong(&case.kinds, &list)), (run.words, None), "{text}");
        assert_eq!(found::steps_without(&lists::steps(&list)), run.steps, "{text}");
    }
    assert_eq!(said("parse item 0 8 79 0"), "0 1 4 3 list 65680,0,196687,1,262145,65539,131072,0");
    // what is wrong is told: a kind found of its own, and in a step file record kind 4 or another kind found
    let other = Ev::Error(1, 3, 2);
    assert_eq!(found::wrong(&case.kinds, &words(&[Ev::Token(case.kinds[0], 1), other])), Some((1, 2, 1)));
    assert_eq!(found::wrong_step(&case.kinds, &run.steps), Some((2, None, 1)));
    assert_eq!(found::wrong_step(&case.kinds, &lists::steps(&words(&[other]))), Some((0, Some(2), case.kinds[0])));
}

/// In a list that is handed in code 1 may have found anything, and other codes nothing; it is carried to the steps.
fn found_in_a_list() {
    for second in [0, 65_535, 65_536, 6_488_068, u32::MAX] {
        let list = [262_145, second, 262_151, 300, 262_145, !second];
        assert_eq!(lists::check(&list), Ok(3));
        let file = replay::process(&list).expect("events").expect("no panic");
        let half = |word: u32| [word as u16, (word >> 16) as u16];
        let [[a, b], [c, d]] = [half(second), half(!second)];
        assert_eq!(read_steps(&file), [Step::Expected(a, b), Step::Error(7, 300), Step::Expected(c, d)]);
        assert_eq!((file.len(), &file), (28, &lists::steps(&list)));
        // the crate itself is not asked with a kind found
        assert_eq!(oq3_parser::entries::process(&list), None);
    }
    for code in [0, 2, 3, 257, 65_535] {
        assert_eq!(lists::check(&[262_144 + code, 65_535]), Ok(1));
        assert_eq!(lists::check(&[262_144 + code, 65_536]), Err((9, 0)));
    }
    assert_eq!(said("resolve 10 262145,65536"), "0 10 06000500010000000100 bare");
    assert_eq!(said("resolve 9 262145,65536"), "10 10 - same");
    assert_eq!(said("resolve 10 262146,65536"), "9 0 - same");
}

fn listing() {
    use Ev::*;
    let list = [
        Start(0, 1),
        Start(40, 3),
        Token(50, 1),
        Finish,
        Start(41, 0),
        Token(51, 1),
        Start(0, 1),
        Start(40, 0),
        Token(50, 1),
        Finish,
        Finish,
    ];
    let steps = [
        Step::Enter(41),
        Step::Enter(40),
        Step::Token(50, 1),
        Step::Leave,
        Step::Token(51, 1),
        Step::Enter(40),
        Step::Token(50, 1),
        Step::Leave,
        Step::Leave,
    ];
    assert_eq!(resolved(&list), steps);
    let file = oq3_parser::entries::process(&words(&list)).unwrap().unwrap();
    assert_eq!(file.len(), 51);
}

fn minus_signs() {
    let with = |n: usize| case(Expr, &format!("{}a", "- ".repeat(n)));
    // the crate has no depth limit: 63 and 64 are done, and so are 8,191
    for n in [63, 64, 8191] {
        let run = plain(&with(n), CRATE);
        assert_eq!((run.end, run.tokens), (End::Done, n + 1));
    }
    let last = watched(&with(63), usize::MAX);
    assert_eq!((last.end, last.tokens, last.deepest), (End::Done, 64, 64));
    let over = watched(&with(64), usize::MAX);
    assert_eq!((over.end, over.tokens), (End::Depth, 64));
}

const A: &str = "(IDENTIFIER IDENT)";

fn operators() {
    let left = |first: &str, second: &str| format!("(BIN_EXPR (BIN_EXPR {A} {first} {A}) {second} {A})");
    let right = |first: &str, second: &str| format!("(BIN_EXPR {A} {first} (BIN_EXPR {A} {second} {A}))");
    for (text, in0, in1) in [
        ("a & b == c", left("AMP", "EQ2/2"), right("AMP", "EQ2/2")),
        ("a == b < c", left("EQ2/2", "L_ANGLE"), right("EQ2/2", "L_ANGLE")),
        ("a < b == c", left("L_ANGLE", "EQ2/2"), left("L_ANGLE", "EQ2/2")),
        ("a == b == c", left("EQ2/2", "EQ2/2"), left("EQ2/2", "EQ2/2")),
    ] {
        let case = case(Expr, text);
        assert_eq!([tree_of(&plain(&case, LOOKUPS)), tree_of(&mode1(&case))], [in0, in1], "{text}");
    }
    let equal = mode1(&case(Expr, "a == b < c"));
    assert_eq!((equal.tokens, equal.events, equal.lookups), (6, 18, 26));
    let sum = run_of(Expr, "x + y = 3");
    assert_eq!(tree_of(&sum), format!("(BIN_EXPR {A} PLUS (ASSIGNMENT_STMT {A} EQ (LITERAL INT_NUMBER) !22))"));
    let set = run_of(Expr, "a = b + c");
    assert_eq!(tree_of(&set), format!("(BIN_EXPR (ASSIGNMENT_STMT {A} EQ {A} !22) PLUS {A})"));
}

/// The operators with their powers in mode 0 and mode 1, and whether they group to the right.
const POWERS: [(&str, u8, u8, bool); 32] = [
    ("=", 12, 20, true),
    ("+=", 1, 1, true),
    ("-=", 1, 1, true),
    ("*=", 1, 1, true),
    ("/=", 1, 1, true),
    ("%=", 1, 1, true),
    ("&=", 1, 1, true),
    ("|=", 1, 1, true),
    ("^=", 1, 1, true),
    ("<<=", 1, 1, true),
    (">>=", 1, 1, true),
    ("++", 2, 2, false),
    ("..", 2, 2, false),
    ("..=", 2, 2, false),
    ("||", 3, 3, false),
    ("&&", 4, 4, false),
    ("==", 5, 11, false),
    ("!=", 5, 11, false),
    ("<", 5, 12, false),
    (">", 5, 12, false),
    ("<=", 5, 12, false),
    (">=", 5, 12, false),
    ("|", 6, 6, false),
    ("^", 7, 8, false),
    ("&", 8, 10, false),
    ("<<", 9, 14, false),
    (">>", 9, 14, false),
    ("+", 10, 16, false),
    ("-", 10, 16, false),
    ("*", 11, 18, false),
    ("/", 11, 18, false),
    ("%", 11, 18, false),
];

/// `a first b second c` groups as the powers say, for every two operators, in both modes.
fn powers() {
    assert_eq!(POWERS.map(|(name, ..)| name), generate::OPERATORS);
    for (first, first0, first1, right) in POWERS {
        for (second, second0, second1, _) in POWERS {
            let case = case(Expr, &format!("a {first} b {second} c"));
            for (run, left, next) in [(plain(&case, LOOKUPS), first0, second0), (mode1(&case), first1, second1)] {
                let tree = tree_of(&run);
                let opened = tree.split("(IDENTIFIER").next().unwrap().matches('(').count();
                let inner = next >= if right { left } else { left + 1 };
                assert_eq!(opened, if inner { 1 } else { 2 }, "{first} {second}: {tree}");
            }
        }
    }
}

fn glued() {
    // `> >` is one operator only with its joint bit, and `..` is read where `...` stands
    assert_eq!(tree_of(&run_of(Expr, "a >> b")), format!("(BIN_EXPR {A} SHR/2 {A})"));
    assert_eq!(tree_of(&run_of(Expr, "a > > b")), format!("(BIN_EXPR {A} R_ANGLE (ERROR !21 R_ANGLE))"));
    assert_eq!(tree_of(&run_of(Expr, "a ... b")), format!("(BIN_EXPR {A} DOT2/2 (ERROR !11 DOT))"));
    assert_eq!(tree_of(&run_of(Expr, "a >>= b")), format!("(BIN_EXPR {A} SHREQ/3 {A})"));
}

fn public_call() {
    let programs = [
        "",
        "OPENQASM 3.0; include \"stdgates.inc\"; qubit[2] q; h q[0]; cx q[0], q[1]; bit[2] c = measure q;",
        "def f(int[32] a) -> bit { if (a == 3) { return 1; } else if (a) { } } for int i in [0:2:8] { x $0; }",
        "} ; reset ; 3 + ; let a = b ++ c;",
    ];
    for text in programs {
        let case = case(Source, text);
        let run = plain(&case, LOOKUPS);
        assert_eq!(run.end, End::Done);
        assert_eq!(run.steps, oq3_parser::entries::parse_public(&case.kinds, &case.joints));
    }
}

const PANICS_PAGE: &str = include_str!(concat!(env!("GRISOLEMP"), "/docs/PANICS.md"));

/// Each row of smallest inputs in docs/PANICS.md: the oracle ends at that site, and the port must answer so.
fn panics() {
    let set = "src/parser.rs:188 `assertion failed: self.eat(kind)` from src/grammar/expressions.rs:518 set_expression";
    let mut rows = 0;
    for line in PANICS_PAGE.lines() {
        let cells: Vec<&str> = line.split('|').map(str::trim).collect();
        let ["", name, entry, text, code, place, ""] = cells[..] else { continue };
        let Some(entry) = Entry::of(entry) else { continue };
        rows += 1;
        let case = case(entry, text.trim_matches('`'));
        let run = plain(&case, LOOKUPS);
        match name {
            "A" => assert_eq!(
                differential::site(&case),
                "src/grammar/expressions.rs:459 `assertion failed: p.at(T!['['])` from src/grammar/expressions.rs:459 designator, \
                 src/grammar/items.rs:419 delay_stmt"
            ),
            "B" => assert_eq!(differential::site(&case), format!("{set}, src/grammar/items.rs:173 for_stmt")),
            "C" => assert_eq!(differential::site(&case), format!("{set}, src/grammar/expressions.rs:527 index_operator")),
            "D" => assert_eq!((run.end, differential::spinning(&case).as_str()), (End::Lookups, "array_type_spec")),
            "E" => assert_eq!((run.end, differential::spinning(&case).as_str()), (End::Lookups, "_param_list_openqasm")),
            _ => panic!("no site {name}"),
        }
        assert_eq!(run.tokens.to_string(), place, "{line}");
        let said = replay::parse(&case, 0, 131_072);
        assert_eq!((said.code.to_string().as_str(), said.place.to_string().as_str()), (code, place), "{line}");
    }
    assert_eq!(rows, 17);
}

/// The rooms of docs/PANICS.md from which on a spinning loop is refused with 7, and with 5 below.
fn spinning_rooms() {
    for (text, room) in [("array", 10_006), ("array )", 7_508), ("array }", 10_007), ("def f ( 3", 22_508)] {
        let case = case(Item, text);
        assert_eq!((replay::parse(&case, 0, Ev::WORDS * room).code, replay::parse(&case, 0, Ev::WORDS * room - 1).code), (7, 5), "{text}");
    }
}

fn port_limit() {
    // the 10,001st lookup since a token is the first that is not made
    for (text, consumed, looping) in [
        ("array", 1, "array_type_spec"),
        ("array )", 1, "array_type_spec"),
        ("array }", 1, "array_type_spec"),
        ("def f ( 3", 3, "_param_list_openqasm"),
    ] {
        let case = case(Item, text);
        let run = plain(&case, LOOKUPS);
        assert_eq!((&run.end, run.tokens, run.most), (&End::Lookups, consumed, 10_000), "{text}");
        assert_eq!(differential::spinning(&case), looping);
    }
}

fn crate_limit() {
    let run = plain(&case(Item, "array )"), CRATE);
    let End::Panic(panic) = run.end else { panic!("no panic") };
    assert_eq!((panic.file.as_str(), panic.line, panic.said.as_str()), ("src/parser.rs", 75, "the parser seems stuck"));
    // the check fails for more than 15,000,000, so one lookup more is made
    assert_eq!(run.most, 15_000_001);
}

fn bad_lists() {
    let said = |list: &[Ev]| oq3_parser::entries::process(&words(list)).unwrap().unwrap_err();
    let past = said(&[Ev::Start(40, 2), Ev::Finish]);
    assert_eq!((past.file.as_str(), past.line), ("src/event.rs", 118));
    let token = said(&[Ev::Start(40, 1), Ev::Token(50, 1), Ev::Finish]);
    assert_eq!((token.file.as_str(), token.line), ("src/event.rs", 126));
}

/// Seeds that lie next to each other have no case in common.
fn seeds() {
    let cases = |seed| (0..10_000).map(move |case| Rng::of(seed, case).next());
    let all: std::collections::HashSet<u64> = (1..=3).flat_map(cases).collect();
    assert_eq!(all.len(), 30_000);
}

/// The second lexer's kinds are those of docs/KINDS.md that a text can have, and its words and marks those of the crate's tables.
fn lexed_kinds() {
    use oq3_parser::SyntaxKind;
    let never = ["CHAR", "BYTE", "PRAGMA_KW"].map(kind);
    let trivia = ["WHITESPACE", "COMMENT"].map(kind);
    let can = |&n: &u16| (kinds()[n as usize].permitted && !never.contains(&n)) || trivia.contains(&n);
    let all: Vec<(&str, u16)> = (0..kinds().len() as u16).filter(can).map(|n| (kinds()[n as usize].name, n)).collect();
    assert_eq!(lexer::KINDS, all);
    let first = |text: &[u8]| lexer::lex(text)[0];
    for byte in 0..=255 {
        if let Some(mark) = SyntaxKind::from_char(byte as char) {
            assert_eq!(first(&[byte]), (mark as u16, 1));
        }
    }
    let words = differential::rules::Rules::words();
    assert_eq!(words.len(), 53);
    for word in words {
        let table = SyntaxKind::from_keyword(word).or(SyntaxKind::from_scalar_type(word)).expect("a word");
        let must = if word == "pragma" { kind("PRAGMA") } else { table as u16 };
        assert_eq!(first(word.as_bytes()), (must, word.len()));
        assert_eq!(first(format!("{word}_").as_bytes()), (kind("IDENT"), word.len() + 1));
        assert_eq!(first(format!("{word};").as_bytes()).0, must);
    }
}

fn lexed_cases() {
    for &(text, all, must) in texts::NAMED {
        let said = lexer::said(text);
        assert_eq!((said.all(), names(&said.kinds, |i| said.joint[i]).as_str()), (all, must), "{:?}", String::from_utf8_lossy(text));
    }
}

/// The text of each sample has the tokens of its token text.
fn lexed_samples() {
    let samples = texts::samples();
    assert!(samples.iter().any(|sample| sample.tokens.is_some()));
    for sample in samples {
        let said = lexer::said(&sample.text);
        let differs = sample.tokens.and_then(|must| texts::sample_differs(&must, &said.kinds, |i| said.joint[i]));
        assert_eq!(differs, None, "{}", sample.name);
    }
}

/// Kinds that are written as text are read again.
fn lexed_programs() {
    for seed in 0..2_000 {
        let mut rng = Rng::new(seed);
        let list = generate::valid(Source, &mut rng);
        let text = texts::written(&list, 2, &mut rng);
        let must: Vec<u16> = list.iter().map(|token| token.0).collect();
        let said = lexer::said(&text);
        assert_eq!(said.kinds, must, "{:?}", String::from_utf8_lossy(&text));
        // what is glued touches; no comment may come of two marks
        let mark = |i: usize| kinds()[must[i] as usize].why.starts_with("the character");
        for i in (1..must.len()).filter(|&i| mark(i - 1) && mark(i) && must[i - 1] != lexer::SLASH) {
            assert_eq!(said.joint[i - 1], list[i - 1].1, "{:?}", String::from_utf8_lossy(&text));
        }
    }
}

/// The longest texts are read at once, whatever they repeat, and the whole call of the second lexer says and leaves what it must.
fn lexed_long() {
    for text in texts::long(lexer::MOST, &mut Rng::new(1)) {
        let begin = std::time::Instant::now();
        let said = lexer::said(&text);
        assert!(begin.elapsed().as_millis() < 500, "{:?}", String::from_utf8_lossy(&text[..20]));
        let (mut kinds, mut joints, mut tokens) =
            (vec![7; said.kinds.len()], vec![u64::MAX; said.kinds.len() / 64 + 1], vec![7; 2 * text.len()]);
        assert_eq!(lexer::call(&text, &mut kinds, &mut joints, &mut tokens, &mut [0; 2]), 0);
        assert!(kinds == said.kinds && joints[..said.kinds.len().div_ceil(64)] == said.joints(u64::MAX));
        assert!(tokens[..said.tokens.len()] == said.tokens && tokens[said.tokens.len()..].iter().all(|&word| word == 7));
    }
}
