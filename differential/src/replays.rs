//! The recorded cases of the port's program `replay`: its lines, and what it must print for each. The same on every machine.

use crate::record::{cases, write, NAMED};
use answer::{kinds, permitted, Entry, Ev, ENTRIES, EXPECTED, FAULT};
use differential::case::{hexes, numbers, Case};
use differential::replay::{self, LARGEST};
use differential::rng::Rng;
use differential::{generate, lists, text};
use oq3_parser::entries::LAST;
use std::collections::HashSet;
use std::path::Path;

/// The most words of a room that the program holds, and the most tokens.
const ROOM: usize = 131_080;
const TOKENS: usize = 8_256;

/// Writes `stdin` and `stdout`.
pub fn run(folder: &Path) -> bool {
    let lines = lines();
    let answers: Vec<String> = lines.iter().map(|line| answer(line)).collect();
    let times = |said: &str| answers.iter().filter(|answer| answer.split(' ').next() == Some(said)).count();
    let numbers: Vec<usize> = (0..=10).map(|number| times(&number.to_string())).collect();
    let said: Vec<String> = numbers.iter().enumerate().map(|(number, times)| format!("{number} {times}")).collect();
    println!("differential: {} recorded lines of replay, {} bad; numbers said: {}", lines.len(), times("bad"), said.join(", "));
    if numbers.contains(&0) {
        println!("differential: the recorded lines miss a number");
        return false;
    }
    write(folder, vec![("stdin".to_string(), lines), ("stdout".to_string(), answers)])
}

/// What the program must print for a line.
fn answer(line: &str) -> String {
    replay::answer(line).unwrap_or_else(|| "bad line".to_string())
}

/// Lines, none twice, and the cases that are parsed in mode 0 in a room that suffices.
#[derive(Default)]
struct Lines {
    list: Vec<String>,
    seen: HashSet<String>,
    whole: HashSet<Case>,
}

impl Lines {
    fn add(&mut self, line: String) {
        if self.seen.insert(line.clone()) {
            self.list.push(line);
        }
    }

    /// A parse. In mode 0 its answer is held to the crate that is not watched.
    fn parse(&mut self, case: &Case, mode: u32, room: usize) {
        assert!(mode != 0 || replay::agrees(case, room), "the crate and what the port must say differ: {}", case.line());
        if mode == 0 && replay::parse(case, 0, room).code != 5 {
            self.whole.insert(case.clone());
        }
        self.add(format!("parse {} {mode} {room} {} {}", case.entry.name(), numbers(&case.kinds), hexes(&case.joints)));
    }

    /// A parse in a room of the peak, and in one that is an event or a word smaller.
    fn around(&mut self, case: &Case, mode: u32, odd: bool) {
        let peak = peak(case, mode);
        self.parse(case, mode, Ev::WORDS * peak + odd as usize);
        if peak > 0 {
            self.parse(case, mode, Ev::WORDS * peak - 1 - odd as usize);
        }
    }
}

fn peak(case: &Case, mode: u32) -> usize {
    replay::run(case, mode as u64, LARGEST).peak
}

fn case(entry: Entry, text: &str) -> Case {
    Case::of(entry, &text::tokens(text).expect("tokens"))
}

/// A case of one kind of token, many times, with no joint bit.
fn many(entry: Entry, text: &str, size: usize) -> Case {
    Case::of(entry, &vec![text::tokens(text).expect("a token")[0]; size])
}

fn lines() -> Vec<String> {
    let mut lines = Lines::default();
    let mut rng = Rng::new(5);
    lines.add("# small runs, and every kind alone".to_string());
    small(&mut lines);
    lines.add("# refused before the run".to_string());
    refused_before(&mut lines);
    lines.add("# limits".to_string());
    limits(&mut lines);
    lines.add("# nests".to_string());
    nests(&mut lines);
    lines.add("# random cases".to_string());
    random(&mut lines, &mut rng);
    lines.add("# what else the oracle's answers are recorded of, in mode 0".to_string());
    recorded(&mut lines);
    lines.add("# every two operators".to_string());
    for case in generate::two_operators() {
        for mode in 0..=1 {
            lines.parse(&case, mode, Ev::WORDS * peak(&case, mode));
        }
    }
    lines.add("# lists of events".to_string());
    event_lists(&mut lines, &mut rng);
    lines.add("# lines that are none".to_string());
    bad(&mut lines);
    lines.list
}

/// Cases whose errors of code 1 have found something that is worth having by name. The crate's own answers to them are recorded with others.
const FOUND: [(&str, &str); 8] = [
    ("item", "break"),
    ("item", "break == a ;"),
    ("item", "break = = a ;"),
    ("item", "a = = b ;"),
    ("source", "a == b ( 1 2 ; break }"),
    ("expr", "f(1 2)"),
    ("expr", "f(1 2, 3 4"),
    ("expr", "( a >>= b ]"),
];

/// The small runs of docs/RULES.md, the named cases, the panics, every kind alone.
fn small(lines: &mut Lines) {
    for (text, rooms) in [("break ;", &[8, 6][..]), ("", &[2, 0]), ("}", &[8]), ("reset ;", &[14])] {
        for &room in rooms {
            lines.parse(&case(Entry::Item, text), 0, room);
        }
    }
    for (number, (entry, text)) in NAMED.into_iter().enumerate() {
        for mode in 0..=1 {
            lines.around(&case(Entry::of(entry).expect("an entry"), text), mode, (number + mode as usize) % 2 == 1);
        }
    }
    // what was found: the end, a token where a comma is expected, the first token of a glued one, a token behind a glued one
    for (entry, text) in FOUND {
        for mode in 0..=1 {
            lines.around(&case(Entry::of(entry).expect("an entry"), text), mode, mode == 1);
        }
    }
    for entry in ENTRIES {
        for text in ["delay", "{ delay", "for {", "{ for {", "a [ {"] {
            lines.around(&case(entry, text), 0, false);
        }
        // loops that spin: 7 from a room on, 5 below
        for text in ["array", "array )", "array }", "array [", "def f ( 3", "{ def f ( 3"] {
            for mode in 0..=1 {
                lines.around(&case(entry, text), mode, mode == 1);
            }
        }
        for (number, &kind) in permitted().iter().enumerate() {
            let odd = number % 3 == 0;
            lines.around(&Case::new(entry, vec![kind], vec![odd as u64]), (number % 2) as u32, odd);
        }
    }
}

/// Refusals 1 to 4: modes, joint words, kinds, and several at once.
fn refused_before(lines: &mut Lines) {
    let named = case(Entry::Item, "a [ 0 ] += b ;");
    for (number, mode) in [2, 3, 10, 255, 256, 257, 65_536, 65_537, u32::MAX].into_iter().enumerate() {
        lines.parse(&Case { entry: ENTRIES[number % 3], ..named.clone() }, mode, 7 * number);
    }
    // every kind of the enum that is not permitted, and others above it, at the first, a middle and the last token
    let others = [kinds().len() as u16, 255, 256, 371, 32_768, u16::MAX - 1, u16::MAX];
    for (number, kind) in (0..kinds().len() as u16).filter(|kind| !permitted().contains(kind)).chain(others).enumerate() {
        let mut case = Case { entry: ENTRIES[number % 3], ..named.clone() };
        let at = [0, 3, case.kinds.len() - 1][number / 3 % 3];
        case.kinds[at] = kind;
        if number % 4 == 0 {
            *case.kinds.last_mut().expect("tokens") = kind;
        }
        lines.parse(&case, (number % 2) as u32, number % 20);
    }
    // joint words: one too few, just enough, more, with further bits and words that are ignored
    for (number, size) in [1, 2, 63, 64, 65, 127, 128, 129].into_iter().enumerate() {
        let mut case = many(ENTRIES[number % 3], ";", size);
        let room = Ev::WORDS * peak(&case, 0);
        lines.parse(&case, 0, room);
        let last = case.joints.pop().expect("a word");
        lines.parse(&case, 1, room);
        lines.parse(&Case { joints: vec![], ..case.clone() }, 0, room);
        let used = (size - 1) % 64;
        case.joints.extend([last | (u64::MAX << used), u64::MAX, number as u64]);
        lines.parse(&case, 0, room);
    }
    // more joint words than tokens need, and joint words for none
    lines.parse(&Case::new(Entry::Source, vec![], vec![u64::MAX]), 0, 4);
    // each of 1 to 4, with and without each of the others
    for which in 0..16 {
        let mut case = many(ENTRIES[which % 3], ";", if which & 2 != 0 { generate::TOKENS + 1 } else { 70 });
        if which & 4 != 0 {
            case.joints.pop();
        }
        if which & 8 != 0 {
            case.kinds[69] = 0;
        }
        lines.parse(&case, if which & 1 != 0 { 2 } else { 1 }, 9);
    }
}

/// The most tokens, the largest rooms, the most events.
fn limits(lines: &mut Lines) {
    let most = generate::TOKENS;
    let source = many(Entry::Source, ";", most);
    lines.around(&source, 0, false);
    lines.parse(&Case { joints: source.joints[1..].to_vec(), ..source }, 0, 16_388);
    lines.parse(&many(Entry::Item, ";", most), 1, 40);
    lines.parse(&many(Entry::Expr, "(", most), 0, LARGEST);
    lines.parse(&many(Entry::Source, ";", TOKENS), 1, ROOM);
    for (text, room) in
        [("", ROOM), ("break ;", ROOM), ("break ;", LARGEST), ("break ;", LARGEST - 1), ("def f ( 3", ROOM), ("{ delay", ROOM)]
    {
        for (mode, entry) in [0, 1].into_iter().flat_map(|mode| ENTRIES.map(|entry| (mode, entry))) {
            lines.parse(&case(entry, text), mode, room);
        }
    }
    let [last, beyond] = replay::full();
    lines.parse(&last, 0, LARGEST);
    lines.parse(&last, 1, LARGEST - 1);
    lines.parse(&beyond, 0, LARGEST);
    lines.parse(&beyond, 1, ROOM);
}

/// Nests around the depth, through each counted function, and minus signs.
fn nests(lines: &mut Lines) {
    for mode in 0..=1 {
        for signs in [62, 63, 64, 65] {
            let case = Case::of(Entry::Expr, &generate::nest(0, signs, false));
            lines.parse(&case, mode, Ev::WORDS * peak(&case, mode));
        }
    }
    for number in 0..generate::nests() {
        for entry in [Entry::Source, ENTRIES[1 + number % 2]] {
            let (deep, mode) = (replay::deepest(number, entry), (number % 2) as u32);
            for (deep, cut) in [(deep, false), (deep + 1, false), (deep + 1, true)] {
                let case = Case::of(entry, &generate::nest(number, deep, cut));
                let room = Ev::WORDS * peak(&case, mode);
                lines.parse(&case, mode, if cut { LARGEST } else { room });
                if number % 3 == 0 && !cut {
                    lines.parse(&case, mode, room - 1);
                }
            }
        }
    }
}

/// Random programs, damaged ones, lists of kinds, in rooms around the peak and at random.
fn random(lines: &mut Lines, rng: &mut Rng) {
    let least = lines.list.len() + 1_650;
    while lines.list.len() < least {
        let case = generate::any(rng);
        if !(1..=24).contains(&case.kinds.len()) {
            continue;
        }
        let mode = rng.below(2) as u32;
        lines.around(&case, mode, rng.chance(1, 2));
        let other = 1 - mode;
        let peak = peak(&case, other);
        lines.parse(&case, other, if rng.chance(1, 2) { Ev::WORDS * peak } else { rng.below(4 * peak + 4) });
    }
}

/// The cases of `recorded/parse.in` that no line has, in a room of the peak: each runs to its own end.
fn recorded(lines: &mut Lines) {
    for case in cases() {
        if !lines.whole.contains(&case) {
            lines.parse(&case, 0, Ev::WORDS * peak(&case, 0));
        }
    }
}

/// Lists of events for the check and for resolution.
fn event_lists(lines: &mut Lines, rng: &mut Rng) {
    let resolve = |lines: &mut Lines, words: &[u32], rng: &mut Rng| {
        let need = match lists::check(words) {
            Ok(_) => replay::process(words).and_then(Result::ok).unwrap_or_else(|| lists::steps(words)).len(),
            Err(_) => rng.below(60),
        };
        for room in [need, need.saturating_sub(1), *rng.pick(&[0, need + 1, need + 30, need / 2])] {
            lines.add(format!("resolve {room} {}", numbers(words)));
        }
    };
    use Ev::{Error, Finish, Start, Token};
    let listing = [
        vec![Start(0, 1), Start(40, 3), Token(50, 1), Finish, Start(41, 0), Token(51, 1)],
        vec![Start(0, 1), Start(40, 0), Token(50, 1), Finish, Finish],
    ];
    let mut named: Vec<Vec<u32>> = [
        vec![Finish],
        vec![Start(0, 0)],
        vec![Start(40, 0)],
        vec![],
        vec![Start(40, 2), Start(41, 1), Start(42, 0), Finish, Finish, Finish],
        listing.concat(),
        // kinds, codes and arguments of 16 bits
        vec![Start(u16::MAX, 0), Token(u16::MAX, 3), Error(u16::MAX, u16::MAX, 0), Finish],
        vec![Start(LAST + 1, 1), Start(LAST, 0), Finish, Finish],
        vec![Start(0, u32::MAX), Start(0, 0)],
        vec![Start(0, 1), Token(1, 1)],
        lists::chain(0, 50),
        lists::chain(40, 50),
    ]
    .iter()
    .map(|list| lists::words(list))
    .collect();
    // words that are no events, and an odd number of words
    named.extend([vec![65_536], vec![65_536, 0, 65_536], vec![131_072], vec![0, 0], vec![131_073, 0], vec![131_072, 1], vec![196_609, 0]]);
    named.extend([vec![196_609, 4], vec![262_144, 65_536], vec![327_680, 0], vec![u32::MAX, u32::MAX], vec![65_535, 0]]);
    let least = lines.list.len() + 650;
    let mut named = named.into_iter();
    while lines.list.len() < least {
        let words = named.next().unwrap_or_else(|| lists::any(rng, LAST));
        if words.len() <= 80 || words.len() == 200 {
            lines.add(format!("check {}", numbers(&words)));
            resolve(lines, &words, rng);
        }
    }
    // errors of code 1 with any second word, and of others with one that they have not
    let expected = FAULT + EXPECTED as u32;
    let mut seconds: Vec<u32> = vec![0, 1, 65_535, 65_536, 65_539, 6_488_068, 1 << 31, u32::MAX - 65_535, u32::MAX];
    seconds.extend((0..6).map(|_| rng.next() as u32));
    let mut found: Vec<Vec<u32>> = seconds.iter().map(|&second| vec![expected, second]).collect();
    found.extend([0, 2, 3, 37, 257, u16::MAX].map(|code| vec![FAULT + code as u32, 65_536]));
    found.extend([65_535, 65_537, 131_072, u32::MAX].map(|second| vec![FAULT + 2, second]));
    // in a tree, twice, behind a fault and before one
    for &second in &seconds {
        let other = *rng.pick(&seconds);
        let (open, inside) =
            (lists::words(&[Start(40, 1), Start(41, 0), Token(50, 2)]), vec![expected, second, FAULT + 7, 300, expected, other]);
        let shut = lists::words(&[Finish, Finish]);
        found.push([&open[..], &inside, &shut].concat());
        found.push([&open[..], &inside, &[FAULT + 2, 65_536], &shut].concat());
        found.push([&inside[..], &shut].concat());
    }
    for words in found {
        lines.add(format!("check {}", numbers(&words)));
        resolve(lines, &words, rng);
    }
    // more than 65,536 events
    lines.add(format!("check {}", numbers(&vec![0; 131_074])));
}

/// Lines that are none, and lines that are copied.
fn bad(lines: &mut Lines) {
    for line in ["#", "#parse item 0 8 3 0", "# two  spaces, and one at the end "] {
        lines.add(line.to_string());
    }
    for line in [
        "",
        "parse",
        "parse item",
        "parse item 0 8",
        "parse item 0 8 3",
        "parse item 3 0",
        "parse item 0 8 3 0 0",
        "parse item 0 8 3 0 ",
        " parse item 0 8 3 0",
        "parse  item 0 8 3 0",
        "parse items 0 8 3 0",
        "parse Item 0 8 3 0",
        "parse 1 0 8 3 0",
        "parse item x 8 3 0",
        "parse item 0 x 3 0",
        "parse item 0 - 3 0",
        "parse item - 8 3 0",
        "parse item 0 8 3, 0",
        "parse item 0 8 ,3 0",
        "parse item 0 8 3,,3 0",
        "parse item 0 8 3;3 0",
        "parse item 0 8 -3 0",
        "parse item 0 8 65536 0",
        "parse item 0 8 3 g",
        "parse item 0 8 3 0,",
        "parse item 0 8 3 10000000000000000",
        "check",
        "check ",
        "check 1 2",
        "check 65536,",
        "check 4294967296,0",
        "check a",
        "resolve",
        "resolve 0",
        "resolve - 65536,0",
        "resolve 0 65536,0 0",
        "resolve 0 65536;0",
        "process 65536,0",
        "tree item break",
        "checks -",
        "0 8 3 0",
        " # a line that begins with a space",
    ] {
        lines.add(line.to_string());
    }
}
