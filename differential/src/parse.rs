//! The port's parse against the crate, on short, random, nested and very long lists of tokens: numbers, places, counts, and every word that
//! is lent. With what was found left out, the list is the crate's, and so are the steps that the port's resolution makes of it; what was found
//! is counted over the tokens.

use crate::lent::Lent;
use crate::port;
use answer::{kinds, permitted, read_steps, with_stack, Entry, Ev, ENTRIES};
use differential::case::{hexes, numbers, Case};
use differential::replay::{self, LARGEST};
use differential::rng::Rng;
use differential::{found, generate, text};
use std::sync::atomic::{AtomicU64, Ordering};

/// The call: entry, mode, kinds, joint words, event room, answer. `wrong_parse.rs` has others in the place of the port's.
pub type Parse = fn(u32, u32, &[u16], &[u64], &mut [u32], &mut [u64]) -> u32;

pub const PORT: Parse = port::parse;

/// The numbers that a call can say.
const CODES: [u32; 11] = [0, 1, 2, 3, 4, 5, 6, 7, 8, 100, 101];

/// Compares the small runs, every short list, every two operators, `count` random cases, the nests around the depth and the lists at the
/// limits; true where nothing differs.
pub fn run(count: u64, seed: u64) -> bool {
    let small = small_runs();
    let short = if count < 100_000 { 2 } else { 3 };
    let threads = threads();
    let (operators, limits) = (generate::two_operators(), limits());
    let parts = each_thread(threads, |own| part(count, seed, short, [&operators, &limits], own, threads));
    let mut seen = Seen::default();
    parts.iter().for_each(|part| seen.add(part));
    let [shorts, randoms, nests, operators, limited] = seen.cases;
    println!(
        "differential: the port on {randoms} random cases of a parse from seed {seed}, {shorts} of at most {short} tokens, {operators} of two \
         operators, {nests} nests and {limited} at the limits: {} cases, {} calls, {} differ",
        seen.cases.iter().sum::<u64>(),
        seen.calls(),
        seen.differing
    );
    let said: Vec<String> = CODES.iter().zip(seen.codes).map(|(code, times)| format!("{code} {times}")).collect();
    println!(
        "differential: numbers said: {}; {} lists resolved to the crate's steps in mode 0, {} in mode 1, with {} kinds found, {} of them EOF; at \
         most {} events",
        said.join(", "),
        seen.resolved[0],
        seen.resolved[1],
        seen.found[0],
        seen.found[1],
        seen.most
    );
    let missed = seen.codes.contains(&0) || seen.resolved.contains(&0) || seen.found.contains(&0);
    if missed {
        println!("differential: the cases miss one of these");
    }
    small && seen.differing == 0 && !missed
}

/// How many threads share the cases: `$THREADS`, or as many as the machine has. The cases do not depend on it.
pub fn threads() -> usize {
    let asked = std::env::var("THREADS").ok().and_then(|text| text.parse().ok());
    asked.unwrap_or_else(|| std::thread::available_parallelism().map_or(1, |n| n.get())).max(1)
}

/// Runs `body` on each thread, with its number; one is this thread.
pub fn each_thread<T: Send>(threads: usize, body: impl Fn(usize) -> T + Sync) -> Vec<T> {
    if threads == 1 {
        return vec![body(0)];
    }
    std::thread::scope(|scope| {
        let body = &body;
        let all: Vec<_> = (0..threads).map(|own| scope.spawn(move || with_stack(|| body(own)))).collect();
        all.into_iter().map(|thread| thread.join().unwrap_or_else(|payload| std::panic::resume_unwind(payload))).collect()
    })
}

/// The cases of one thread out of `threads`.
fn part(count: u64, seed: u64, short: usize, named: [&[Case]; 2], own: usize, threads: usize) -> Seen {
    let mut seen = Seen::default();
    let mut number = 0;
    let mut list = |alphabet: &[u16], length| {
        generate::short(alphabet, length, |kinds, joints| {
            for entry in ENTRIES {
                number += 1;
                if number % threads == own {
                    let words = if kinds.is_empty() { vec![] } else { vec![joints] };
                    seen.look(0, &Case::new(entry, kinds.to_vec(), words), Rng::of(seed, number as u64).next());
                }
            }
        });
    };
    for length in 0..short {
        list(permitted(), length);
    }
    list(&generate::reduced(), short);
    for i in (own as u64..count).step_by(threads) {
        let (case, rooms) = random(seed, i);
        seen.look(1, &case, rooms);
    }
    let mut rng = Rng::new(seed);
    for (number, entry) in (0..generate::nests()).flat_map(|number| ENTRIES.map(|entry| (number, entry))) {
        let rooms = rng.next();
        if number % threads == own {
            for case in around(number, entry) {
                seen.look(2, &case, rooms);
            }
        }
    }
    for (sort, cases) in named.into_iter().enumerate() {
        for (number, case) in cases.iter().enumerate() {
            let rooms = rng.next();
            if number % threads == own {
                seen.look(3 + sort, case, rooms);
            }
        }
    }
    seen
}

/// The random case of a number, and the seed of what is lent to it.
pub fn random(seed: u64, number: u64) -> (Case, u64) {
    let mut rng = Rng::of(seed, number);
    (generate::any(&mut rng), rng.next())
}

/// A nest of the depths around the deepest that is not refused with 6, in full and cut.
pub fn around(number: usize, entry: Entry) -> Vec<Case> {
    let nest = |deep, cut| Case::of(entry, &generate::nest(number, deep, cut));
    let deepest = replay::deepest(number, entry);
    (deepest.saturating_sub(1)..=deepest + 2).flat_map(|deep| [nest(deep, false), nest(deep, true)]).collect()
}

/// What the cases were.
#[derive(Default)]
struct Seen {
    /// short, random, nests, of two operators, at the limits
    cases: [u64; 5],
    /// the calls by what they say, in the order of `CODES`
    codes: [u64; 11],
    /// lists that were resolved, by mode
    resolved: [u64; 2],
    /// errors of those lists that have found a kind, and those that have found EOF
    found: [u64; 2],
    /// the most events of a done parse
    most: usize,
    differing: u64,
}

/// How many differing cases were told.
static TOLD: AtomicU64 = AtomicU64::new(0);

impl Seen {
    fn calls(&self) -> u64 {
        self.codes.iter().sum()
    }

    fn add(&mut self, other: &Seen) {
        fn sum(to: &mut [u64], from: &[u64]) {
            to.iter_mut().zip(from).for_each(|(a, b)| *a += b);
        }
        sum(&mut self.cases, &other.cases);
        sum(&mut self.codes, &other.codes);
        sum(&mut self.resolved, &other.resolved);
        sum(&mut self.found, &other.found);
        self.most = self.most.max(other.most);
        self.differing += other.differing;
    }

    fn look(&mut self, sort: usize, case: &Case, rooms: u64) {
        self.cases[sort] += 1;
        let Err(fault) = compare(PORT, case, &mut Rng::new(rooms), self) else { return };
        self.differing += 1;
        // the first few are told with a list as small as one can be made by leaving tokens out
        if TOLD.fetch_add(1, Ordering::Relaxed) < 5 {
            let small = smaller(case.clone(), |case| differs(PORT, case, rooms).is_some());
            println!("differential: the port on {}", differs(PORT, &small, rooms).unwrap_or(fault));
        }
    }
}

/// What differs on one case, if anything. `rooms` is the seed of what is lent.
pub fn differs(parse: Parse, case: &Case, rooms: u64) -> Option<String> {
    compare(parse, case, &mut Rng::new(rooms), &mut Seen::default()).err()
}

/// One call: the numbers, and the sizes of the rooms.
struct Call<'a> {
    entry: u32,
    mode: u32,
    kinds: &'a [u16],
    joints: &'a [u64],
    room: usize,
    answers: usize,
}

impl Call<'_> {
    /// The call as a line of `replay`, where there is one, and the size of the answer room where it is not the program's.
    fn line(&self) -> String {
        let entry = ENTRIES.get(self.entry as usize).map_or(format!("entry {}", self.entry), |entry| entry.name().to_string());
        let shown = &self.kinds[..self.kinds.len().min(400)];
        let rest = if shown.len() < self.kinds.len() { format!(",.. of {} tokens", self.kinds.len()) } else { String::new() };
        let joints = &self.joints[..self.joints.len().min(40)];
        let line = format!("parse {entry} {} {} {}{rest} {}", self.mode, self.room, numbers(shown), hexes(joints));
        if self.answers == 3 {
            line
        } else {
            format!("{line} ({} words for the answer)", self.answers)
        }
    }

    fn case(&self) -> Case {
        Case::new(ENTRIES[self.entry as usize], self.kinds.to_vec(), self.joints.to_vec())
    }

    /// What must be said: the number, the first words of the answer, and the list where it is done. 100 is told before anything is
    /// looked at, 101 before 1 to 4.
    fn must(&self) -> Must {
        if self.answers < 3 {
            return Must { code: 100, answer: vec![], done: None };
        }
        if self.entry > 2 {
            return Must { code: 101, answer: vec![0; 3], done: None };
        }
        let said = replay::parse(&self.case(), self.mode as u64, self.room);
        let (events, lookups) = said.run.as_ref().map_or((0, 0), |run| (run.events as u64, run.lookups));
        Must { code: said.code as u32, answer: vec![said.place as u64, events, lookups], done: said.run.map(|run| (run.words, run.steps)) }
    }
}

struct Must {
    code: u32,
    answer: Vec<u64>,
    /// the crate's list and its steps, without what was found
    done: Option<(Vec<u32>, Vec<u8>)>,
}

/// Makes one call and looks at everything that was lent. `steps` wants the list resolved, too.
fn one(parse: Parse, call: &Call, steps: bool, rng: &mut Rng, seen: &mut Seen) -> Result<u32, String> {
    let must = call.must();
    let mut kinds = Lent::new(call.kinds, rng, |n| n as u16);
    let mut joints = Lent::new(call.joints, rng, |n| n);
    let mut room = Lent::fresh(call.room, rng, |n| n as u32);
    let mut answer = Lent::fresh(call.answers, rng, |n| n);
    let code = parse(call.entry, call.mode, kinds.room(), joints.room(), room.room(), answer.room());
    seen.codes[CODES.iter().position(|&c| c == must.code).expect("a number of the rules")] += 1;
    let fault = |what: &str| Err(format!("{}: {what}", call.line()));
    let said = &answer.room_now()[..must.answer.len()];
    if code != must.code || said != must.answer {
        return fault(&format!("it says {code} {said:?} and must say {} {:?}", must.code, must.answer));
    }
    if !answer.holds(&must.answer) {
        return fault("what stands behind the answer is not as it was");
    }
    if !kinds.holds(&[]) || !joints.holds(&[]) {
        return fault("the tokens are not as they were");
    }
    if !room.kept_beside() {
        return fault("what stands beside the room is not as it was");
    }
    match (must.code, &must.done) {
        (0, Some((words, _))) => {
            let (list, rest) = room.room_now().split_at(words.len());
            let plain = found::without(list);
            if let Some(at) = (0..words.len()).find(|&at| plain[at] != words[at]) {
                return fault(&format!("word {at} of the room is {} and must be {}, but for what was found", list[at], words[at]));
            }
            if let Some(at) = rest.iter().position(|&word| word != 0) {
                return fault(&format!("word {} of the room is {} and must be 0", words.len() + at, rest[at]));
            }
            if let Some((number, found, must)) = found::wrong(call.kinds, list) {
                return fault(&format!("event {number} has found {found} and must have found {must}"));
            }
        }
        (5..=8, _) if !room.filled(0) => return fault("it refuses and the room is not all zero"),
        (1..=4 | 100 | 101, _) if !room.holds(&[]) => return fault("it refuses and the room is not as it was"),
        _ => {}
    }
    if let (true, Some((words, file))) = (steps, &must.done) {
        let mut list = room.room_now()[..words.len()].to_vec();
        let errors = found::count(&list);
        let mut bytes = vec![0; file.len() + 2 * errors];
        let mut place = [0];
        let code = port::resolve(&mut list, &mut bytes, &mut place);
        if (code, place[0], &found::steps_without(&bytes)) != (0, bytes.len() as u64, file) {
            return fault("the steps of its list are not the crate's, but for what was found");
        }
        if let Some((number, found, must)) = found::wrong_step(call.kinds, &bytes) {
            return fault(&format!("record {number} of the steps of its list has found {found:?} and must have found {must}"));
        }
        seen.resolved[call.mode as usize] += 1;
        seen.found[0] += errors as u64;
        seen.found[1] += found::ends(room.room_now()) as u64;
        seen.most = seen.most.max(words.len() / Ev::WORDS);
    }
    Ok(must.code)
}

/// One case: the run in both modes and several rooms, and the same tokens in calls that must be refused before it.
fn compare(parse: Parse, case: &Case, rng: &mut Rng, seen: &mut Seen) -> Result<(), String> {
    let entry = case.entry as u32;
    let (tokens, need) = (case.kinds.len(), case.kinds.len().div_ceil(64));
    let base = Call { entry, mode: 0, kinds: &case.kinds, joints: &case.joints, room: 0, answers: 3 };
    let answers = 3 + rng.below(4);
    // what no parse runs has no peak
    let runs = replay::before(case, 0).is_none();
    if runs && !replay::agrees(case, LARGEST) {
        return Err(format!("{}: the crate and what the port must say differ", case.line()));
    }
    for mode in 0..=1 {
        let peak = if runs { replay::run(case, mode as u64, LARGEST).peak } else { rng.below(20) };
        let mut rooms =
            vec![Ev::WORDS * peak + rng.below(2), (Ev::WORDS * peak).saturating_sub(1 + rng.below(2)), rng.below(Ev::WORDS * peak + 4)];
        if mode == 0 {
            rooms.extend([rng.below(4), Ev::WORDS * peak + 2 + rng.below(60), rng.below(4 * peak + 4)]);
        }
        // the largest rooms take their time
        if rng.chance(1, 32) || tokens > 1_000 {
            rooms.push(LARGEST + *rng.pick(&[0, 0, 1, 2, 3, 8, 40_000]));
        }
        if tokens > 1_000 {
            rooms.extend([LARGEST, LARGEST + 2 + rng.below(100)]);
        }
        let mut steps = true;
        for room in rooms {
            let said = one(parse, &Call { mode, room, answers, ..base }, steps, rng, seen)?;
            steps &= said != 0;
        }
        // further joint words and bits are ignored
        let mut joints = case.joints.clone();
        joints.extend((0..rng.below(3)).map(|_| rng.next()));
        if let (Some(last), true) = (joints.get_mut(need.wrapping_sub(1)), tokens % 64 != 0) {
            *last ^= rng.next() << (tokens % 64);
        }
        one(parse, &Call { mode, joints: &joints, room: Ev::WORDS * peak, ..base }, false, rng, seen)?;
    }
    // refused before the run: a mode, joint words, kinds, an entry, an answer room; one alone and several at once
    let words = |rng: &mut Rng| if rng.chance(1, 8) { 0 } else { rng.below(2 * tokens + 40) };
    one(parse, &Call { mode: no_mode(rng), room: words(rng), answers, ..base }, false, rng, seen)?;
    if need > 0 {
        let less = if rng.chance(1, 2) { need - 1 } else { rng.below(need) };
        let joints = &case.joints[..less.min(case.joints.len())];
        let mode = rng.below(2) as u32;
        one(parse, &Call { mode, joints, room: words(rng), answers, ..base }, false, rng, seen)?;
        let kinds = forbidden(&case.kinds, rng);
        one(parse, &Call { mode, kinds: &kinds, room: words(rng), answers, ..base }, false, rng, seen)?;
    }
    for round in 0..4 {
        let mut kinds = case.kinds.clone();
        if rng.chance(1, 200) {
            kinds.resize(generate::TOKENS + 1 + rng.below(3), *rng.pick(permitted()));
        }
        if rng.chance(1, 2) && !kinds.is_empty() {
            kinds = forbidden(&kinds, rng);
        }
        let mode = if rng.chance(1, 3) { no_mode(rng) } else { rng.below(2) as u32 };
        let mut joints = case.joints.clone();
        joints.resize(kinds.len().div_ceil(64), 0);
        if rng.chance(1, 2) {
            joints.pop();
        }
        let entry = if round == 2 || rng.chance(1, 8) { no_entry(rng) } else { entry };
        let answers = if round == 3 { rng.below(3) } else { answers };
        one(parse, &Call { entry, mode, kinds: &kinds, joints: &joints, room: words(rng), answers }, false, rng, seen)?;
    }
    Ok(())
}

/// A number that is no mode; some are one in fewer bits.
fn no_mode(rng: &mut Rng) -> u32 {
    *rng.pick(&[2, 2, 3, 255, 256, 257, 65_535, 65_536, 65_537, 1 << 31, (1 << 31) + 1, u32::MAX])
}

/// A number that is no entry, likewise.
fn no_entry(rng: &mut Rng) -> u32 {
    *rng.pick(&[3, 3, 4, 255, 256, 257, 258, 65_536, 65_537, 65_538, 1 << 31, u32::MAX])
}

/// A copy with one or two kinds that are not permitted, often at the first, the middle or the last token: a kind of the enum, one above it,
/// one that is a permitted kind in fewer bits.
fn forbidden(list: &[u16], rng: &mut Rng) -> Vec<u16> {
    let mut list = list.to_vec();
    for _ in 0..1 + rng.below(2) {
        let any = rng.below(list.len());
        let at = *rng.pick(&[0, list.len() / 2, list.len() - 1, any]);
        let kind = match rng.below(6) {
            0 => u16::MAX,
            1 => kinds().len() as u16 + rng.below(3) as u16,
            2 => *rng.pick(permitted()) + (1 << (8 + rng.below(8))),
            3 => rng.next() as u16,
            _ => rng.below(kinds().len()) as u16,
        };
        list[at] = if permitted().contains(&kind) { 0 } else { kind };
    }
    list
}

/// Makes a case smaller as long as it is still a bad one: leaves out tokens, many at a time and then few, and takes joint bits away.
pub fn smaller(mut case: Case, bad: impl Fn(&Case) -> bool) -> Case {
    let better = |case: &mut Case, less: Case| {
        let good = bad(&less);
        if good {
            *case = less;
        }
        good
    };
    if case.joints.len() < case.kinds.len().div_ceil(64) {
        return case;
    }
    loop {
        let before = case.clone();
        let mut size = case.kinds.len().next_power_of_two();
        // of a long list only large parts
        let least = if case.kinds.len() > 1_000 { size / 16 } else { 1 };
        while size >= least {
            let mut at = 0;
            while at < case.kinds.len() {
                let less = without(&case, at, size);
                if !better(&mut case, less) {
                    at += size;
                }
            }
            size /= 2;
        }
        let none = Case { joints: vec![0; case.joints.len()], ..case.clone() };
        if none != case && !better(&mut case, none) && case.kinds.len() <= 64 {
            for at in (0..case.kinds.len()).filter(|&at| before.joint(at)) {
                let mut less = case.clone();
                less.joints[0] &= !(1 << at);
                better(&mut case, less);
            }
        }
        if case == before {
            return case;
        }
    }
}

/// The case without `size` tokens from `at` on.
fn without(case: &Case, at: usize, size: usize) -> Case {
    let kept = (0..case.kinds.len()).filter(|i| !(at..at + size).contains(i));
    Case::of(case.entry, &kept.map(|i| (case.kinds[i], case.joint(i))).collect::<Vec<_>>())
}

/// Cases at the limits: about 65,536 events; about 8,192 tokens and more, of one kind, of a program and of a nest; joint words for them;
/// loops that spin.
pub fn limits() -> Vec<Case> {
    const MOST: usize = generate::TOKENS;
    // events: as many as the largest room holds, and one more; many more
    let mut all = replay::full().to_vec();
    let unit = text::tokens("pow input").expect("tokens");
    all.push(Case::of(Entry::Item, &unit.iter().copied().cycle().take(MOST).collect::<Vec<_>>()));
    let program = "qubit[2] q; for int i in [0:2] { if (a == 1) { g(a) q[i]; } else { a += 1 << 2; } } def f(int a) -> bit { return a; }";
    for (text, entries) in [
        (";", &ENTRIES[..]),
        ("a", &ENTRIES[..]),
        ("a +", &ENTRIES[2..]),
        ("-", &ENTRIES[2..]),
        ("(", &ENTRIES[2..]),
        ("{", &ENTRIES[1..2]),
        (".", &ENTRIES[2..]),
        ("}", &ENTRIES[..1]),
        (program, &ENTRIES[..1]),
    ] {
        let unit = text::tokens(text).expect("tokens");
        for size in [MOST - 1, MOST, MOST + 1] {
            let list: Vec<(u16, bool)> = unit.iter().copied().cycle().take(size).collect();
            all.extend(entries.iter().map(|&entry| Case::of(entry, &list)));
        }
    }
    let semicolon = text::tokens(";").expect("a token")[0];
    // the numbers of tokens that are none or few in fewer bits
    for size in [MOST + 64, 2 * MOST, 65_535, 65_536, 65_537, 65_600, 131_073] {
        all.push(Case::of(Entry::Source, &vec![semicolon; size]));
    }
    // with too few joint words, and with a kind that is not permitted at the last token
    for size in [1, 64, 65, 128, 129, MOST - 1, MOST, MOST + 1] {
        let mut case = Case::of(Entry::Item, &vec![semicolon; size]);
        case.kinds[size - 1] = u16::MAX;
        all.push(case.clone());
        case.joints.pop();
        all.push(case.clone());
        case.kinds[size - 1] = semicolon.0;
        all.push(case);
    }
    for text in ["array", "array )", "array }", "def f ( 3", "pow array", "def f ( int a , 3"] {
        let list = text::tokens(text).expect("tokens");
        all.extend(ENTRIES.map(|entry| Case::of(entry, &list)));
    }
    all
}

/// The small runs of the port alone, with their answers written out: entry, text, mode, then number and place, and the tree where it is
/// done.
fn small_runs() -> bool {
    use Entry::{Expr, Item};
    const A: &str = "(IDENTIFIER IDENT)";
    let minus = |n: usize| format!("{}a", "- ".repeat(n));
    let nest = |n: usize| format!("{}{A}{}", "(PREFIX_EXPR MINUS ".repeat(n), ")".repeat(n));
    let rows: [(Entry, String, u32, (u32, u64), String); 14] = [
        (Expr, minus(63), 0, (0, 64), nest(63)),
        (Expr, minus(64), 0, (6, 64), String::new()),
        (Expr, minus(64), 1, (6, 64), String::new()),
        (Expr, "a & b == c".to_string(), 0, (0, 6), format!("(BIN_EXPR (BIN_EXPR {A} AMP {A}) EQ2/2 {A})")),
        (Expr, "a & b == c".to_string(), 1, (0, 6), format!("(BIN_EXPR {A} AMP (BIN_EXPR {A} EQ2/2 {A}))")),
        (Expr, "a == b < c".to_string(), 0, (0, 6), format!("(BIN_EXPR (BIN_EXPR {A} EQ2/2 {A}) L_ANGLE {A})")),
        (Expr, "a == b < c".to_string(), 1, (0, 6), format!("(BIN_EXPR {A} EQ2/2 (BIN_EXPR {A} L_ANGLE {A}))")),
        (Expr, "a < b == c".to_string(), 1, (0, 6), format!("(BIN_EXPR (BIN_EXPR {A} L_ANGLE {A}) EQ2/2 {A})")),
        (Expr, "a == b == c".to_string(), 1, (0, 7), format!("(BIN_EXPR (BIN_EXPR {A} EQ2/2 {A}) EQ2/2 {A})")),
        (Expr, "x + y = 3".to_string(), 0, (0, 5), format!("(BIN_EXPR {A} PLUS (ASSIGNMENT_STMT {A} EQ (LITERAL INT_NUMBER) !22))")),
        (Expr, "a = b + c".to_string(), 0, (0, 5), format!("(BIN_EXPR (ASSIGNMENT_STMT {A} EQ {A} !22) PLUS {A})")),
        // what was found: the end, a token where a comma is expected, and the first token of a glued one
        (Item, "break".to_string(), 0, (0, 1), "(BREAK_STMT BREAK_KW !1:SEMICOLON:EOF)".to_string()),
        (
            Expr,
            "f(1 2)".to_string(),
            0,
            (0, 5),
            format!("(CALL_EXPR {A} (ARG_LIST (EXPRESSION_LIST L_PAREN (LITERAL INT_NUMBER) !1:COMMA:INT_NUMBER (LITERAL INT_NUMBER) R_PAREN)))"),
        ),
        (Item, "break == a".to_string(), 0, (0, 1), "(BREAK_STMT BREAK_KW !1:SEMICOLON:EQ)".to_string()),
    ];
    let mut good = true;
    for (entry, text, mode, must, tree) in &rows {
        let case = Case::of(*entry, &text::tokens(text).expect("tokens"));
        let (mut room, mut answer) = (vec![7; 1_000], [0; 3]);
        let code = port::parse(*entry as u32, *mode, &case.kinds, &case.joints, &mut room, &mut answer);
        // ten bytes are enough for the step of an event
        let (mut bytes, mut place) = (vec![0; 10 * room.len() / Ev::WORDS], [0]);
        let resolved = port::resolve(&mut room[..Ev::WORDS * answer[1] as usize], &mut bytes, &mut place);
        let said = text::tree(&read_steps(&bytes[..if resolved == 0 { place[0] as usize } else { 0 }]));
        if ((code, answer[0]), &said) != (*must, tree) {
            println!("differential: the port on {text} in mode {mode}: it says {code} at {} and {said}", answer[0]);
            good = false;
        }
    }
    println!("differential: {} small runs of the port {}", rows.len(), if good { "are as written" } else { "are not all as written" });
    good
}
