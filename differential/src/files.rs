//! The port's reader of step files against the rules, on the samples' files and their beginnings, on rows of a few records, and on damaged
//! files: numbers, places, steps, and every word and byte that is lent.

use crate::lent::Lent;
use crate::port;
use answer::{write_step, Step};
use differential::case::bytes;
use differential::rng::Rng;

/// The two calls. `wrong_files.rs` has others in the place of the port's.
#[derive(Clone, Copy)]
pub struct Calls {
    pub file: fn(&[u8], &mut [u64]) -> u32,
    pub step: fn(&[u8], &mut [u64]) -> u32,
}

pub const PORT: Calls = Calls { file: port::read_file, step: port::read_step };

/// Words of the two answers.
const FILE: usize = 2;
const STEP: usize = 6;

/// Compares every prefix of every sample, every row of a few records, `count` damaged files and those at the limits; true where nothing
/// differs.
pub fn run(count: u64, seed: u64) -> bool {
    let samples = samples();
    let mut seen = Seen::default();
    for file in &samples {
        (0..=file.len()).for_each(|length| seen.look(PORT, &file[..length], length as u64));
    }
    let prefixes = seen.files;
    rows(4, &mut |file| {
        let rooms = seen.files;
        seen.look(PORT, file, rooms)
    });
    let short = seen.files - prefixes;
    let pieces: Vec<Vec<Record>> = samples.iter().map(|file| split(file)).collect();
    for case in 0..count {
        let mut rng = Rng::of(seed, case);
        let file = any(&pieces, &mut rng);
        seen.look(PORT, &file, rng.next());
    }
    let long = limits();
    for file in &long {
        seen.look(PORT, file, seed);
    }
    let [done, few, past, kind, length, raw, code, below, second, none, open] = seen.ends;
    println!(
        "differential: the reader on {count} damaged step files from seed {seed}, all {prefixes} prefixes of {} samples, all {short} rows of \
         at most four records and {} files at the limits: {} calls, {} differ",
        samples.len(),
        long.len(),
        seen.calls,
        seen.differing
    );
    println!(
        "differential: {done} good; 11: {few} with less than a head, {past} with a payload past the end; 12: {kind} with another kind, {length} \
         with another length, {raw} with another raw count, {code} with another code; 13: {below} with a leave first, {second} with a record \
         behind the tree, {none} empty, {open} left open"
    );
    let missed = seen.ends.contains(&0) || samples.is_empty();
    if missed {
        println!("differential: the files miss one of these");
    }
    seen.differing == 0 && !missed
}

/// The samples' step files, by their names, those in the folders below samples/ among them.
pub fn samples() -> Vec<Vec<u8>> {
    let (mut folders, mut paths) = (vec![std::path::PathBuf::from(concat!(env!("GRISOLEMP"), "/samples"))], Vec::new());
    while let Some(folder) = folders.pop() {
        for entry in std::fs::read_dir(folder).expect("the samples") {
            let path = entry.expect("a sample").path();
            if path.is_dir() {
                folders.push(path);
            } else if path.extension().is_some_and(|e| e == "steps") {
                paths.push(path);
            }
        }
    }
    paths.sort();
    paths.iter().map(|path| std::fs::read(path).expect("a step file")).collect()
}

/// What the files were.
#[derive(Default)]
struct Seen {
    files: u64,
    calls: u64,
    differing: u64,
    /// good; refused for less than a head, a payload past the end, a record kind, a length, a raw count, a code, a leave first, a record behind
    /// the tree, no record, a node left open
    ends: [u64; 11],
}

impl Seen {
    fn look(&mut self, calls: Calls, file: &[u8], rooms: u64) {
        self.files += 1;
        let must = judge(file);
        self.ends[reason(file, &must)] += 1;
        let mut rng = Rng::new(rooms);
        let Err(fault) = compare(calls, file, &must, &mut rng, &mut self.calls) else { return };
        self.differing += 1;
        // the first few are told with a file as small as one can be made by leaving bytes out
        if self.differing <= 5 {
            let small = smaller(file.to_vec(), |f| differs(calls, f, rooms).is_some());
            let said = differs(calls, &small, rooms).unwrap_or(fault);
            let shown = bytes(&small[..small.len().min(80)]);
            println!("differential: the reader on {} bytes, {shown}{}: {said}", small.len(), if small.len() > 80 { ".." } else { "" });
        }
    }
}

/// What must be said of a file.
struct Judged {
    /// number, place and records of the whole file
    said: (u32, usize, usize),
    /// where each step begins and how many bytes it takes, up to the first record that is none
    steps: Vec<(usize, usize, Step)>,
    /// what is said behind them: 0 at the end, 11 or 12
    stops: u32,
}

/// The rules, in a form of their own. The file is cut into records; each is sound where it is the record of a step; the depths before and
/// after each step are a list. Every fault is collected with its place, and the answer is the least one.
fn judge(file: &[u8]) -> Judged {
    let pieces = cut(file);
    let (mut steps, mut faults, mut written) = (Vec::with_capacity(pieces.len()), Vec::new(), Vec::new());
    for &(at, piece) in &pieces {
        match step_of(piece, &mut written) {
            Some(step) if faults.is_empty() => steps.push((at, piece.len(), step)),
            Some(_) => {}
            None => faults.push((at, if piece.len() < says(piece) { 11 } else { 12 })),
        }
    }
    let stops = faults.first().map_or(0, |&(_, number)| number);
    let mut depths = vec![0i64];
    depths.extend(steps.iter().scan(0, |depth, (_, _, step)| {
        *depth += weight(step);
        Some(*depth)
    }));
    for (i, &(at, _, _)) in steps.iter().enumerate() {
        if depths[i + 1] < 0 || (i > 0 && depths[i] == 0) {
            faults.push((at, 13));
        }
    }
    if pieces.is_empty() || depths[steps.len()] > 0 {
        faults.push((file.len(), 13));
    }
    let said = faults.into_iter().min().map_or((0, file.len(), pieces.len()), |(place, number)| (number, place, 0));
    Judged { said, steps, stops }
}

/// What a step adds to the depth.
fn weight(step: &Step) -> i64 {
    match step {
        Step::Enter(_) => 1,
        Step::Leave => -1,
        Step::Token(..) | Step::Error(..) | Step::Expected(..) => 0,
    }
}

/// A file cut at the lengths that its records say. The last piece is what is left, which may be less than it says.
fn cut(file: &[u8]) -> Vec<(usize, &[u8])> {
    let mut pieces = Vec::new();
    let mut at = 0;
    while at < file.len() {
        let rest = &file[at..];
        let (piece, _) = rest.split_at(rest.len().min(says(rest)));
        pieces.push((at, piece));
        at += piece.len();
    }
    pieces
}

/// How many bytes the record at a file's front says that it has: at least its head.
fn says(rest: &[u8]) -> usize {
    4 + rest.first_chunk().map_or(0, |&two| u16::from_le_bytes(two) as usize)
}

/// The step whose record these bytes are. Its numbers are read as each of the five has them, and what `write_step` makes of one must be the
/// bytes again: so the code of the fifth is 1.
fn step_of(piece: &[u8], written: &mut Vec<u8>) -> Option<Step> {
    let two = |at: usize| u16::from_le_bytes([0, 1].map(|i| piece.get(at + i).copied().unwrap_or(0)));
    let (first, second) = (two(4), two(6));
    let steps =
        [Step::Enter(first), Step::Leave, Step::Token(first, second as u8), Step::Error(first, second), Step::Expected(second, two(8))];
    steps.into_iter().find(|&step| {
        written.clear();
        write_step(written, step);
        written == piece && !matches!(step, Step::Token(_, raw) if raw == 0 || raw > 3)
    })
}

/// Which end of `Seen` a file has.
fn reason(file: &[u8], must: &Judged) -> usize {
    let (number, place, _) = must.said;
    let rest = &file[place..];
    match number {
        0 => 0,
        11 if rest.len() < 4 => 1,
        11 => 2,
        12 if rest[3] != 0 || !(1..=5).contains(&rest[2]) => 3,
        12 if rest[..3] == [3, 0, 3] => 5,
        12 if rest[..3] == [6, 0, 5] => 6,
        12 => 4,
        _ if file.is_empty() => 9,
        _ if rest.is_empty() => 10,
        _ if place == 0 => 7,
        _ => 8,
    }
}

/// What differs on one file, if anything. `rooms` is the seed of the rooms and of what stands in them.
pub fn differs(calls: Calls, file: &[u8], rooms: u64) -> Option<String> {
    compare(calls, file, &judge(file), &mut Rng::new(rooms), &mut 0).err()
}

fn compare(calls: Calls, file: &[u8], must: &Judged, rng: &mut Rng, made: &mut u64) -> Result<(), String> {
    let mut lent = Lent::new(file, rng, |n| n as u8);
    let (number, place, records) = must.said;
    *made += 3;
    // the whole file, with words behind the answer or none
    let mut answer = Lent::fresh(FILE + rng.below(3), rng, |n| n);
    let code = (calls.file)(lent.room(), answer.room());
    let now = answer.room_now();
    if (code, now[0], now[1]) != (number, place as u64, records as u64) {
        let said = format!("it says {code} at {} with {} records", now[0], now[1]);
        return Err(format!("read_file: {said} and must say {number} at {place} with {records}"));
    }
    must_be(answer.holds(&[place as u64, records as u64]), || "read_file: what stands beside the answer".to_string())?;
    // an answer room that is too short, for both calls
    for (name, call, most) in [("read_file", calls.file, FILE), ("read_step", calls.step, STEP)] {
        let words = rng.below(most);
        let mut answer = Lent::fresh(words, rng, |n| n);
        let code = call(lent.room(), answer.room());
        must_be(code == 100, || format!("{name}, {words} words for the answer: the number {code}"))?;
        must_be(answer.holds(&[]), || format!("{name}, {words} words for the answer: the answer room"))?;
    }
    walk(calls, &mut lent, must, rng, made)?;
    must_be(lent.holds(&[]), || "the file".to_string())
}

/// Walks a file step by step: each step, with the bytes that it takes, and what is said behind the last. A caller that judges the depths of
/// these steps must come to what is said of the whole file.
fn walk(calls: Calls, lent: &mut Lent<u8>, must: &Judged, rng: &mut Rng, made: &mut u64) -> Result<(), String> {
    let file = lent.room();
    let mut answer = Lent::fresh(STEP + rng.below(3), rng, |n| n);
    let (mut at, mut depth, mut verdict) = (0, 0u64, None);
    let filled = rng.next() | 1;
    for i in 0..=must.steps.len() {
        *made += 1;
        answer.room()[..STEP].fill(filled);
        let code = (calls.step)(&file[at..], answer.room());
        let wanted = match must.steps.get(i) {
            Some(&(_, taken, step)) => (0, words(taken, step)),
            None => (must.stops, [0; STEP]),
        };
        let got = &answer.room_now()[..STEP];
        if code != wanted.0 || got != wanted.1 {
            let must = format!("{} with {:?}", wanted.0, wanted.1);
            return Err(format!("read_step, step {i} at {at}: it says {code} with {got:?} and must say {must}"));
        }
        let (taken, kind) = (got[0] as usize, got[1]);
        // the first fault is the answer
        let fault = match (code, kind) {
            (0, 0) if i == 0 || depth > 0 => 13,
            (0, 0) => 0,
            (0, _) if depth == 0 && (i > 0 || kind == 2) => 13,
            (0, _) => 0,
            (code, _) => code,
        };
        if fault != 0 && verdict.is_none() {
            verdict = Some((fault, at, 0));
        }
        depth = if kind == 1 { depth + 1 } else { depth.saturating_sub((kind == 2) as u64) };
        at += taken;
    }
    let last: [u64; STEP] = answer.room_now()[..STEP].try_into().expect("six words");
    must_be(answer.holds(&last), || "read_step: what stands beside the answer".to_string())?;
    let verdict = verdict.unwrap_or((0, at, must.steps.len()));
    must_be(verdict == must.said, || format!("what the steps add up to, {verdict:?},"))
}

/// The answer to a step.
fn words(taken: usize, step: Step) -> [u64; STEP] {
    let numbers = match step {
        Step::Enter(kind) => [1, kind, 0, 0],
        Step::Leave => [2, 0, 0, 0],
        Step::Token(kind, raw) => [3, kind, raw as u16, 0],
        Step::Error(code, argument) => [4, code, argument, 0],
        Step::Expected(kind, found) => [5, 1, kind, found],
    };
    let [kind, first, second, third] = numbers.map(u64::from);
    [taken as u64, kind, first, second, third, 0]
}

fn must_be(good: bool, what: impl FnOnce() -> String) -> Result<(), String> {
    if good {
        return Ok(());
    }
    Err(format!("{} is not as it must be", what()))
}

/// Makes a file smaller as long as it is still a bad one: leaves out bytes, many at a time and then few, and sets bytes to 0.
pub fn smaller(mut file: Vec<u8>, bad: impl Fn(&[u8]) -> bool) -> Vec<u8> {
    loop {
        let before = file.clone();
        let mut size = file.len().next_power_of_two();
        // of a long file only large parts
        let least = if file.len() > 10_000 { size / 64 } else { 1 };
        while size >= least {
            let mut at = 0;
            while at < file.len() {
                let less = [&file[..at], &file[(at + size).min(file.len())..]].concat();
                if bad(&less) {
                    file = less;
                } else {
                    at += size;
                }
            }
            size /= 2;
        }
        if file.len() <= 400 {
            for at in 0..file.len() {
                let had = std::mem::replace(&mut file[at], 0);
                if had != 0 && !bad(&file) {
                    file[at] = had;
                }
            }
        }
        if file == before {
            return file;
        }
    }
}

/// A record, sound or not, of at most 16 bytes.
#[derive(Clone, Copy)]
pub struct Record {
    all: [u8; 16],
    length: usize,
}

impl Record {
    /// A head that says a length, and a payload that may have another.
    fn new(length: u16, kind: u16, payload: &[u8]) -> Record {
        let [[a, b], [c, d]] = [length.to_le_bytes(), kind.to_le_bytes()];
        Record::of(&[&[a, b, c, d], payload].concat())
    }

    fn of(bytes: &[u8]) -> Record {
        let mut all = [0; 16];
        all[..bytes.len()].copy_from_slice(bytes);
        Record { all, length: bytes.len() }
    }

    fn step(step: Step) -> Record {
        let mut file = Vec::with_capacity(10);
        write_step(&mut file, step);
        Record::of(&file)
    }

    fn bytes(&self) -> &[u8] {
        &self.all[..self.length]
    }
}

fn joined(records: &[Record]) -> Vec<u8> {
    let mut file = Vec::with_capacity(8 * records.len());
    records.iter().for_each(|record| file.extend(record.bytes()));
    file
}

pub fn split(file: &[u8]) -> Vec<Record> {
    cut(file).into_iter().map(|(_, piece)| Record::of(piece)).collect()
}

/// Every row of at most so many out of eighteen records, with none to three bytes behind it.
pub fn rows(most: u32, each: &mut dyn FnMut(&[u8])) {
    let alphabet: [Record; 18] = [
        Record::step(Step::Enter(40)),
        Record::step(Step::Leave),
        Record::step(Step::Token(50, 1)),
        Record::step(Step::Token(u16::MAX, 3)),
        Record::step(Step::Error(7, 300)),
        Record::step(Step::Error(1, 4)),
        Record::step(Step::Expected(4, 99)),
        Record::step(Step::Token(50, 0)),
        Record::step(Step::Token(50, 4)),
        Record::new(0, 0, &[]),
        Record::new(2, 257, &[40, 0]),
        Record::new(2, 2, &[0, 0]),
        Record::new(0, 1, &[]),
        // record kind 5 with another code, too short, too long, and cut: what stands behind it is taken for its payload
        Record::new(6, 5, &[2, 0, 4, 0, 99, 0]),
        Record::new(4, 5, &[1, 0, 4, 0]),
        Record::new(7, 5, &[1, 0, 4, 0, 99, 0, 0]),
        Record::new(6, 5, &[1, 0]),
        Record::new(u16::MAX, 9, &[]),
    ];
    let mut row = Vec::new();
    for length in 0..=most {
        for number in 0..alphabet.len().pow(length) {
            row.clear();
            let mut rest = number;
            for _ in 0..length {
                row.extend(alphabet[rest % alphabet.len()].bytes());
                rest /= alphabet.len();
            }
            // what stands behind it is the beginning of a leave
            for byte in [0, 0, 2, 0] {
                each(&row);
                row.push(byte);
            }
        }
    }
}

/// A sound record at random: one in eight of an extreme kind or code.
fn sound(rng: &mut Rng) -> Record {
    let number = |rng: &mut Rng| if rng.chance(1, 8) { *rng.pick(&[0, 255, 256, u16::MAX]) } else { rng.below(203) as u16 };
    let first = number(rng);
    Record::step(match rng.below(5) {
        0 => Step::Enter(first),
        1 => Step::Leave,
        2 => Step::Token(first, 1 + rng.below(3) as u8),
        3 if rng.chance(1, 4) => Step::Error(1, first),
        3 => Step::Error(first, number(rng)),
        _ => Step::Expected(first, number(rng)),
    })
}

/// A record that is not sound, in most cases: another raw count, code, kind or length, or a length that its payload has not. Half of the
/// payloads begin with code 1.
fn unsound(rng: &mut Rng) -> Record {
    let mut payload: [u8; 8] = rng.next().to_le_bytes();
    if rng.chance(1, 2) {
        payload[..2].copy_from_slice(&[1, 0]);
    }
    let kind = 1 + rng.below(5) as u16;
    let length = rng.below(9);
    let has = &payload[..length];
    match rng.below(7) {
        0 => Record::step(Step::Token(kind, *rng.pick(&[0, 4, 5, 128, 255]))),
        1 => {
            let [low, high] = u16::to_le_bytes(*rng.pick(&[0, 2, 2, 3, 255, 256, 257, 512, u16::MAX]));
            Record::new(6, 5, &[&[low, high], &payload[2..6]].concat())
        }
        2 => Record::new(length as u16, *rng.pick(&[0, 6, 7, 255, 256, 257, 258, 259, 260, 261, 512, u16::MAX]), has),
        3 => Record::new(length as u16, kind, has),
        4 => Record::new(256 + [0, 2, 0, 3, 4, 6][kind as usize], kind, has),
        5 => Record::new(rng.next() as u16, kind, has),
        _ => Record::new(rng.below(12) as u16, rng.below(8) as u16, has),
    }
}

/// A good file of at most so many records, above two: a tree, or now and then a lone token or error.
fn tree(rng: &mut Rng, most: usize) -> Vec<Record> {
    let leaf = |rng: &mut Rng| loop {
        let record = sound(rng);
        if record.all[2] > 2 {
            return record;
        }
    };
    if rng.chance(1, 16) {
        return vec![leaf(rng)];
    }
    let enter = |rng: &mut Rng| Record::step(Step::Enter(rng.below(203) as u16));
    let (mut records, mut depth) = (vec![enter(rng)], 1);
    while depth > 0 && records.len() + depth < most {
        records.push(match rng.below(8) {
            0..=2 if records.len() + depth + 1 < most => {
                depth += 1;
                enter(rng)
            }
            3..=4 if depth > 1 => {
                depth -= 1;
                Record::step(Step::Leave)
            }
            _ => leaf(rng),
        });
    }
    records.resize(records.len() + depth, Record::step(Step::Leave));
    records
}

/// A file at random: good, or with up to three faults.
pub fn any(samples: &[Vec<Record>], rng: &mut Rng) -> Vec<u8> {
    let mut records = match rng.below(256) {
        0 => tree(rng, 2_000),
        1 => {
            let deep = if rng.chance(1, 2) { 253 + rng.below(6) } else { 1 + rng.below(300) };
            [[Step::Enter(40)].repeat(deep), [Step::Leave].repeat(deep)].concat().into_iter().map(Record::step).collect()
        }
        2..=9 => rng.pick(samples).clone(),
        10..=39 => (0..rng.below(8)).map(|_| if rng.chance(1, 4) { unsound(rng) } else { sound(rng) }).collect(),
        _ => {
            let most = 3 + rng.below(40);
            tree(rng, most)
        }
    };
    let faults = rng.below(4);
    let of_bytes = rng.below(faults + 1);
    for _ in of_bytes..faults {
        damage(&mut records, samples, rng);
    }
    let mut file = joined(&records);
    for _ in 0..of_bytes {
        damage_bytes(&mut file, rng);
    }
    file
}

/// One fault among the records.
fn damage(records: &mut Vec<Record>, samples: &[Vec<Record>], rng: &mut Rng) {
    let (at, to) = (rng.below(records.len() + 1), rng.below(records.len() + 1));
    let within = at < records.len();
    match rng.below(9) {
        0 if within && to < records.len() => records.swap(at, to),
        1 if within => records.insert(to, records[at]),
        2 if within => drop(records.remove(at)),
        3 => records.insert(at, sound(rng)),
        4 => records.insert(at, unsound(rng)),
        5 if within => records[at] = if rng.chance(1, 2) { sound(rng) } else { unsound(rng) },
        // cut between two records
        6 => records.truncate(at),
        // two files, one behind the other
        7 if rng.chance(1, 32) => records.extend(rng.pick(samples)),
        7 => records.extend(tree(rng, 12)),
        _ => {
            let (from, to) = (at.min(to), at.max(to));
            records[from..to].reverse();
        }
    }
}

/// One fault among the bytes.
fn damage_bytes(file: &mut Vec<u8>, rng: &mut Rng) {
    let at = rng.below(file.len() + 1);
    let within = at < file.len();
    match rng.below(8) {
        0..=1 if within => file[at] ^= 1 << rng.below(8),
        2 if within => file[at] = rng.next() as u8,
        3 if within => file[at] = *rng.pick(&[0, 1, 2, 3, 4, 5, 6, 255]),
        4..=5 => file.truncate(at),
        6 => drop(file.splice(at..(at + 1 + rng.below(4)).min(file.len()), [])),
        _ => {
            let more = rng.next().to_le_bytes();
            let more = if rng.chance(1, 2) { [0; 8] } else { more };
            let count = 1 + rng.below(8);
            drop(file.splice(at..at, more[..count].iter().copied()));
        }
    }
}

/// Long files: nodes as deep as 16 bits count, and around it; more bytes than any parse makes; the longest payload, whole and cut.
pub fn limits() -> Vec<Vec<u8>> {
    let (enter, leave) = (Record::step(Step::Enter(40)), Record::step(Step::Leave));
    let leaves = [Step::Token(50, 3), Step::Error(u16::MAX, u16::MAX), Step::Expected(u16::MAX, u16::MAX)].map(Record::step);
    let mut all = Vec::new();
    for deep in [255, 256, 257, 65_535, 65_536, 65_537] {
        for closed in [0, deep - 1, deep, deep + 1] {
            all.push(joined(&[vec![enter; deep], vec![leave; closed]].concat()));
        }
    }
    for one in leaves {
        all.push(joined(&[vec![enter], vec![one; 200_000], vec![leave]].concat()));
        all.push(joined(&[vec![enter], vec![one; 200_000]].concat()));
        all.push(joined(&[vec![enter], vec![one; 70_000], vec![Record::step(Step::Token(1, 4))], vec![leave]].concat()));
    }
    for kind in 0..=6 {
        for payload in [65_534, 65_535, 65_536] {
            all.push([Record::new(u16::MAX, kind, &[]).bytes(), &vec![0; payload]].concat());
        }
    }
    all
}
