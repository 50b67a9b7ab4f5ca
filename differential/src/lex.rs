//! The port's lexing against the second lexer, on all short texts, programs, damaged ones, random bytes and texts at the limit: numbers,
//! places, counts, and every word that is lent. And the way from text to steps: what it leaves goes to the port's parse and resolution, which
//! must make the crate's steps of the second lexer's tokens.

use crate::files::smaller;
use crate::lent::Lent;
use crate::port;
use answer::{kinds, Ev, ENTRIES};
use differential::case::Case;
use differential::rng::Rng;
use differential::{found, generate, replay, text, texts};
use lexer::Said;

/// The call: text, kinds, joint words, list, answer. `wrong_lex.rs` has others in the place of the port's.
pub type Lex<'a> = &'a dyn Fn(&[u8], &mut [u16], &mut [u64], &mut [u32], &mut [u64]) -> u32;

/// The numbers that a call can say.
const CODES: [u32; 4] = [0, 14, 15, 100];

/// Compares the samples, the cases with a name, all texts of at most two bytes, all of at most five telling bytes, `count` random texts and those
/// at the limit; true where nothing differs.
pub fn run(count: u64, seed: u64) -> bool {
    let samples = texts::samples();
    let mut seen = Seen::default();
    let mut good = named() && of_samples(&samples);
    let bytes: Vec<u8> = (0..=255).collect();
    for (alphabet, lengths, share) in [(&bytes[..], 0..=1, 1), (&bytes, 2..=2, 8), (texts::TELLING, 3..=5, 64)] {
        for length in lengths {
            texts::short(alphabet, length, &mut |text| {
                let rooms = if seen.texts % share == 0 { Rooms::All } else { Rooms::Enough };
                seen.look(text, rooms, seen.texts)
            });
        }
    }
    let short = seen.texts;
    let programs: Vec<Vec<u8>> = samples.iter().map(|sample| sample.text.clone()).collect();
    for text in texts::NAMED.iter().map(|(text, ..)| *text).chain(programs.iter().map(Vec::as_slice)) {
        seen.look(text, Rooms::All, seed);
        seen.look_at_steps(text, seed);
    }
    for case in 0..count {
        let mut rng = Rng::of(seed, case);
        let (sort, text) = texts::random(&programs, &mut rng);
        seen.sorts[sort] += 1;
        seen.look(&text, if rng.chance(1, 4) { Rooms::All } else { Rooms::Enough }, rng.next());
        if rng.chance(1, if sort < 2 { 4 } else { 32 }) {
            seen.look_at_steps(&text, rng.next());
        }
    }
    let limits = limits(seed);
    for text in &limits {
        seen.look(text, Rooms::All, seed);
        if text.len() <= generate::TOKENS + 1 {
            seen.look_at_steps(text, seed);
        }
    }
    println!(
        "differential: the lexer on {count} random texts from seed {seed}, all {short} short ones, {} with a name, {} samples and {} at the \
         limit: {} calls, {} differ",
        texts::NAMED.len(),
        samples.len(),
        limits.len(),
        seen.codes.iter().sum::<u64>(),
        seen.differing
    );
    let said: Vec<String> = CODES.iter().zip(seen.codes).map(|(code, times)| format!("{code} {times}")).collect();
    let sorts: Vec<String> = texts::SORTS.iter().zip(seen.sorts).map(|(sort, times)| format!("{times} {sort}")).collect();
    println!(
        "differential: {}; numbers said: {}; {} tokens of {} kinds, {} joint; from {} texts {} parses to steps, {} to refusals",
        sorts.join(", "),
        said.join(", "),
        seen.tokens.iter().sum::<u64>(),
        seen.tokens.iter().filter(|&&times| times > 0).count(),
        seen.joint,
        seen.parsed[2],
        seen.parsed[0],
        seen.parsed[1]
    );
    let unseen = lexer::KINDS.iter().find(|(_, number)| seen.tokens.get(*number as usize).is_none_or(|&times| times == 0));
    let missed = seen.codes.contains(&0) || seen.parsed.contains(&0) || unseen.is_some() || (count >= 1_000 && seen.sorts.contains(&0));
    if missed {
        println!("differential: the texts miss one of these, {unseen:?}");
        good = false;
    }
    good && seen.differing == 0
}

/// The cases with a name, as they are written.
fn named() -> bool {
    let mut good = true;
    for &(of, all, must) in texts::NAMED {
        let (kinds, joints, count) = lexed(of);
        let said = text::names(&kinds, |i| joints[i / 64] >> (i % 64) & 1 == 1);
        if (count, said.as_str()) != (all, must) {
            println!("differential: the lexer on \"{}\": {count} tokens, {said}", of.escape_ascii());
            good = false;
        }
    }
    good
}

/// The samples that have tokens written beside them.
fn of_samples(samples: &[texts::Sample]) -> bool {
    let (mut good, mut compared) = (true, 0);
    for sample in samples {
        let Some(must) = &sample.tokens else { continue };
        let (kinds, joints, _) = lexed(&sample.text);
        compared += 1;
        if let Some(fault) = texts::sample_differs(must, &kinds, |i| joints[i / 64] >> (i % 64) & 1 == 1) {
            println!("differential: the lexer on the sample {}: {fault}", sample.name);
            good = false;
        }
    }
    println!("differential: {compared} samples have the tokens that are written{}", if good { "" } else { ", or not" });
    good
}

/// What the port says of a text: kinds, joint words, and how many tokens there are in all.
fn lexed(text: &[u8]) -> (Vec<u16>, Vec<u64>, usize) {
    let bytes = text.len();
    let (mut kinds, mut joints, mut tokens, mut answer) = (vec![0; bytes], vec![0; bytes.div_ceil(64)], vec![0; 2 * bytes], [0; 2]);
    port::lex(text, &mut kinds, &mut joints, &mut tokens, &mut answer);
    kinds.truncate(answer[1] as usize);
    (kinds, joints, answer[0] as usize)
}

/// Which rooms a text is given.
#[derive(Clone, Copy, PartialEq)]
pub enum Rooms {
    /// rooms that suffice
    Enough,
    /// also those that do not
    All,
}

/// What the texts were.
#[derive(Default)]
pub struct Seen {
    texts: u64,
    /// the random ones, in the order of `texts::SORTS`
    sorts: [u64; texts::SORTS.len()],
    /// the calls by what they say, in the order of `CODES`
    codes: [u64; 4],
    /// the tokens by kind, and those that are joint
    tokens: Vec<u64>,
    joint: u64,
    /// parses that were done, those that were refused, and the texts that they were of
    parsed: [u64; 3],
    differing: u64,
}

impl Seen {
    fn look(&mut self, text: &[u8], rooms: Rooms, seed: u64) {
        self.texts += 1;
        if let Err(fault) = compare(&port::lex, text, rooms, &mut Rng::new(seed), self) {
            self.tell(text, fault, |text| differs(&port::lex, text, rooms, seed));
        }
    }

    fn look_at_steps(&mut self, text: &[u8], seed: u64) {
        if let Err(fault) = steps(text, &mut Rng::new(seed), self) {
            self.tell(text, fault, |text| steps(text, &mut Rng::new(seed), &mut Seen::default()).err());
        }
    }

    /// The first few are told with a text as small as one can be made by leaving bytes out.
    fn tell(&mut self, text: &[u8], fault: String, differs: impl Fn(&[u8]) -> Option<String>) {
        self.differing += 1;
        if self.differing > 5 {
            return;
        }
        let small = if text.len() > 2_000 { text.to_vec() } else { smaller(text.to_vec(), |text| differs(text).is_some()) };
        let said = differs(&small).unwrap_or(fault);
        let shown = &small[..small.len().min(200)];
        println!("differential: the lexer on {} bytes, \"{}\": {said}", small.len(), shown.escape_ascii());
    }

    fn count(&mut self, said: &Said) {
        self.tokens.resize(kinds().len(), 0);
        said.tokens.iter().step_by(2).for_each(|&kind| self.tokens[kind as usize] += 1);
        self.joint += said.joint.iter().filter(|&&joint| joint).count() as u64;
    }
}

/// What differs on one text, if anything. `seed` is that of the rooms and of what stands in them.
pub fn differs(lex: Lex, text: &[u8], rooms: Rooms, seed: u64) -> Option<String> {
    compare(lex, text, rooms, &mut Rng::new(seed), &mut Seen::default()).err()
}

fn compare(lex: Lex, text: &[u8], rooms: Rooms, rng: &mut Rng, seen: &mut Seen) -> Result<(), String> {
    let said = lexer::said(text);
    seen.count(&said);
    let need = [said.kinds.len(), said.kinds.len().div_ceil(64), said.tokens.len()];
    let mut one = |rooms: [usize; 3], answers: usize, rng: &mut Rng| one(lex, text, &said, rooms, answers, rng, seen);
    let more = |rng: &mut Rng| [0, 1, 2].map(|i| need[i] + if rng.chance(1, 2) { 0 } else { rng.below(5) });
    let (enough, answers) = (more(rng), 2 + rng.below(3));
    one(enough, answers, rng)?;
    if rooms == Rooms::Enough {
        return Ok(());
    }
    one(need, 2, rng)?;
    // a token for each byte, and one less
    for bytes in [text.len(), text.len().saturating_sub(1)] {
        one([bytes, bytes.div_ceil(64), 2 * bytes], 3, rng)?;
    }
    // one room smaller than it must be, by one, two and all
    for (i, less) in (0..3).flat_map(|i| [1, 2, usize::MAX].map(|less| (i, less))) {
        let (mut rooms, answers) = (more(rng), 2 + rng.below(3));
        rooms[i] = need[i].saturating_sub(less);
        one(rooms, answers, rng)?;
    }
    // any, and an odd list
    let any = need.map(|n| rng.below(n + 3));
    one(any, 2 + rng.below(2), rng)?;
    one([enough[0], enough[1], need[2] + 1], 2, rng)?;
    one([enough[0], enough[1], need[2].saturating_sub(1)], 3, rng)?;
    // no answer, with rooms that suffice and others
    for answers in [0, 1] {
        one(enough, answers, rng)?;
        one(any, answers, rng)?;
    }
    Ok(())
}

/// Makes one call and looks at everything that was lent.
fn one(lex: Lex, of: &[u8], said: &Said, rooms: [usize; 3], answers: usize, rng: &mut Rng, seen: &mut Seen) -> Result<(), String> {
    let (must, words) = said.answer(of.len(), rooms[0], rooms[1], rooms[2], answers);
    seen.codes[CODES.iter().position(|&code| code == must).expect("a number of the rules")] += 1;
    let mut text = Lent::new(of, rng, |n| n as u8);
    let mut kinds = Lent::fresh(rooms[0], rng, |n| n as u16);
    let mut joints = Lent::fresh(rooms[1], rng, |n| n ^ n << 32);
    let mut tokens = Lent::fresh(rooms[2], rng, |n| n as u32);
    let mut answer = Lent::fresh(answers, rng, |n| n);
    let code = lex(text.room(), kinds.room(), joints.room(), tokens.room(), answer.room());
    let fault = |what: &str| {
        let [kinds, joints, tokens] = rooms;
        Err(format!("in rooms of {kinds} kinds, {joints} joint words, {tokens} list words and {answers} for the answer: {what}"))
    };
    let now = &answer.room_now()[..words.len()];
    if code != must || now != words {
        return fault(&format!("it says {code} {now:?} and must say {must} {words:?}"));
    }
    if !answer.holds(&words) {
        return fault("what stands behind the answer is not as it was");
    }
    if !text.holds(&[]) {
        return fault("the text is not as it was");
    }
    if must != 0 {
        let kept = kinds.holds(&[]) && joints.holds(&[]) && tokens.holds(&[]);
        return if kept { Ok(()) } else { fault("it refuses and the rooms are not as they were") };
    }
    if !tokens.holds(&said.tokens) {
        return fault(&differing("the list", &tokens.room_now()[..said.tokens.len()], &said.tokens));
    }
    if !kinds.holds(&said.kinds) {
        return fault(&differing("the kinds", &kinds.room_now()[..said.kinds.len()], &said.kinds));
    }
    let count = said.kinds.len().div_ceil(64);
    let words = said.joints(if count > 0 { joints.was()[count - 1] } else { 0 });
    if !joints.holds(&words) {
        return fault(&differing("the joint words", &joints.room_now()[..count], &words));
    }
    Ok(())
}

/// Where a room has another word than it must, or where what stands beside it has changed.
fn differing<T: PartialEq + std::fmt::LowerHex>(what: &str, now: &[T], must: &[T]) -> String {
    match (0..must.len()).find(|&i| now[i] != must[i]) {
        Some(i) => format!("word {i} of {what} is {:#x} and must be {:#x}", now[i], must[i]),
        None => format!("{what}: something behind or beside them is not as it was"),
    }
}

/// From text to steps: what the port's lexing leaves, with the joint bits behind the last token as they were, goes to the port's parse, and the
/// list to its resolution. All must be as the crate has it on the second lexer's tokens.
fn steps(text: &[u8], rng: &mut Rng, seen: &mut Seen) -> Result<(), String> {
    let said = lexer::said(text);
    let count = said.kinds.len();
    let (mut kinds, mut joints) = (vec![0; count], vec![rng.next(); count.div_ceil(64)]);
    let (mut tokens, mut answer) = (vec![0; said.tokens.len()], [0; 2]);
    if port::lex(text, &mut kinds, &mut joints, &mut tokens, &mut answer) != 0 {
        return Err("it is not lexed".to_string());
    }
    seen.parsed[2] += 1;
    for entry in ENTRIES {
        let fault = |what: &str| Err(format!("parsed as {}: {what}", entry.name()));
        let case = Case::new(entry, said.kinds.clone(), said.joints(0));
        let mut room = vec![7; if rng.chance(1, 16) { replay::LARGEST } else { 12 * count + rng.below(64) }];
        let must = replay::parse(&case, 0, room.len());
        let (events, lookups) = must.run.as_ref().map_or((0, 0), |run| (run.events as u64, run.lookups));
        let mut answer = [7; 3];
        let code = port::parse(entry as u32, 0, &kinds, &joints, &mut room, &mut answer);
        if (code, answer) != (must.code as u32, [must.place as u64, events, lookups]) {
            return fault(&format!("it says {code} {answer:?} and must say {} {:?}", must.code, [must.place as u64, events, lookups]));
        }
        let Some(run) = must.run else {
            seen.parsed[1] += 1;
            continue;
        };
        let list = &mut room[..Ev::WORDS * events as usize];
        if found::with(&said.kinds, &run.words) != *list {
            return fault("its list is not the crate's");
        }
        let mut file = vec![0; run.steps.len() + 2 * found::count(list)];
        let mut place = [0];
        let code = port::resolve(list, &mut file, &mut place);
        if (code, place[0], &found::steps_without(&file)) != (0, file.len() as u64, &run.steps) {
            return fault("its steps are not the crate's, but for what was found");
        }
        if let Some((number, found, must)) = found::wrong_step(&said.kinds, &file) {
            return fault(&format!("record {number} of its steps has found {found:?} and must have found {must}"));
        }
        seen.parsed[0] += 1;
    }
    Ok(())
}

/// Texts of as many bytes as there may be, one less, one more, and far more; and as many tokens as a parse takes, and one more.
pub fn limits(seed: u64) -> Vec<Vec<u8>> {
    let mut rng = Rng::new(seed);
    let mut all = Vec::new();
    for bytes in [lexer::MOST - 1, lexer::MOST, lexer::MOST + 1] {
        all.extend(texts::long(bytes, &mut rng));
    }
    for bytes in [70_000, 2 * lexer::MOST, 2 * lexer::MOST + 3] {
        all.extend([&b"a "[..], b"/*", b" "].map(|piece| texts::repeated(piece, bytes)));
    }
    all.push(texts::repeated(b"a", 1 << 22));
    for tokens in [generate::TOKENS, generate::TOKENS + 1] {
        all.push(texts::repeated(b";", tokens));
    }
    all
}
