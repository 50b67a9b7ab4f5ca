//! The port's check and resolution against the crate's `process` and the rules, on short, random and very long lists of events: numbers,
//! places, and every word and byte that is lent. What an error has found is carried around `process`.

use crate::lent::Lent;
use crate::port;
use answer::{Ev, EXPECTED, FAULT, START};
use differential::case::numbers;
use differential::lists::{self, words};
use differential::replay::process;
use differential::rng::Rng;
use oq3_parser::entries::LAST;

/// The two calls. `wrong.rs` has others in the place of the port's.
#[derive(Clone, Copy)]
pub struct Calls {
    pub check: fn(&[u32], &mut [u64]) -> u32,
    pub resolve: fn(&mut [u32], &mut [u8], &mut [u64]) -> u32,
}

pub const PORT: Calls = Calls { check: port::check, resolve: port::resolve };

/// Compares every short list, `count` random lists and those at the limits; true where nothing differs.
pub fn run(count: u64, seed: u64) -> bool {
    let mut seen = Seen::default();
    let short = if count < 100_000 { 4 } else { 5 };
    for length in 0..=short {
        every(length, &mut |words| seen.look(PORT, words, 0));
    }
    let (shorts, mut rng) = (seen.lists, Rng::new(seed));
    for _ in 0..count {
        let (words, rooms) = (any(&mut rng), rng.next());
        seen.look(PORT, &words, rooms);
    }
    let randoms = seen.lists - shorts;
    for words in limits(&mut rng) {
        seen.look(PORT, &words, rng.next());
    }
    let [done, two, odd, none, second, distance, below, open] = seen.ends;
    println!(
        "differential: the port on {randoms} random lists of events from seed {seed}, all {shorts} of at most {short} events and {} at the \
         limits: {} calls, {} differ",
        seen.lists - shorts - randoms,
        seen.calls,
        seen.differing
    );
    println!(
        "differential: {done} well formed ({} with kinds that the crate has not, {} with what an error has found, {} with chains that meet, a \
         chain of {} the longest), {two} too long, {odd} odd, {none} with no event, {second} with too large an argument, {distance} with a \
         distance that lands on no start, {below} below zero, {open} left open",
        seen.foreign, seen.found, seen.meeting, seen.longest
    );
    // fewer lists may miss one by chance
    let missed = count >= 5_000 && (seen.ends.contains(&0) || seen.foreign == 0 || seen.found == 0 || seen.meeting == 0);
    if missed {
        println!("differential: the lists miss one of these");
    }
    seen.differing == 0 && !missed
}

/// What the lists were.
#[derive(Default)]
struct Seen {
    lists: u64,
    calls: u64,
    differing: u64,
    /// well formed; refused for the number of events, an odd word, two words that are no event, those of an error whose code has no kind found
    /// and whose second word is too large, a distance, a depth below zero, a depth above zero at the end
    ends: [u64; 8],
    /// of those well formed: with a kind that the crate has not, with a kind found, with two starts that point to one
    foreign: u64,
    found: u64,
    meeting: u64,
    longest: usize,
}

impl Seen {
    fn look(&mut self, calls: Calls, words: &[u32], rooms: u64) {
        self.lists += 1;
        self.note(words);
        let (fault, made) = differs(calls, words, rooms);
        self.calls += made;
        let Some(fault) = fault else { return };
        self.differing += 1;
        // the first few are told with a list as small as one can be made by leaving events out
        if self.differing <= 5 {
            let small = smaller(words.to_vec(), |w| differs(calls, w, rooms).0.is_some());
            let said = differs(calls, &small, rooms).0.unwrap_or(fault);
            let shown = numbers(&small[..small.len().min(80)]);
            println!("differential: the port on {} words, {shown}{}: {said}", small.len(), if small.len() > 80 { ".." } else { "" });
        }
    }

    fn note(&mut self, words: &[u32]) {
        let end = match lists::check(words) {
            Ok(_) => {
                let list = lists::events(words).expect("events");
                self.foreign += list.iter().any(|&e| beyond(e)) as u64;
                self.found += list.iter().any(|e| matches!(e, Ev::Error(EXPECTED, _, 1..))) as u64;
                let (longest, meet) = chains(&list);
                self.longest = self.longest.max(longest);
                self.meeting += meet as u64;
                0
            }
            Err((2, _)) => 1,
            Err(_) if words.len() % 2 != 0 => 2,
            Err((_, at)) if Ev::WORDS * at == words.len() => 7,
            Err((_, at)) => match Ev::of(words[Ev::WORDS * at], words[Ev::WORDS * at + 1]) {
                Some(Ev::Start(..)) => 5,
                Some(_) => 6,
                None if words[Ev::WORDS * at] / 65_536 == 4 => 4,
                None => 3,
            },
        };
        self.ends[end] += 1;
    }
}

/// A kind that the crate's enum cannot hold.
fn beyond(event: Ev) -> bool {
    matches!(event, Ev::Start(kind, _) | Ev::Token(kind, _) if kind > LAST)
}

/// How many starts the longest chain of a well-formed list has, and whether two starts point to one.
fn chains(list: &[Ev]) -> (usize, bool) {
    let (mut length, mut pointed) = (vec![0usize; list.len()], vec![0u8; list.len()]);
    for (i, &event) in list.iter().enumerate().rev() {
        let Ev::Start(_, distance) = event else { continue };
        length[i] = 1;
        if distance != 0 {
            let to = i + distance as usize;
            length[i] += length[to];
            pointed[to] = pointed[to].saturating_add(1);
        }
    }
    (length.into_iter().max().unwrap_or(0), pointed.into_iter().any(|n| n > 1))
}

/// What differs on one list, if anything, and how many calls were made. `rooms` is the seed of the rooms and of what stands in them.
pub fn differs(calls: Calls, words: &[u32], rooms: u64) -> (Option<String>, u64) {
    let mut rng = Rng::new(rooms);
    let mut made = 0;
    let fault = compare(calls, words, &mut rng, &mut made).err();
    (fault, made)
}

fn compare(calls: Calls, words: &[u32], rng: &mut Rng, made: &mut u64) -> Result<(), String> {
    let said = lists::check(words);
    let must = match said {
        Ok(count) => (0, count),
        Err(refusal) => refusal,
    };
    let answers = 1 + rng.below(3);
    *made += 2;
    check(calls, words, answers, must, rng)?;
    check(calls, words, 0, (100, 0), rng)?;
    let Ok(count) = said else {
        for room in [0, rng.below(300)] {
            *made += 1;
            resolve(calls, words, room, answers, must, None, rng)?;
        }
        return Ok(());
    };
    // the rules' steps are the crate's, where the crate can hold the list
    let file = lists::steps(words);
    match process(words) {
        Some(Ok(crates)) if crates == file => {}
        None if lists::events(words).is_some_and(|list| list.into_iter().any(beyond)) => {}
        other => return Err(format!("the crate and the rules differ: {other:?}")),
    }
    let left = [START, 0].repeat(count);
    let need = file.len();
    let (more, random, twice) = (need + 1 + rng.below(40), rng.below(need + 1), rng.below(2 * need + 20));
    for room in [need, need.saturating_sub(1), 0, more, random, twice] {
        *made += 1;
        if room < need {
            resolve(calls, words, room, answers, (10, need), None, rng)?;
        } else {
            resolve(calls, words, room, answers, (0, need), Some((&left, &file)), rng)?;
        }
    }
    *made += 1;
    resolve(calls, words, more, 0, (100, 0), None, rng)
}

/// One check, with that many words for the answer.
fn check(calls: Calls, words: &[u32], answers: usize, must: (u8, usize), rng: &mut Rng) -> Result<(), String> {
    let mut list = Lent::new(words, rng, |n| n as u32);
    let mut answer = Lent::fresh(answers, rng, |n| n);
    let code = (calls.check)(list.room(), answer.room());
    let call = format!("check, {answers} words for the answer");
    answered(&call, code, &answer, must)?;
    same(&call, "the list", list.holds(&[]))
}

/// One resolution, with a room of that many bytes; `done` is the list that it must leave and the steps, where it is done.
fn resolve(
    calls: Calls,
    words: &[u32],
    bytes: usize,
    answers: usize,
    must: (u8, usize),
    done: Option<(&[u32], &[u8])>,
    rng: &mut Rng,
) -> Result<(), String> {
    let mut list = Lent::new(words, rng, |n| n as u32);
    let mut room = Lent::fresh(bytes, rng, |n| n as u8);
    let mut answer = Lent::fresh(answers, rng, |n| n);
    let code = (calls.resolve)(list.room(), room.room(), answer.room());
    let call = format!("resolve, {bytes} bytes, {answers} words for the answer");
    answered(&call, code, &answer, must)?;
    let (left, file) = done.unwrap_or((&[], &[]));
    same(&call, "the list", list.holds(left))?;
    same(&call, "the step room", room.holds(file))
}

/// The number, and the place in the first word of the answer with nothing else of it changed.
fn answered(call: &str, code: u32, answer: &Lent<u64>, must: (u8, usize)) -> Result<(), String> {
    let place = answer.room_now().first().copied();
    if code != must.0 as u32 || place.is_some_and(|p| p != must.1 as u64) {
        let said = place.map_or(String::new(), |p| format!(" at {p}"));
        return Err(format!("{call}: it says {code}{said} and must say {} at {}", must.0, must.1));
    }
    let first: Vec<u64> = place.into_iter().collect();
    same(call, "what stands behind the place", answer.holds(&first))
}

fn same(call: &str, what: &str, good: bool) -> Result<(), String> {
    if good {
        return Ok(());
    }
    Err(format!("{call}: {what} is not as it must be"))
}

/// Makes a list smaller as long as it is still a bad one: leaves out events, many at a time and then few, sets distances to 0, and leaves
/// out two events, as a start and its finish.
pub fn smaller(mut words: Vec<u32>, bad: impl Fn(&[u32]) -> bool) -> Vec<u32> {
    let better = |words: &mut Vec<u32>, less: Vec<u32>| {
        let good = bad(&less);
        if good {
            *words = less;
        }
        good
    };
    loop {
        let before = words.clone();
        let mut size = words.len().next_power_of_two();
        // of a long list only large parts
        let least = if words.len() > 10_000 { size / 64 } else { 2 };
        while size >= least {
            let mut at = 0;
            while at < words.len() {
                let less = [&words[..at], &words[(at + size).min(words.len())..]].concat();
                if !better(&mut words, less) {
                    at += size;
                }
            }
            size /= 2;
        }
        if words.len() <= 400 {
            for at in (1..words.len()).step_by(2) {
                let less = [&words[..at], &[0], &words[at + 1..]].concat();
                better(&mut words, less);
            }
            let mut first = 0;
            while first < words.len() {
                let found = (first + 2..words.len() - 1).step_by(2).any(|second| {
                    let less = [&words[..first], &words[first + 2..second], &words[second + 2..]].concat();
                    better(&mut words, less)
                });
                first += if found { 0 } else { 2 };
            }
        }
        if words == before {
            return words;
        }
    }
}

/// Every list of a length over a few events and two pairs of words that are none.
fn every(length: usize, each: &mut dyn FnMut(&[u32])) {
    let alphabet: [[u32; 2]; 12] = [
        Ev::Start(0, 0).words(),
        Ev::Start(0, 1).words(),
        Ev::Start(40, 0).words(),
        Ev::Start(41, 1).words(),
        Ev::Start(42, 2).words(),
        Ev::Start(LAST + 1, 3).words(),
        Ev::Finish.words(),
        Ev::Token(50, 2).words(),
        Ev::Error(7, 300, 0).words(),
        Ev::Error(EXPECTED, 4, 99).words(),
        [START, 1 << 31],
        [FAULT + 2, 65_536],
    ];
    for number in 0..alphabet.len().pow(length as u32) {
        let (mut rest, mut words) = (number, Vec::with_capacity(Ev::WORDS * length));
        for _ in 0..length {
            words.extend(alphabet[rest % alphabet.len()]);
            rest /= alphabet.len();
        }
        each(&words);
    }
}

/// A word at the edges of what is an event, or of 32 bits.
fn edge(rng: &mut Rng) -> u32 {
    let near = *rng.pick(&[0, 65_536, 131_072, 196_608, 262_144, 327_680, 1 << 31]);
    (near + rng.below(9) as u32).wrapping_sub(4)
}

/// The words of an error: of code 1 with any second word, or of any code with an argument of 16 bits.
fn error(rng: &mut Rng) -> [u32; 2] {
    if rng.chance(1, 2) {
        let any = rng.next() as u32;
        return [FAULT + EXPECTED as u32, *rng.pick(&[0, 65_535, 65_536, 65_537, u32::MAX - 65_535, u32::MAX, any, any])];
    }
    [FAULT + rng.below(65_536) as u32, rng.below(65_536) as u32]
}

/// A list at random: as `lists::any` makes them, of the crate's kinds or of any 16 bits; longer chains; errors of all codes and arguments,
/// and with any kind found; one with a second word that its code has not; words at the edges; a word too many or too few.
pub fn any(rng: &mut Rng) -> Vec<u32> {
    let kinds = if rng.chance(1, 4) { u16::MAX } else { LAST };
    let mut list = match rng.below(40) {
        0 => words(&lists::chained(rng, kinds, 3_000)),
        1 => words(&lists::made(rng, kinds, 3_000)),
        _ => lists::any(rng, kinds),
    };
    if rng.chance(1, 4) {
        for pair in list.chunks_exact_mut(2).filter(|pair| pair[0] / 65_536 == 4) {
            pair.copy_from_slice(&error(rng));
        }
    }
    if rng.chance(1, 20) && list.len() > 1 {
        let at = Ev::WORDS * rng.below(list.len() / Ev::WORDS);
        let code = *rng.pick(&[0, 2, 2, 3, 257, u16::MAX]);
        list[at..at + 2].copy_from_slice(&[FAULT + code as u32, *rng.pick(&[65_536, 65_536, 65_537, 131_072, u32::MAX])]);
    }
    if rng.chance(1, 10) && !list.is_empty() {
        let at = rng.below(list.len());
        list[at] = edge(rng);
    }
    match rng.below(40) {
        0 => drop(list.pop()),
        1 => list.push(edge(rng)),
        _ => {}
    }
    list
}

/// Lists at the limits: of about 65,536 events and of more, and with distances that land on a start again where a number of events, words
/// or bytes wraps around.
fn limits(rng: &mut Rng) -> Vec<Vec<u32>> {
    use Ev::{Error, Finish, Start, Token};
    const MOST: usize = 65_536;
    let bare = |count| vec![Start(0, 0); count];
    let with = |count, last| [bare(count - 1), vec![last]].concat();
    // every start points to the last one
    let fan = |kind, starts: usize| {
        let mut list: Vec<Ev> = (0..starts).map(|i| Start(kind, (starts - 1 - i) as u32)).collect();
        list.resize(MOST, if kind == 0 { Start(0, 0) } else { Finish });
        list
    };
    let first = |event| [vec![event], bare(MOST - 1)].concat();
    let mut all: Vec<Vec<u32>> = [
        bare(MOST - 1),
        bare(MOST),
        bare(MOST + 1),
        lists::chain(0, MOST),
        lists::chain(0, MOST + 1),
        lists::chain(40, MOST / 2),
        lists::chain(u16::MAX, MOST / 2),
        fan(0, MOST),
        fan(40, MOST / 2),
        vec![Token(50, 3); MOST],
        vec![Error(u16::MAX, u16::MAX, 0); MOST],
        vec![Error(EXPECTED, u16::MAX, u16::MAX); MOST],
        [Start(40, 0), Finish].repeat(MOST / 2),
        first(Start(0, MOST as u32 - 1)),
        first(Start(0, MOST as u32)),
        first(Start(0, u32::MAX)),
        with(MOST, Finish),
        with(MOST, Start(40, 0)),
        with(MOST, Start(0, 1)),
        with(MOST + 1, Finish),
    ]
    .iter()
    .map(|list| words(list))
    .collect();
    // numbers of words, of bare tombstones and of words that are no events
    for count in [Ev::WORDS * MOST - 1, Ev::WORDS * MOST + 1, Ev::WORDS * MOST + 2, Ev::WORDS * MOST + 3, 200_000] {
        all.push((0..count).map(|i| if i % 2 == 0 { START } else { 0 }).collect());
        all.push(vec![7; count]);
    }
    for bits in [16, 28, 29, 30, 31, 32] {
        for back in 0..=4 {
            let distance = ((1u64 << bits) - back) as u32;
            all.push(words(&[bare(4), vec![Start(0, distance)], bare(2)].concat()));
        }
    }
    for kinds in [LAST, LAST, u16::MAX] {
        all.push(words(&lists::chained(rng, kinds, MOST / 2)));
        all.push(words(&lists::made(rng, kinds, MOST / 2)));
    }
    all
}
