//! What the port must answer, word for word, to the lines of its program `replay`: the watched builds stopped where docs/RULES.md stops
//! a run. Numbers 1 to 4, the list check and the steps of kinds that the crate has not are written from the rules, and what an error of code
//! 1 has found is counted; everything else is the crate's.

use crate::case::{bytes, list, numbers, Case};
use crate::{found, generate, lists, text};
use answer::{kinds, Bounds, End, Entry, Ev, Panic, Run, LOOKUPS};

/// What a parse says: its number, its place, and the run where it is done, which is the crate's: its list and steps are without what was
/// found.
pub struct Said {
    pub code: u8,
    pub place: usize,
    pub run: Option<Run>,
}

/// What a parse refuses before it runs, with its place: numbers 1 to 4, in this order.
pub fn before(case: &Case, mode: u64) -> Option<(u8, usize)> {
    if mode > 1 {
        return Some((1, 0));
    }
    if case.kinds.len() > generate::TOKENS {
        return Some((2, 0));
    }
    if case.joints.len() < case.kinds.len().div_ceil(64) {
        return Some((3, 0));
    }
    let permitted = |&kind: &u16| kinds().get(kind as usize).is_some_and(|row| row.permitted);
    case.kinds.iter().position(|kind| !permitted(kind)).map(|place| (4, place))
}

/// A parse in a mode, with a room of that many words.
pub fn parse(case: &Case, mode: u64, room: usize) -> Said {
    let refused = |code, place| Said { code, place, run: None };
    if let Some((code, place)) = before(case, mode) {
        return refused(code, place);
    }
    let run = run(case, mode, room);
    match run.end {
        End::Room => refused(5, run.tokens),
        End::Depth => refused(6, run.tokens),
        End::Lookups => refused(7, run.tokens),
        End::Panic(_) => refused(8, run.tokens),
        End::Done if case.entry == Entry::Source && run.tokens < case.kinds.len() => refused(8, run.tokens),
        End::Done => Said { code: 0, place: run.tokens, run: Some(run) },
    }
}

/// The run of a case that is not refused before it, as it stands where the rules stop it.
pub fn run(case: &Case, mode: u64, room: usize) -> Run {
    let bounds = Bounds { room: (room / Ev::WORDS).min(65_536), depth: 64, ..LOOKUPS };
    let parse = if mode == 0 { oq3_watched::entries::parse } else { oq3_mode1::entries::parse };
    parse(case.entry, &case.kinds, &case.joints, bounds)
}

/// Whether what the port must say in mode 0, in a room of that many words, is what the crate does that nothing stops but the bound of
/// lookups: done with its list and its steps, 8 where it panics, 7 where the bound is passed, unless a 5, 6 or 7 came first.
pub fn agrees(case: &Case, room: usize) -> bool {
    if before(case, 0).is_some() {
        return true;
    }
    let said = parse(case, 0, room);
    let crates = oq3_parser::entries::parse(case.entry, &case.kinds, &case.joints, LOOKUPS);
    let (end, at) = (&crates.end, crates.tokens == said.place);
    match (said.code, &said.run) {
        (0, Some(run)) => {
            *end == End::Done
                && at
                && (crates.lookups, crates.events) == (run.lookups, run.events)
                && (&crates.words, &crates.steps) == (&run.words, &run.steps)
        }
        (7, _) => *end == End::Lookups && at,
        (8, _) => matches!(end, End::Panic(_)) && at,
        _ => said.place <= crates.tokens,
    }
}

/// The crate's `process` on a list whose errors may have found something. The crate is handed the list without it, and it is carried to the
/// steps. None where two words are no event, or a kind is not one of the crate's.
pub fn process(words: &[u32]) -> Option<Result<Vec<u8>, Panic>> {
    let said = oq3_parser::entries::process(&found::without(words))?;
    Some(said.map(|file| found::carried(words, &file)))
}

/// The words of the largest room that is of use.
pub const LARGEST: usize = 131_072;

/// How deep a nest goes, in full, before an entry refuses it with 6; 65 where it goes on.
pub fn deepest(number: usize, entry: Entry) -> usize {
    let refused = |deep: &usize| run(&Case::of(entry, &generate::nest(number, *deep, false)), 0, LARGEST).end == End::Depth;
    (1..=66).find(refused).unwrap_or(66) - 1
}

/// A source file that needs 65,536 events, and one that needs one more.
pub fn full() -> [Case; 2] {
    let unit = text::tokens("pow input").expect("tokens");
    let semicolon = text::tokens(";").expect("a token")[0];
    let with = |units: usize, more: usize| {
        let mut list: Vec<(u16, bool)> = unit.iter().copied().cycle().take(2 * units).collect();
        list.extend(vec![semicolon; more]);
        Case::of(Entry::Source, &list)
    };
    let peak = |case: &Case| oq3_watched::entries::parse(case.entry, &case.kinds, &case.joints, LOOKUPS).peak;
    // each `;` is one event
    let units = 65_000 / (peak(&with(101, 1)) - peak(&with(100, 1)));
    let more = 65_536 + 1 - peak(&with(units, 1));
    let cases = [with(units, more), with(units, more + 1)];
    assert_eq!([peak(&cases[0]), peak(&cases[1])], [65_536, 65_537]);
    cases
}

/// The answer to a line of `replay`, or none where it is none. A line that begins with `#` is copied.
pub fn answer(line: &str) -> Option<String> {
    if line.starts_with('#') {
        return Some(line.to_string());
    }
    let (word, rest) = line.split_once(' ').unwrap_or((line, ""));
    let parts: Vec<&str> = rest.split(' ').collect();
    match (word, &parts[..]) {
        ("parse", [entry, mode, room, kinds, joints]) => {
            let case = Case::read(entry, kinds, joints)?;
            let said = parse(&case, mode.parse().ok()?, room.parse().ok()?);
            Some(match said.run {
                Some(run) => {
                    let words = found::with(&case.kinds, &run.words);
                    format!("0 {} {} {} list {}", said.place, run.events, run.lookups, numbers(&words))
                }
                None => format!("{} {} 0 0 {} -", said.code, said.place, if said.code < 5 { "same" } else { "zero" }),
            })
        }
        ("check", [words]) => Some(match lists::check(&list(words, |n| n.parse().ok())?) {
            Ok(place) => format!("0 {place}"),
            Err((code, place)) => format!("{code} {place}"),
        }),
        ("resolve", [room, words]) => {
            let (room, words): (usize, Vec<u32>) = (room.parse().ok()?, list(words, |n| n.parse().ok())?);
            if let Err((code, place)) = lists::check(&words) {
                return Some(format!("{code} {place} - same"));
            }
            let file = match process(&words) {
                Some(file) => file.expect("a list that the check passes resolves"),
                // a kind that the crate's enum cannot hold
                None => lists::steps(&words),
            };
            Some(if file.len() > room { format!("10 {} - same", file.len()) } else { format!("0 {} {} bare", file.len(), bytes(&file)) })
        }
        _ => None,
    }
}
