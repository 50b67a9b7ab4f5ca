//! Wrong parses: the comparison must find each of them. They are the port with one fault put in before or behind it, or the crate with
//! another bound.

use crate::parse::{around, differs, each_thread, limits, random, smaller, threads, Parse};
use crate::port::parse;
use answer::{kinds, permitted, Bounds, End, Entry, Ev, ENTRIES, EXPECTED, LOOKUPS};
use differential::case::Case;
use differential::{found, generate, lists, text};

/// Runs the wrong parses on random cases, on nests and on lists at the limits until one differs; true where each of them does.
pub fn run(seed: u64) -> bool {
    let wrong: &[(&str, Parse)] = &[
        // those that answer without a parse, and the like
        ("one that refuses all", |_, _, _, _, r, a| answered(8, a, [0; 3], || r.fill(0))),
        ("one that refuses all and touches nothing", |_, _, _, _, _, a| answered(1, a, [0; 3], || ())),
        ("one with an empty list", |e, m, k, j, r, a| then(parse(e, m, k, j, r, a), a, |code, a| on(code == 0, || (a[1] = 0, r.fill(0))))),
        ("one with a constant list", constant),
        ("one that writes no list", |e, m, k, j, r, a| {
            let mut copy = r.to_vec();
            parse(e, m, k, j, &mut copy, a)
        }),
        ("one that invents the list's second half", invents),
        ("one that closes open nodes when the room is full", closes),
        // counts and places
        ("one with a place one further", |e, m, k, j, r, a| then(parse(e, m, k, j, r, a), a, |_, a| a[0] += 1)),
        ("one with a place one further in a refusal", |e, m, k, j, r, a| then(parse(e, m, k, j, r, a), a, |c, a| a[0] += (c != 0) as u64)),
        ("one that counts the refused token", |e, m, k, j, r, a| then(parse(e, m, k, j, r, a), a, |c, a| a[0] += (c == 5) as u64)),
        ("one with one event more", |e, m, k, j, r, a| then(parse(e, m, k, j, r, a), a, |c, a| on(c == 0, || a[1] += 1))),
        ("one with one lookup more", |e, m, k, j, r, a| then(parse(e, m, k, j, r, a), a, |c, a| on(c == 0, || a[2] += 1))),
        ("one that counts no lookups", |e, m, k, j, r, a| then(parse(e, m, k, j, r, a), a, |_, a| a[2] = 0)),
        ("one that counts lookups in a refusal", |e, m, k, j, r, a| then(parse(e, m, k, j, r, a), a, |c, a| a[2] += (c > 4) as u64)),
        ("one that tells the last kind that is not permitted", |e, m, k, j, r, a| {
            let last = k.iter().rposition(|&kind| forbidden(kind)).unwrap_or(0) as u64;
            then(parse(e, m, k, j, r, a), a, |c, a| on(c == 4, || a[0] = last))
        }),
        ("one that writes behind its answer", |e, m, k, j, r, a| then(parse(e, m, k, j, r, a), a, |_, a| a[3..].fill(0))),
        // the room
        ("one that leaves the room as it was after a refusal", |e, m, k, j, r, a| restores(e, m, k, j, r, a, |c, _| c > 4, 0)),
        ("one that leaves the list behind after a refusal", leaves_events),
        ("one that leaves the room's last word", |e, m, k, j, r, a| restores(e, m, k, j, r, a, |c, _| c > 4, r.len().saturating_sub(1))),
        ("one that leaves an odd last word", |e, m, k, j, r, a| {
            restores(e, m, k, j, r, a, |c, odd| c < 9 && odd, r.len().saturating_sub(1))
        }),
        ("one that leaves a word behind its list", |e, m, k, j, r, a| {
            let before = r.to_vec();
            then(parse(e, m, k, j, r, a), a, |c, a| on(c == 0, || put_back(r, &before, 2 * a[1] as usize)))
        }),
        ("one that clears the room when it refuses before the run", |e, m, k, j, r, a| {
            then(parse(e, m, k, j, r, a), a, |c, _| on((1..=4).contains(&c), || r.fill(0)))
        }),
        ("one that clears the room for an entry that is none", |e, m, k, j, r, a| {
            then(parse(e, m, k, j, r, a), a, |c, _| on(c == 101, || r.fill(0)))
        }),
        ("one that counts words for events", |e, m, k, j, r, a| elsewhere(e, m, k, j, r, a, 2 * r.len())),
        ("one that rounds an odd room up", |e, m, k, j, r, a| elsewhere(e, m, k, j, r, a, r.len() + r.len() % 2)),
        ("one that measures the room by the final list", by_the_end),
        ("one that wants room for an event more", |e, m, k, j, r, a| {
            let less = r.len().saturating_sub(2);
            then(parse(e, m, k, j, &mut r[..less], a), a, |c, _| on(c == 0 || (5..9).contains(&c), || r[less..].fill(0)))
        }),
        ("one that takes more than 65,536 events", |e, m, k, j, r, a| by_the_crate(e, m, k, j, r, a, r.len() / 2, 64, LOOKUPS.lookups)),
        // what is refused
        ("one that takes any mode", |e, m, k, j, r, a| parse(e, m % 2, k, j, r, a)),
        ("one that takes a mode's low byte", |e, m, k, j, r, a| parse(e, m % 256, k, j, r, a)),
        ("one that knows mode 0 only", |e, m, k, j, r, a| parse(e, if m == 1 { 0 } else { m }, k, j, r, a)),
        ("one that takes any entry", |e, m, k, j, r, a| parse(e % 3, m, k, j, r, a)),
        ("one that takes an entry's low byte", |e, m, k, j, r, a| parse(e % 256, m, k, j, r, a)),
        ("one that reads an item for a source file", |e, m, k, j, r, a| parse(if e == 0 { 1 } else { e }, m, k, j, r, a)),
        ("one that takes an answer of two words", short_answer),
        ("one that tests the entry before the answer room", |e, m, k, j, r, a| {
            renamed(parse(e, m, k, j, r, a), if e > 2 { 100 } else { 101 }, 101)
        }),
        ("one that tests the mode before the entry", |e, m, k, j, r, a| parse(if m > 1 { 0 } else { e }, m, k, j, r, a)),
        ("one that says 2 before 1", |e, m, k, j, r, a| parse(e, if over(k) { 0 } else { m }, k, j, r, a)),
        ("one that says 3 before 1", |e, m, k, j, r, a| parse(e, if lacks(k, j) && !over(k) { 0 } else { m }, k, j, r, a)),
        ("one that says 3 before 2", |e, m, k, j, r, a| renamed(parse(e, m, k, j, r, a), if lacks(k, j) { 2 } else { 3 }, 3)),
        ("one that says 4 before 3", |e, m, k, j, r, a| {
            let place = k.iter().position(|&kind| forbidden(kind));
            match (parse(e, m, k, j, r, a), place) {
                (3, Some(place)) => answered(4, a, [place as u64, 0, 0], || ()),
                (code, _) => code,
            }
        }),
        ("one that says 4 before 2", |e, m, k, j, r, a| {
            let code = parse(e, m, k, j, r, a);
            match k.iter().position(|&kind| forbidden(kind)) {
                Some(place) if code == 2 => answered(4, a, [place as u64, 0, 0], || ()),
                _ => code,
            }
        }),
        ("one that takes 8,193 tokens", |e, m, k, j, r, a| parse(e, m, &k[..k.len().min(8_192)], j, r, a)),
        ("one that refuses 8,192 tokens", |e, m, k, j, r, a| {
            let mut more = k.to_vec();
            more.extend(vec![0; (k.len() == 8_192) as usize]);
            parse(e, m, &more, j, r, a)
        }),
        ("one that takes the number of tokens in 16 bits", |e, m, k, j, r, a| parse(e, m, &k[..k.len() % 65_536], j, r, a)),
        ("one that wants a joint word more", |e, m, k, j, r, a| parse(e, m, k, &j[..j.len().saturating_sub(1)], r, a)),
        ("one that takes too few joint words", |e, m, k, j, r, a| {
            let mut more = j.to_vec();
            more.resize(j.len().max(k.len().div_ceil(64)), 0);
            parse(e, m, k, &more, r, a)
        }),
        ("one that rounds tokens / 64 down", |e, m, k, j, r, a| {
            let mut more = j.to_vec();
            more.resize(j.len() + (j.len() == k.len() / 64) as usize, 0);
            parse(e, m, k, &more, r, a)
        }),
        ("one that takes a kind's low byte", |e, m, k, j, r, a| parse(e, m, &k.iter().map(|kind| kind % 256).collect::<Vec<_>>(), j, r, a)),
        ("one that takes a kind above the enum", |e, m, k, j, r, a| {
            let within = |&kind: &u16| if kind as usize >= kinds().len() { permitted()[0] } else { kind };
            parse(e, m, &k.iter().map(within).collect::<Vec<_>>(), j, r, a)
        }),
        ("one that looks for kinds at the first token only", |e, m, k, j, r, a| {
            let later = |(i, &kind): (usize, &u16)| if i > 0 && forbidden(kind) { permitted()[0] } else { kind };
            parse(e, m, &k.iter().enumerate().map(later).collect::<Vec<_>>(), j, r, a)
        }),
        // the run
        ("one without joint bits", |e, m, k, j, r, a| parse(e, m, k, &vec![0; j.len()], r, a)),
        ("one where every token is joint", |e, m, k, j, r, a| parse(e, m, k, &vec![u64::MAX; j.len()], r, a)),
        ("one that takes the highest bit first", |e, m, k, j, r, a| {
            parse(e, m, k, &j.iter().map(|word| word.reverse_bits()).collect::<Vec<_>>(), r, a)
        }),
        ("one that knows the first joint word only", |e, m, k, j, r, a| parse(e, m, k, &j.iter().map(|_| j[0]).collect::<Vec<_>>(), r, a)),
        ("one of depth 63", |e, m, k, j, r, a| by_the_crate(e, m, k, j, r, a, (r.len() / 2).min(65_536), 63, LOOKUPS.lookups)),
        ("one of depth 65", |e, m, k, j, r, a| by_the_crate(e, m, k, j, r, a, (r.len() / 2).min(65_536), 65, LOOKUPS.lookups)),
        ("one without a depth", |e, m, k, j, r, a| by_the_crate(e, m, k, j, r, a, (r.len() / 2).min(65_536), 9_999, LOOKUPS.lookups)),
        ("one of 9,999 lookups", |e, m, k, j, r, a| by_the_crate(e, m, k, j, r, a, (r.len() / 2).min(65_536), 64, LOOKUPS.lookups - 1)),
        ("one of 10,001 lookups", |e, m, k, j, r, a| by_the_crate(e, m, k, j, r, a, (r.len() / 2).min(65_536), 64, LOOKUPS.lookups + 1)),
        ("one that says 7 for 8", |e, m, k, j, r, a| renamed(parse(e, m, k, j, r, a), 8, 7)),
        ("one that says 8 for 7", |e, m, k, j, r, a| renamed(parse(e, m, k, j, r, a), 7, 8)),
        ("one that says 5 for 6", |e, m, k, j, r, a| renamed(parse(e, m, k, j, r, a), 6, 5)),
        ("one whose distances have eight bits", |e, m, k, j, r, a| {
            then(parse(e, m, k, j, r, a), a, |c, _| on(c == 0, || r.chunks_mut(2).filter(|w| w[0] / 65_536 == 1).for_each(|w| w[1] %= 256)))
        }),
        // the powers of mode 1
        ("one that reads `==` as a comparison in mode 1", |e, m, k, j, r, a| reads_as(e, m, k, j, r, a, "==", ">=")),
        ("one that reads `!=` as a comparison in mode 1", |e, m, k, j, r, a| reads_as(e, m, k, j, r, a, "!=", ">=")),
        ("one that reads `<=` as an equality in mode 1", |e, m, k, j, r, a| reads_as(e, m, k, j, r, a, "<=", "==")),
        ("one that reads `>=` as an equality in mode 1", |e, m, k, j, r, a| reads_as(e, m, k, j, r, a, ">=", "==")),
        // what was found
        ("one that does not say what was found", |e, m, k, j, r, a| finds(e, m, k, j, r, a, |_, _, _| 0)),
        ("one that finds the token behind", |e, m, k, j, r, a| finds(e, m, k, j, r, a, |k, _, at| found::behind(k, at + 1))),
        ("one that finds the token before", |e, m, k, j, r, a| {
            finds(e, m, k, j, r, a, |k, _, at| if at == 0 { 0 } else { found::behind(k, at - 1) })
        }),
        ("one that finds 0 at the end", |e, m, k, j, r, a| finds(e, m, k, j, r, a, |k, _, at| k.get(at).copied().unwrap_or(0))),
        ("one that finds the last token at the end", |e, m, k, j, r, a| {
            finds(e, m, k, j, r, a, |k, _, at| k.get(at).or(k.last()).copied().unwrap_or(found::EOF))
        }),
        ("one that finds the glued kind", |e, m, k, j, r, a| finds(e, m, k, j, r, a, glued)),
        ("one that counts a glued token once", |e, m, k, j, r, a| {
            changes(e, m, k, j, r, a, |k, _, _, once| [None, Some(found::behind(k, once))])
        }),
        ("one that finds what stands where it ends", |e, m, k, j, r, a| {
            let (code, list) = (parse(e, m, k, j, r, a), a.get(..2).map_or([0; 2], |a| [a[0] as usize, a[1] as usize]));
            on(code == 0, || expected(&mut r[..2 * list[1]], |_, _, _| [None, Some(found::behind(k, list[0]))]));
            code
        }),
        ("one that swaps the kind expected and the kind found", |e, m, k, j, r, a| {
            changes(e, m, k, j, r, a, |k, kind, at, _| [Some(found::behind(k, at)), Some(kind)])
        }),
        ("one that does not say what was found for a comma", |e, m, k, j, r, a| {
            let comma = text::kind("COMMA");
            changes(e, m, k, j, r, a, move |k, kind, at, _| [None, Some(if kind == comma { 0 } else { found::behind(k, at) })])
        }),
        ("one that says what was found for every code", |e, m, k, j, r, a| {
            let (code, mut tokens) = (parse(e, m, k, j, r, a), 0);
            let events = if code == 0 { 2 * a[1] as usize } else { 0 };
            for pair in r[..events].chunks_mut(2) {
                match Ev::of(pair[0], pair[1]) {
                    Some(Ev::Token(_, raw)) => tokens += raw as usize,
                    Some(Ev::Error(code, argument, _)) => {
                        pair.copy_from_slice(&Ev::Error(code, argument, found::behind(k, tokens)).words())
                    }
                    _ => {}
                }
            }
            code
        }),
        ("one that looks for what was found", |e, m, k, j, r, a| {
            then(parse(e, m, k, j, r, a), a, |c, a| on(c == 0, || a[2] += found::count(&r[..2 * a[1] as usize]) as u64))
        }),
    ];
    let (hunted, threads) = (hunted(seed), threads());
    let found = |parse: Parse| {
        hunted.iter().any(|(case, rooms)| {
            let bad = |case: &Case| differs(parse, case, *rooms).is_some();
            bad(case) && bad(&smaller(case.clone(), bad))
        })
    };
    let missed: usize = each_thread(threads, |own| {
        let mine = wrong.iter().skip(own).step_by(threads);
        let missed = mine.filter(|(name, parse)| {
            let missed = !found(*parse);
            if missed {
                println!("differential: {name} was not found");
            }
            missed
        });
        missed.count()
    })
    .into_iter()
    .sum();
    println!("differential: {} of {} wrong parses are found", wrong.len() - missed, wrong.len());
    missed == 0
}

/// The cases that a wrong parse is run on.
fn hunted(seed: u64) -> Vec<(Case, u64)> {
    let mut all: Vec<(Case, u64)> = (0..1_000).map(|number| random(seed, number)).collect();
    all.extend(generate::two_operators().into_iter().map(|case| (case, seed)));
    let nests = (0..generate::nests()).flat_map(|number| around(number, ENTRIES[number % 3]));
    all.extend(limits().into_iter().chain(nests).map(|case| (case, seed)));
    all.extend((1_000..6_000).map(|number| random(seed, number)));
    all
}

fn forbidden(kind: u16) -> bool {
    !permitted().contains(&kind)
}

fn over(kinds: &[u16]) -> bool {
    kinds.len() > generate::TOKENS
}

fn lacks(kinds: &[u16], joints: &[u64]) -> bool {
    joints.len() < kinds.len().div_ceil(64)
}

/// Says a number with an answer of its own; 100 where the answer has no room.
fn answered(code: u32, answer: &mut [u64], words: [u64; 3], leave: impl FnOnce()) -> u32 {
    let Some(first) = answer.get_mut(..3) else { return 100 };
    first.copy_from_slice(&words);
    leave();
    code
}

/// Changes an answer that has its three words.
fn then(code: u32, answer: &mut [u64], change: impl FnOnce(u32, &mut [u64])) -> u32 {
    if answer.len() >= 3 {
        change(code, answer);
    }
    code
}

/// The number `to` for the number `from`.
fn renamed(code: u32, from: u32, to: u32) -> u32 {
    if code == from {
        to
    } else {
        code
    }
}

fn on<T>(holds: bool, change: impl FnOnce() -> T) {
    if holds {
        change();
    }
}

/// The word of that number as it was, if there is one.
fn put_back(room: &mut [u32], before: &[u32], at: usize) {
    if at < room.len() {
        room[at] = before[at];
    }
}

/// Gives each error of code 1 in a list another kind expected or found, by the kind expected, the tokens before it, and the token events
/// before it.
fn expected(list: &mut [u32], change: impl Fn(u16, usize, usize) -> [Option<u16>; 2]) {
    let (mut tokens, mut once) = (0, 0);
    for pair in list.chunks_mut(2) {
        match Ev::of(pair[0], pair[1]) {
            Some(Ev::Token(_, raw)) => {
                tokens += raw as usize;
                once += 1;
            }
            Some(Ev::Error(EXPECTED, kind, found)) => {
                let [other, another] = change(kind, tokens, once);
                pair.copy_from_slice(&Ev::Error(EXPECTED, other.unwrap_or(kind), another.unwrap_or(found)).words());
            }
            _ => {}
        }
    }
}

/// A done list whose errors of code 1 are changed so.
fn changes(
    entry: u32,
    mode: u32,
    kinds: &[u16],
    joints: &[u64],
    room: &mut [u32],
    answer: &mut [u64],
    change: impl Fn(&[u16], u16, usize, usize) -> [Option<u16>; 2],
) -> u32 {
    let code = parse(entry, mode, kinds, joints, room, answer);
    if code == 0 {
        expected(&mut room[..2 * answer[1] as usize], |kind, tokens, once| change(kinds, kind, tokens, once));
    }
    code
}

/// A done list whose errors of code 1 have found something else, by the tokens, the joint words and the tokens before it.
fn finds(
    entry: u32,
    mode: u32,
    kinds: &[u16],
    joints: &[u64],
    room: &mut [u32],
    answer: &mut [u64],
    find: impl Fn(&[u16], &[u64], usize) -> u16,
) -> u32 {
    changes(entry, mode, kinds, joints, room, answer, |kinds, _, tokens, _| [None, Some(find(kinds, joints, tokens))])
}

/// The kind of two tokens that are glued, where they stand behind so many, else the kind of the one.
fn glued(list: &[u16], joints: &[u64], at: usize) -> u16 {
    let joint = joints.get(at / 64).is_some_and(|word| word >> (at % 64) & 1 == 1);
    let both = list.get(at..at + 2).map(|two| two.iter().map(|&kind| kinds()[kind as usize].name).collect::<Vec<_>>().join(", "));
    let made = |kind: &answer::Kind| both.as_ref().is_some_and(|both| kind.why.strip_prefix("glued by the parser of ") == Some(both));
    match kinds().iter().position(made) {
        Some(number) if joint => number as u16,
        _ => found::behind(list, at),
    }
}

/// The tokens of a glued operator, and its kind.
fn operator(text: &str) -> ([u16; 2], u16) {
    let parts: Vec<u16> = text::tokens(text).expect("tokens").into_iter().map(|(kind, _)| kind).collect();
    ([parts[0], parts[1]], glued(&parts, &[1], 0))
}

/// Mode 1 with one glued operator taken for another: it is handed in as that one, and has its own name in a done list.
fn reads_as(entry: u32, mode: u32, kinds: &[u16], joints: &[u64], room: &mut [u32], answer: &mut [u64], text: &str, other: &str) -> u32 {
    let ((parts, own), (others, taken)) = (operator(text), operator(other));
    let mut list = kinds.to_vec();
    let is = |at: usize| mode == 1 && kinds[at..].starts_with(&parts) && joints.get(at / 64).is_some_and(|word| word >> (at % 64) & 1 == 1);
    let places: Vec<usize> = (0..kinds.len()).filter(|&at| is(at)).collect();
    places.iter().for_each(|&at| list[at..at + 2].copy_from_slice(&others));
    let code = parse(entry, mode, &list, joints, room, answer);
    let (events, mut tokens) = (if code == 0 { 2 * answer[1] as usize } else { 0 }, 0);
    for pair in room[..events].chunks_mut(2) {
        match Ev::of(pair[0], pair[1]) {
            Some(Ev::Token(kind, raw)) => {
                if kind == taken && places.contains(&tokens) {
                    pair.copy_from_slice(&Ev::Token(own, raw).words());
                }
                tokens += raw as usize;
            }
            Some(Ev::Error(EXPECTED, kind, _)) => pair.copy_from_slice(&Ev::Error(EXPECTED, kind, found::behind(kinds, tokens)).words()),
            _ => {}
        }
    }
    code
}

/// The same list for every parse that is done.
fn constant(entry: u32, mode: u32, kinds: &[u16], joints: &[u64], room: &mut [u32], answer: &mut [u64]) -> u32 {
    let code = parse(entry, mode, kinds, joints, room, answer);
    if code == 0 && room.len() >= 4 {
        room.fill(0);
        room[..4].copy_from_slice(&lists::words(&[Ev::Start(1, 0), Ev::Finish]));
        answer[1] = 2;
    }
    code
}

/// The second half of a done list: every node an error.
fn invents(entry: u32, mode: u32, kinds: &[u16], joints: &[u64], room: &mut [u32], answer: &mut [u64]) -> u32 {
    let code = parse(entry, mode, kinds, joints, room, answer);
    if code == 0 {
        let error = differential::text::kind("ERROR");
        let events = answer[1] as usize;
        for pair in room[..2 * events].chunks_mut(2).skip(events / 2) {
            if matches!(Ev::of(pair[0], pair[1]), Some(Ev::Start(kind, _)) if kind != 0) {
                pair[0] = Ev::Start(error, 0).words()[0];
            }
        }
    }
    code
}

/// Where the room is full: done, with as much of the list as the room holds, and its nodes closed.
fn closes(entry: u32, mode: u32, kinds: &[u16], joints: &[u64], room: &mut [u32], answer: &mut [u64]) -> u32 {
    let code = parse(entry, mode, kinds, joints, room, answer);
    let mut large = vec![0; 131_072];
    if code == 5 && parse(entry, mode, kinds, joints, &mut large, answer) == 0 {
        let most = room.len() / 2;
        let mut list = lists::events(&large[..2 * answer[1] as usize]).expect("events");
        for open in 0..=most {
            list.truncate(most - open);
            let closed = [list.clone(), vec![Ev::Finish; open]].concat();
            if let Ok(events) = lists::check(&lists::words(&closed)) {
                let words = lists::words(&closed);
                room[..words.len()].copy_from_slice(&words);
                answer[1] = events as u64;
                return 0;
            }
        }
    }
    code
}

/// A refused run that leaves the events which it had written.
fn leaves_events(entry: u32, mode: u32, kinds: &[u16], joints: &[u64], room: &mut [u32], answer: &mut [u64]) -> u32 {
    let code = parse(entry, mode, kinds, joints, room, answer);
    let mut large = vec![0; 131_072];
    if code == 5 && parse(entry, mode, kinds, joints, &mut large, &mut [0; 3]) == 0 {
        let size = room.len();
        room.copy_from_slice(&large[..size]);
    }
    code
}

/// Puts the room's words from `from` on back where `when` says so of the number and of an odd room.
fn restores(
    entry: u32,
    mode: u32,
    kinds: &[u16],
    joints: &[u64],
    room: &mut [u32],
    answer: &mut [u64],
    when: fn(u32, bool) -> bool,
    from: usize,
) -> u32 {
    let before = room.to_vec();
    let code = parse(entry, mode, kinds, joints, room, answer);
    if when(code, room.len() % 2 != 0) {
        room[from..].copy_from_slice(&before[from..]);
    }
    code
}

/// The parse in a larger room: its answer, and what the room holds of its list.
fn elsewhere(entry: u32, mode: u32, kinds: &[u16], joints: &[u64], room: &mut [u32], answer: &mut [u64], words: usize) -> u32 {
    let mut other = vec![0; words];
    let code = parse(entry, mode, kinds, joints, &mut other, answer);
    if matches!(code, 0 | 5..=8) {
        let size = room.len();
        room.copy_from_slice(&other[..size]);
    }
    code
}

/// Done where the final list has room.
fn by_the_end(entry: u32, mode: u32, kinds: &[u16], joints: &[u64], room: &mut [u32], answer: &mut [u64]) -> u32 {
    let mut large = vec![0; 131_072];
    if parse(entry, mode, kinds, joints, &mut large, answer) == 0 && 2 * answer[1] as usize <= room.len().min(131_072) {
        room.fill(0);
        let size = room.len().min(131_072);
        room[..size].copy_from_slice(&large[..size]);
        return 0;
    }
    parse(entry, mode, kinds, joints, room, answer)
}

/// An answer room of two words is enough for a place and the events.
fn short_answer(entry: u32, mode: u32, kinds: &[u16], joints: &[u64], room: &mut [u32], answer: &mut [u64]) -> u32 {
    if answer.len() != 2 {
        return parse(entry, mode, kinds, joints, room, answer);
    }
    let mut three = [0; 3];
    let code = parse(entry, mode, kinds, joints, room, &mut three);
    answer.copy_from_slice(&three[..2]);
    code
}

/// The crate's run with other bounds, where the port does not refuse before it.
fn by_the_crate(
    entry: u32,
    mode: u32,
    kinds: &[u16],
    joints: &[u64],
    room: &mut [u32],
    answer: &mut [u64],
    events: usize,
    depth: usize,
    lookups: usize,
) -> u32 {
    let code = parse(entry, mode, kinds, joints, room, answer);
    if !matches!(code, 0 | 5..=8) {
        return code;
    }
    let run = if mode == 0 { oq3_watched::entries::parse } else { oq3_mode1::entries::parse };
    let run = run(ENTRIES[entry as usize], kinds, joints, Bounds { lookups, room: events, depth });
    room.fill(0);
    let code = match run.end {
        End::Done if entry != Entry::Source as u32 || run.tokens == kinds.len() => 0,
        End::Done | End::Panic(_) => 8,
        End::Room => 5,
        End::Depth => 6,
        End::Lookups => 7,
    };
    if code == 0 {
        room[..run.words.len()].copy_from_slice(&found::with(kinds, &run.words));
        return answered(0, answer, [run.tokens as u64, run.events as u64, run.lookups], || ());
    }
    answered(code, answer, [run.tokens as u64, 0, 0], || ())
}
