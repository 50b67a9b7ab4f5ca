//! Lists of events: the well-formedness of docs/RULES.md, and generators.

use crate::rng::Rng;
use answer::{write_step, Ev, Step, EXPECTED};

/// The events of words, or none where they are not all events.
pub fn events(words: &[u32]) -> Option<Vec<Ev>> {
    if words.len() % 2 != 0 {
        return None;
    }
    words.chunks(2).map(|w| Ev::of(w[0], w[1])).collect()
}

pub fn words(list: &[Ev]) -> Vec<u32> {
    list.iter().flat_map(|e| e.words()).collect()
}

/// The list check as the rules have it: the number of events, or the number and place of its refusal.
pub fn check(words: &[u32]) -> Result<usize, (u8, usize)> {
    let count = words.len() / Ev::WORDS;
    if count > 65_536 {
        return Err((2, 0));
    }
    if words.len() % 2 != 0 {
        return Err((9, count));
    }
    let mut open = 0usize;
    for i in 0..count {
        match Ev::of(words[Ev::WORDS * i], words[Ev::WORDS * i + 1]) {
            None => return Err((9, i)),
            Some(Ev::Start(kind, distance)) => {
                if distance != 0 {
                    let to = i + distance as usize;
                    let lands = to < count && matches!(Ev::of(words[Ev::WORDS * to], words[Ev::WORDS * to + 1]), Some(Ev::Start(..)));
                    if !lands {
                        return Err((9, i));
                    }
                }
                if kind != 0 {
                    open += 1;
                }
            }
            Some(Ev::Finish) => {
                if open == 0 {
                    return Err((9, i));
                }
                open -= 1;
            }
            Some(_) => {}
        }
    }
    if open != 0 {
        return Err((9, count));
    }
    Ok(count)
}

/// The step file of a list that passes the check, as the rules have resolution.
pub fn steps(words: &[u32]) -> Vec<u8> {
    let mut list = events(words).expect("events");
    let mut file = Vec::new();
    for i in 0..list.len() {
        match list[i] {
            Ev::Start(..) => {
                let (mut at, mut collected) = (i, Vec::new());
                while let Ev::Start(kind, distance) = std::mem::replace(&mut list[at], Ev::Start(0, 0)) {
                    collected.push(kind);
                    if distance == 0 {
                        break;
                    }
                    at += distance as usize;
                }
                for kind in collected.into_iter().rev().filter(|&kind| kind != 0) {
                    write_step(&mut file, Step::Enter(kind));
                }
            }
            Ev::Finish => write_step(&mut file, Step::Leave),
            Ev::Token(kind, raw) => write_step(&mut file, Step::Token(kind, raw)),
            Ev::Error(EXPECTED, kind, found) => write_step(&mut file, Step::Expected(kind, found)),
            Ev::Error(code, argument, _) => write_step(&mut file, Step::Error(code, argument)),
        }
    }
    file
}

/// A list as a parser makes it: starts are completed, abandoned, preceded and extended.
pub fn made(rng: &mut Rng, kinds: u16, most: usize) -> Vec<Ev> {
    let mut list: Vec<Ev> = Vec::new();
    let mut open: Vec<usize> = Vec::new();
    let mut completed: Option<usize> = None;
    let number = |rng: &mut Rng| 1 + rng.below(kinds as usize) as u16;
    for _ in 0..rng.below(most + 1) {
        match rng.below(10) {
            0..=2 => {
                open.push(list.len());
                list.push(Ev::Start(0, 0));
            }
            3 | 4 => {
                if let Some(at) = open.pop() {
                    let Ev::Start(_, distance) = list[at] else { unreachable!() };
                    list[at] = Ev::Start(number(rng), distance);
                    list.push(Ev::Finish);
                    completed = Some(at);
                }
            }
            // precede: a new start, to which the completed one points
            5 => {
                if let Some(at) = completed.take() {
                    let Ev::Start(k, 0) = list[at] else { continue };
                    list[at] = Ev::Start(k, (list.len() - at) as u32);
                    open.push(list.len());
                    list.push(Ev::Start(0, 0));
                }
            }
            // extend: an open start points to the completed one, and is open no more
            6 => {
                if let (Some(at), Some(&m)) = (completed, open.last()) {
                    if m < at {
                        open.pop();
                        list[m] = Ev::Start(0, (at - m) as u32);
                    }
                }
            }
            7 => {
                // abandoned
                if rng.chance(1, 2) {
                    if let Some(at) = open.pop() {
                        if at == list.len() - 1 {
                            list.pop();
                        }
                    }
                }
            }
            8 => list.push(Ev::Error(1 + rng.below(40) as u16, rng.below(200) as u16, 0)),
            _ => list.push(Ev::Token(rng.below(kinds as usize + 1) as u16, 1 + rng.below(3) as u8)),
        }
    }
    while let Some(at) = open.pop() {
        let Ev::Start(_, distance) = list[at] else { unreachable!() };
        list[at] = Ev::Start(number(rng), distance);
        list.push(Ev::Finish);
    }
    list
}

/// Starts whose distances land on starts, anywhere further on: chains that are long, that meet, that skip. Well formed: each start that
/// has a kind is finished at the end.
pub fn chained(rng: &mut Rng, kinds: u16, most: usize) -> Vec<Ev> {
    let size = 1 + rng.below(most);
    let far = 1 + rng.below(size);
    let mut list: Vec<Ev> = Vec::with_capacity(2 * size);
    let mut finishes = 0;
    for i in 0..size {
        let kind = if rng.chance(1, 3) { 0 } else { 1 + rng.below(kinds as usize) as u16 };
        let left = size - 1 - i;
        let distance = if left == 0 || rng.chance(1, 4) { 0 } else { 1 + rng.below(left.min(far)) };
        finishes += (kind != 0) as usize;
        list.push(Ev::Start(kind, distance as u32));
    }
    list.extend(std::iter::repeat_n(Ev::Finish, finishes));
    list
}

/// One chain of `starts` starts of a kind, each pointing to the next, and a finish for each that has a kind.
pub fn chain(kind: u16, starts: usize) -> Vec<Ev> {
    let mut list: Vec<Ev> = (1..=starts).map(|i| Ev::Start(kind, (i < starts) as u32)).collect();
    if kind != 0 {
        list.extend(std::iter::repeat_n(Ev::Finish, starts));
    }
    list
}

/// A list at random: made, chained, damaged, or words that are mostly no events.
pub fn any(rng: &mut Rng, kinds: u16) -> Vec<u32> {
    let most = *rng.pick(&[3, 10, 40, 200]);
    match rng.below(10) {
        0..=3 => words(&made(rng, kinds, most)),
        4 | 5 => words(&chained(rng, kinds, most)),
        6..=8 => {
            let list = if rng.chance(2, 3) { made(rng, kinds, most) } else { chained(rng, kinds, most) };
            let mut words = words(&list);
            for _ in 0..1 + rng.below(3) {
                damage(&mut words, rng, kinds);
            }
            words
        }
        _ => (0..rng.below(most)).map(|_| random_word(rng, kinds)).collect(),
    }
}

/// One damage: an event taken away, doubled, moved, given another distance, or a word changed.
fn damage(words: &mut Vec<u32>, rng: &mut Rng, kinds: u16) {
    let count = words.len() / Ev::WORDS;
    if count == 0 {
        return words.push(random_word(rng, kinds));
    }
    let at = Ev::WORDS * rng.below(count);
    match rng.below(6) {
        0 => {
            words.drain(at..at + 2);
        }
        1 => {
            let pair = [words[at], words[at + 1]];
            words.splice(at..at, pair);
        }
        2 => {
            let to = Ev::WORDS * rng.below(count);
            words.swap(at, to);
            words.swap(at + 1, to + 1);
        }
        // a distance: onto any event, or past the end
        3 | 4 => words[at + 1] = rng.below(count + 3) as u32,
        _ => {
            let i = rng.below(words.len());
            words[i] = random_word(rng, kinds);
        }
    }
}

fn random_word(rng: &mut Rng, kinds: u16) -> u32 {
    let low = rng.below(kinds as usize + 1) as u32;
    match rng.below(10) {
        0..=5 => 65_536 * (1 + rng.below(4) as u32) + low,
        6 | 7 => rng.below(4) as u32,
        8 => low,
        _ => rng.next() as u32,
    }
}
