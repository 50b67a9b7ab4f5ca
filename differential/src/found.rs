//! What an error of code 1 has found. The crate does not say it, so its own lists and steps are without it. It is counted here: the raw
//! counts of the tokens before the error, added up from the front, and the kind of the token that stands behind them.

use answer::{read_steps, write_step, Ev, Step, EXPECTED, FAULT};

/// The kind EOF: what stands behind the last token.
pub const EOF: u16 = 1;

/// The kind that stands behind so many tokens.
pub fn behind(kinds: &[u16], tokens: usize) -> u16 {
    kinds.get(tokens).copied().unwrap_or(EOF)
}

/// A list of these tokens with what was found.
pub fn with(kinds: &[u16], words: &[u32]) -> Vec<u32> {
    let (mut list, mut tokens) = (words.to_vec(), 0);
    for pair in list.chunks_exact_mut(Ev::WORDS) {
        match Ev::of(pair[0], pair[1]) {
            Some(Ev::Token(_, raw)) => tokens += raw as usize,
            Some(Ev::Error(EXPECTED, kind, _)) => pair.copy_from_slice(&Ev::Error(EXPECTED, kind, behind(kinds, tokens)).words()),
            _ => {}
        }
    }
    list
}

/// A list with what was found left out.
pub fn without(words: &[u32]) -> Vec<u32> {
    let mut list = words.to_vec();
    for pair in list.chunks_exact_mut(Ev::WORDS).filter(|pair| pair[0] == FAULT + EXPECTED as u32) {
        pair[1] %= 65_536;
    }
    list
}

/// The first error of a list that has not found what stands behind the tokens before it: its number among the events, what it has found, and
/// what it must have.
pub fn wrong(kinds: &[u16], words: &[u32]) -> Option<(usize, u16, u16)> {
    let mut tokens = 0;
    for (number, pair) in words.chunks_exact(Ev::WORDS).enumerate() {
        match Ev::of(pair[0], pair[1]) {
            Some(Ev::Token(_, raw)) => tokens += raw as usize,
            Some(Ev::Error(EXPECTED, _, found)) if found != behind(kinds, tokens) => return Some((number, found, behind(kinds, tokens))),
            _ => {}
        }
    }
    None
}

/// How many errors of a list have a kind found: those of code 1.
pub fn count(words: &[u32]) -> usize {
    words.chunks_exact(Ev::WORDS).filter(|pair| pair[0] == FAULT + EXPECTED as u32).count()
}

/// How many of them have found the end.
pub fn ends(words: &[u32]) -> usize {
    let end = |pair: &&[u32]| matches!(Ev::of(pair[0], pair[1]), Some(Ev::Error(EXPECTED, _, EOF)));
    words.chunks_exact(Ev::WORDS).filter(end).count()
}

/// The crate's steps of a list with what its errors have found. Errors keep their order: the n-th error step is the n-th error event's.
pub fn carried(words: &[u32], file: &[u8]) -> Vec<u8> {
    let mut errors = words.chunks_exact(Ev::WORDS).filter_map(|pair| match Ev::of(pair[0], pair[1]) {
        Some(Ev::Error(code, argument, found)) => Some((code, argument, found)),
        _ => None,
    });
    let mut all = Vec::with_capacity(file.len());
    for mut step in read_steps(file) {
        if let Step::Error(code, argument) = step {
            let (of, with, found) = errors.next().expect("an error event for each error step");
            assert_eq!((code, argument), (of, with), "errors keep their order");
            if code == EXPECTED {
                step = Step::Expected(argument, found);
            }
        }
        write_step(&mut all, step);
    }
    assert_eq!(errors.next(), None, "an error step for each error event");
    all
}

/// A file cut at the lengths that its records say; the last piece may have less.
fn records(mut file: &[u8]) -> Vec<&[u8]> {
    let mut pieces = Vec::new();
    while !file.is_empty() {
        let says = 4 + file.first_chunk().map_or(0, |&two| u16::from_le_bytes(two) as usize);
        let (piece, rest) = file.split_at(file.len().min(says));
        pieces.push(piece);
        file = rest;
    }
    pieces
}

/// A step file with what was found left out, as the crate has it: an error of record kind 4 for each of record kind 5.
pub fn steps_without(file: &[u8]) -> Vec<u8> {
    let mut all = Vec::with_capacity(file.len());
    for piece in records(file) {
        match *piece {
            [6, 0, 5, 0, 1, 0, low, high, _, _] => all.extend([4, 0, 4, 0, 1, 0, low, high]),
            _ => all.extend(piece),
        }
    }
    all
}

/// The first error of code 1 in a step file that has not record kind 5, or has not found what stands behind the tokens before it: its number
/// among the records, what it has found, if it says so, and what it must have.
pub fn wrong_step(kinds: &[u16], file: &[u8]) -> Option<(usize, Option<u16>, u16)> {
    let mut tokens = 0;
    for (number, piece) in records(file).into_iter().enumerate() {
        let must = behind(kinds, tokens);
        match *piece {
            [3, 0, 3, 0, _, _, raw] => tokens += raw as usize,
            [4, 0, 4, 0, 1, 0, _, _] => return Some((number, None, must)),
            [6, 0, 5, 0, 1, 0, _, _, low, high] => {
                let found = u16::from_le_bytes([low, high]);
                if found != must {
                    return Some((number, Some(found), must));
                }
            }
            _ => {}
        }
    }
    None
}
