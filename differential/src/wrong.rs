//! Wrong ports: the comparison must find each of them. All but the first are the port with one fault put in behind it.

use crate::events::{any, differs, smaller, Calls, PORT};
use crate::port::{check, resolve};
use answer::{read_steps, write_step, Step, EXPECTED, FAULT};
use differential::found;
use differential::rng::Rng;

/// A resolution that writes another step for some.
macro_rules! writes {
    ($step:pat => $other:expr) => {
        Calls { resolve: |w, s, a| rewrites(w, s, a, |step| if let $step = step { $other } else { step }), ..PORT }
    };
}

/// Runs the wrong ports on random lists until one differs; true where each of them does.
pub fn run(seed: u64) -> bool {
    let wrong: &[(&str, Calls)] = &[
        ("one that refuses all", Calls { check: |_, answer| refuse(answer), resolve: |_, _, answer| refuse(answer) }),
        ("a check with another number", Calls { check: |w, a| check(w, a).max(1), ..PORT }),
        ("a check with a place one further", Calls { check: |w, a| then(check(w, a), a, |a| a[0] += 1), ..PORT }),
        ("a check that writes behind its place", Calls { check: |w, a| then(check(w, a), a, |a| *a.last_mut().unwrap() = 3), ..PORT }),
        ("a check that takes an answer of no words", Calls { check: |w, a| if a.is_empty() { 0 } else { check(w, a) }, ..PORT }),
        ("a resolution with a place one further", Calls { resolve: |w, s, a| then(resolve(w, s, a), a, |a| a[0] += 1), ..PORT }),
        ("a resolution that says done for too small a room", Calls { resolve: |w, s, a| resolve(w, s, a) % 10, ..PORT }),
        ("a resolution that leaves the list as it was", Calls { resolve: keeps_the_list, ..PORT }),
        ("a resolution that clears a refused list", Calls { resolve: clears_the_list, ..PORT }),
        ("a resolution that clears the rest of the room", Calls { resolve: clears_the_rest, ..PORT }),
        ("a resolution that wants a byte more", Calls { resolve: wants_more, ..PORT }),
        ("a resolution that enters first first", Calls { resolve: turns_chains, ..PORT }),
        // what an error has found
        ("a check that takes code 2 with a second word of 65,536", Calls { check: |w, a| check(&narrow(w, |code| code == 2), a), ..PORT }),
        ("a check that takes any second word of any code", Calls { check: |w, a| check(&narrow(w, |_| true), a), ..PORT }),
        ("a check that judges what was found", Calls { check: |w, a| check(&judged(w, 65_535), a), ..PORT }),
        ("a check that takes the second word with a sign", Calls { check: |w, a| check(&judged(w, i32::MAX as u32), a), ..PORT }),
        ("a resolution that takes code 2 with a second word of 65,536", Calls { resolve: takes_large, ..PORT }),
        ("a resolution that writes record kind 4 for code 1", writes!(Step::Expected(kind, _) => Step::Error(1, kind))),
        ("a resolution that writes record kind 4 where nothing was found", writes!(Step::Expected(kind, 0) => Step::Error(1, kind))),
        ("a resolution that writes record kind 5 for code 2", writes!(Step::Error(2, kind) => Step::Expected(kind, 0))),
        ("a resolution that swaps expected and found", writes!(Step::Expected(kind, found) => Step::Expected(found, kind))),
        ("a resolution that leaves out what was found", writes!(Step::Expected(kind, _) => Step::Expected(kind, 0))),
        ("a resolution that writes 8 bits of what was found", writes!(Step::Expected(kind, found) => Step::Expected(kind, found % 256))),
        ("a resolution that needs eight bytes for every error", Calls { resolve: needs_eight, ..PORT }),
    ];
    let mut missed = 0;
    for (name, calls) in wrong {
        let mut rng = Rng::new(seed);
        let found = (0..5_000).any(|_| {
            let (words, rooms) = (any(&mut rng), rng.next());
            let bad = |words: &[u32]| differs(*calls, words, rooms).0.is_some();
            bad(&words) && bad(&smaller(words, bad))
        });
        if !found {
            println!("differential: {name} was not found");
            missed += 1;
        }
    }
    println!("differential: {} of {} wrong ports are found", wrong.len() - missed, wrong.len());
    missed == 0
}

fn refuse(answer: &mut [u64]) -> u32 {
    let Some(place) = answer.first_mut() else { return 100 };
    *place = 0;
    9
}

/// Changes an answer that has a place.
fn then(code: u32, answer: &mut [u64], change: impl FnOnce(&mut [u64])) -> u32 {
    if !answer.is_empty() {
        change(answer);
    }
    code
}

/// A list with the low half of the second words of errors, where the code says so and is not 1.
fn narrow(words: &[u32], of: fn(u32) -> bool) -> Vec<u32> {
    let mut list = words.to_vec();
    for pair in list.chunks_exact_mut(2).filter(|pair| pair[0] / 65_536 == 4) {
        let code = pair[0] - FAULT;
        if code != EXPECTED as u32 && of(code) {
            pair[1] %= 65_536;
        }
    }
    list
}

/// A list in which an error of code 1 with a larger second word is none.
fn judged(words: &[u32], most: u32) -> Vec<u32> {
    let mut list = words.to_vec();
    for pair in list.chunks_exact_mut(2).filter(|pair| pair[0] == FAULT + EXPECTED as u32 && pair[1] > most) {
        pair[0] = 0;
    }
    list
}

fn takes_large(words: &mut [u32], steps: &mut [u8], answer: &mut [u64]) -> u32 {
    let mut less = narrow(words, |code| code == 2);
    let code = resolve(&mut less, steps, answer);
    if code == 0 {
        words.copy_from_slice(&less);
    }
    code
}

/// A resolution whose steps are others, in a room of their own: 10 where the room of the call is too small for them.
fn rewrites(words: &mut [u32], steps: &mut [u8], answer: &mut [u64], other: fn(Step) -> Step) -> u32 {
    let (mut list, mut bytes, mut place) = (words.to_vec(), vec![0; 5 * words.len()], [0]);
    if answer.is_empty() || resolve(&mut list, &mut bytes, &mut place) != 0 {
        return resolve(words, steps, answer);
    }
    let mut file = Vec::new();
    for step in read_steps(&bytes[..place[0] as usize]) {
        write_step(&mut file, other(step));
    }
    answer[0] = file.len() as u64;
    if file.len() > steps.len() {
        return 10;
    }
    words.copy_from_slice(&list);
    steps[..file.len()].copy_from_slice(&file);
    0
}

/// Where the room is too small: eight bytes for each error in the bytes needed.
fn needs_eight(words: &mut [u32], steps: &mut [u8], answer: &mut [u64]) -> u32 {
    let code = resolve(words, steps, answer);
    if code == 10 {
        answer[0] -= 2 * found::count(words) as u64;
    }
    code
}

fn keeps_the_list(words: &mut [u32], steps: &mut [u8], answer: &mut [u64]) -> u32 {
    resolve(&mut words.to_vec(), steps, answer)
}

fn clears_the_list(words: &mut [u32], steps: &mut [u8], answer: &mut [u64]) -> u32 {
    let code = resolve(words, steps, answer);
    if code == 10 {
        words.fill(0);
    }
    code
}

fn clears_the_rest(words: &mut [u32], steps: &mut [u8], answer: &mut [u64]) -> u32 {
    let code = resolve(words, steps, answer);
    if code == 0 {
        steps[answer[0] as usize..].fill(0);
    }
    code
}

fn wants_more(words: &mut [u32], steps: &mut [u8], answer: &mut [u64]) -> u32 {
    let less = steps.len().saturating_sub(1);
    resolve(words, &mut steps[..less], answer)
}

/// Each run of enters the other way around.
fn turns_chains(words: &mut [u32], steps: &mut [u8], answer: &mut [u64]) -> u32 {
    let code = resolve(words, steps, answer);
    if code == 0 {
        let mut rest = &mut steps[..answer[0] as usize];
        while !rest.is_empty() {
            let enters = rest.chunks(6).take_while(|record| record[2] == 1).count();
            for i in 0..enters / 2 {
                for byte in 4..6 {
                    rest.swap(6 * i + byte, 6 * (enters - 1 - i) + byte);
                }
            }
            let past = if enters == 0 { 4 + rest[0] as usize } else { 6 * enters };
            rest = &mut rest[past..];
        }
    }
    code
}
