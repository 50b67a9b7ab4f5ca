//! Wrong readers: the comparison must find each of them. They are the port with one fault put in behind it, or a reader in one loop with one
//! test bent.

use crate::files::{any, differs, limits, rows, samples, smaller, split, Calls, PORT};
use crate::port::{read_file, read_step};
use differential::rng::Rng;

/// The whole file by the loop with a fault, and the port's step; and the other way around.
macro_rules! whole {
    ($bend:ident) => {
        Calls { file: |f, a| bent_file(Bend::$bend, f, a), ..PORT }
    };
}
macro_rules! one {
    ($bend:ident) => {
        Calls { step: |f, a| bent_step(Bend::$bend, f, a), ..PORT }
    };
}

/// Runs the wrong readers on rows of records, on the prefixes of a sample, on damaged files and on those at the limits until one differs;
/// true where each of them does.
pub fn run(seed: u64) -> bool {
    let wrong: &[(&str, Calls)] = &[
        // nesting
        ("one that passes a file that ends inside a node", whole!(OpenEnd)),
        ("one that passes a second root", whole!(SecondRoot)),
        ("one that passes an error behind the tree", whole!(ErrorBehind)),
        ("one that passes an error with what was found behind the tree", whole!(ExpectedBehind)),
        ("one that passes a leave below zero", whole!(Below)),
        ("one that refuses a lone token", whole!(LoneToken)),
        ("one that refuses a lone error", whole!(LoneError)),
        ("one that refuses a lone error with what was found", whole!(LoneExpected)),
        ("one that says done for an empty file", whole!(Empty)),
        ("one that counts the depth in 8 bits", whole!(Depth8)),
        ("one that counts the depth in 16 bits", whole!(Depth16)),
        ("one that says 13 before 12", whole!(NestingFirst)),
        ("one with the place of an open node", whole!(OpenPlace)),
        // records: the whole file
        ("one that reads a raw count of 0", whole!(Raw0)),
        ("one that reads a raw count of 4", whole!(Raw4)),
        ("one that says 12 where the record runs past the end", whole!(KindFirst)),
        ("one that reads a leave with a payload", whole!(LeaveLoad)),
        ("one that reads a longer enter", whole!(LongEnter)),
        ("one that passes over records that it does not know", whole!(Unknown)),
        ("one that refuses kinds above 255", whole!(HighKinds)),
        ("one that reads 8 bits of the record kind", whole!(LowKind)),
        ("one that reads 8 bits of the length", whole!(LowLength)),
        ("one that lets a few bytes stand at the end", whole!(FewBytes)),
        ("one that wants a byte behind the last record", whole!(ByteMore)),
        ("one that reads record kind 5 with code 2", whole!(AnyCode)),
        ("one that reads 8 bits of the code", whole!(LowCode)),
        ("one that reads record kind 5 without what was found", whole!(ShortExpected)),
        ("one that reads a longer record of kind 5", whole!(LongExpected)),
        ("one that does not know record kind 5", whole!(NoExpected)),
        ("one that refuses code 1 in record kind 4", whole!(Old)),
        ("one that says 12 for a code where the record runs past the end", whole!(CodeFirst)),
        // records: one step
        ("a step with a raw count of 0", one!(Raw0)),
        ("a step with a raw count of 4", one!(Raw4)),
        ("a step that says 12 where the record runs past the end", one!(KindFirst)),
        ("a step that reads a leave with a payload", one!(LeaveLoad)),
        ("a step that reads a longer enter", one!(LongEnter)),
        ("a step that reads records that it does not know", one!(Unknown)),
        ("a step that refuses kinds above 255", one!(HighKinds)),
        ("a step that reads 8 bits of the record kind", one!(LowKind)),
        ("a step that reads 8 bits of the length", one!(LowLength)),
        ("a step that says the end for a few bytes", one!(FewBytes)),
        ("a step that wants a byte behind its record", one!(ByteMore)),
        ("a step that reads record kind 5 with code 2", one!(AnyCode)),
        ("a step that reads 8 bits of the code", one!(LowCode)),
        ("a step that reads record kind 5 without what was found", one!(ShortExpected)),
        ("a step that reads a longer record of kind 5", one!(LongExpected)),
        ("a step that does not know record kind 5", one!(NoExpected)),
        ("a step that refuses code 1 in record kind 4", one!(Old)),
        ("a step that says 12 for a code where the record runs past the end", one!(CodeFirst)),
        // the answer about a file
        ("one that refuses all", Calls { file: |_, a| refuse(a), ..PORT }),
        ("one that says done for all", Calls { file: |f, a| then(read_file(f, a), a, |_, _| 0), ..PORT }),
        ("one with a place one further", Calls { file: |f, a| then(read_file(f, a), a, |c, a| more(c, &mut a[0], true)), ..PORT }),
        (
            "one with a refusal's place one further",
            Calls { file: |f, a| then(read_file(f, a), a, |c, a| more(c, &mut a[0], c != 0)), ..PORT },
        ),
        ("one with the place of the last good record", Calls { file: last_good, ..PORT }),
        ("one with the number of the record for its place", Calls { file: numbered, ..PORT }),
        (
            "one with 16 bits of the place",
            Calls { file: |f, a| then(read_file(f, a), a, |c, a| set(c, &mut a[0], |p| p % 65_536)), ..PORT },
        ),
        ("one with a record more", Calls { file: |f, a| then(read_file(f, a), a, |c, a| more(c, &mut a[1], c == 0)), ..PORT }),
        ("one that counts records in a refusal", Calls { file: counted, ..PORT }),
        ("one that leaves the records as they were", Calls { file: keeps_records, ..PORT }),
        (
            "one that writes behind its answer",
            Calls { file: |f, a| then(read_file(f, a), a, |c, a| set(c, a.last_mut().unwrap(), |_| 3)), ..PORT },
        ),
        ("one that takes an answer of no words", Calls { file: |f, a| if a.is_empty() { 0 } else { read_file(f, a) }, ..PORT }),
        ("one that takes an answer of one word", Calls { file: takes_one, ..PORT }),
        ("one that clears a short answer", Calls { file: |f, a| clears(read_file(f, a), a), ..PORT }),
        // the answer about a step
        ("a step whose rest is a byte too far", Calls { step: |f, a| stepped(f, a, |_, a| a[0] += 1), ..PORT }),
        ("a step that takes its payload alone", Calls { step: |f, a| stepped(f, a, |_, a| a[0] -= 4), ..PORT }),
        (
            "a step with an error's argument first",
            Calls {
                step: |f, a| {
                    stepped(f, a, |k, a| {
                        if k == 4 {
                            a.swap(2, 3)
                        }
                    })
                },
                ..PORT
            },
        ),
        (
            "a step with the kind found before the kind expected",
            Calls { step: |f, a| stepped(f, a, |k, a| on(k == 5, || a.swap(3, 4))), ..PORT },
        ),
        ("a step without what was found", Calls { step: |f, a| stepped(f, a, |k, a| on(k == 5, || a[4] = 0)), ..PORT }),
        ("a step that says record kind 4 for 5", Calls { step: |f, a| stepped(f, a, |k, a| on(k == 5, || (a[1], a[4]) = (4, 0))), ..PORT }),
        (
            "a step that leaves out code 1",
            Calls { step: |f, a| stepped(f, a, |k, a| on(k == 5, || (a[2], a[3], a[4]) = (a[3], a[4], 0))), ..PORT },
        ),
        (
            "a step without its raw count",
            Calls {
                step: |f, a| {
                    stepped(f, a, |k, a| {
                        if k == 3 {
                            a[3] = 0
                        }
                    })
                },
                ..PORT
            },
        ),
        (
            "a step with its higher byte first",
            Calls { step: |f, a| stepped(f, a, |_, a| a[2] = (a[2] as u16).swap_bytes() as u64), ..PORT },
        ),
        ("a step with 8 bits of its kind", Calls { step: |f, a| stepped(f, a, |_, a| a[2] %= 256), ..PORT }),
        (
            "a step that says the end for a leave",
            Calls {
                step: |f, a| {
                    stepped(f, a, |k, a| {
                        if k == 2 {
                            a[..6].fill(0)
                        }
                    })
                },
                ..PORT
            },
        ),
        (
            "a step with a number that its payload lacks",
            Calls {
                step: |f, a| {
                    stepped(f, a, |k, a| {
                        if k == 1 {
                            a[3] = 1
                        }
                    })
                },
                ..PORT
            },
        ),
        ("a step that leaves its last word as it was", Calls { step: keeps_last, ..PORT }),
        ("a step that writes behind its answer", Calls { step: |f, a| stepped(f, a, |_, a| *a.last_mut().unwrap() = 0), ..PORT }),
        ("a step that tells the kind of a refused record", Calls { step: tells_kind, ..PORT }),
        (
            "a step that says 11 at the end",
            Calls { step: |f, a| then(read_step(f, a), a, |c, _| if f.is_empty() { 11 } else { c }), ..PORT },
        ),
        (
            "a step that refuses a leave",
            Calls { step: |f, a| then(read_step(f, a), a, |c, a| if a.get(1) == Some(&2) { 13 } else { c }), ..PORT },
        ),
        ("a step that takes an answer of five words", Calls { step: takes_five, ..PORT }),
        ("a step that clears a short answer", Calls { step: |f, a| clears(read_step(f, a), a), ..PORT }),
    ];
    let samples = samples();
    let pieces: Vec<_> = samples.iter().map(|file| split(file)).collect();
    let least = samples.iter().min_by_key(|file| file.len()).expect("a sample");
    let mut cases: Vec<Vec<u8>> = Vec::new();
    rows(2, &mut |file| cases.push(file.to_vec()));
    cases.extend((0..=least.len()).map(|length| least[..length].to_vec()));
    cases.extend((0..5_000).map(|case| any(&pieces, &mut Rng::of(!seed, case))));
    // the loop that the faults are put into has none itself
    let right = Calls { file: |f, a| bent_file(Bend::None, f, a), step: |f, a| bent_step(Bend::None, f, a) };
    if let Some(file) = cases.iter().find(|file| differs(right, file, seed).is_some()) {
        println!("differential: the loop of the wrong readers is wrong itself: {file:?}");
        return false;
    }
    cases.extend(limits());
    let mut missed = 0;
    for (name, calls) in wrong {
        let found = cases.iter().enumerate().any(|(i, file)| {
            let bad = |file: &[u8]| differs(*calls, file, i as u64).is_some();
            bad(file) && (file.len() > 1_000 || bad(&smaller(file.clone(), bad)))
        });
        if !found {
            println!("differential: {name} was not found");
            missed += 1;
        }
    }
    println!("differential: {} of {} wrong readers are found", wrong.len() - missed, wrong.len());
    missed == 0
}

/// The fault that is put into the loop.
#[derive(Clone, Copy, PartialEq)]
enum Bend {
    None,
    OpenEnd,
    SecondRoot,
    ErrorBehind,
    Below,
    LoneToken,
    LoneError,
    Empty,
    Depth8,
    Depth16,
    NestingFirst,
    OpenPlace,
    Raw0,
    Raw4,
    KindFirst,
    LeaveLoad,
    LongEnter,
    Unknown,
    HighKinds,
    LowKind,
    LowLength,
    FewBytes,
    ByteMore,
    ExpectedBehind,
    LoneExpected,
    AnyCode,
    LowCode,
    ShortExpected,
    LongExpected,
    NoExpected,
    Old,
    CodeFirst,
}

/// The first record of a file that is not empty: bytes taken, record kind, three numbers.
fn record(bend: Bend, file: &[u8]) -> Result<(usize, u64, [u64; 3]), u32> {
    let two = |at: usize| file[at] as u64 + 256 * file[at + 1] as u64;
    if file.len() < 4 {
        return Err(11);
    }
    let bits = |narrow: bool| if narrow { 256 } else { 65_536 };
    let (length, kind) = (two(0) % bits(bend == Bend::LowLength), two(2) % bits(bend == Bend::LowKind));
    let sound = match kind {
        1 => length == 2 || (bend == Bend::LongEnter && length > 2),
        2 => length == 0 || bend == Bend::LeaveLoad,
        3 => length == 3,
        4 => length == 4,
        5 if bend == Bend::NoExpected => false,
        5 => length == 6 || (bend == Bend::ShortExpected && length == 4) || (bend == Bend::LongExpected && length > 6),
        _ => bend == Bend::Unknown,
    };
    if bend == Bend::KindFirst && !sound {
        return Err(12);
    }
    if bend == Bend::CodeFirst && kind == 5 && file.len() >= 6 && two(4) != 1 {
        return Err(12);
    }
    if 4 + length + (bend == Bend::ByteMore) as u64 > file.len() as u64 {
        return Err(11);
    }
    let (first, second, third) = match kind {
        1 if sound => (two(4), 0, 0),
        3 if sound => (two(4), file[6] as u64, 0),
        4 if sound => (two(4), two(6), 0),
        5 if sound => (two(4) % bits(bend == Bend::LowCode), two(6), if length < 6 { 0 } else { two(8) }),
        _ => (0, 0, 0),
    };
    let least = if bend == Bend::Raw0 { 0 } else { 1 };
    let most = if bend == Bend::Raw4 { 4 } else { 3 };
    let bad = match kind {
        3 => !(least..=most).contains(&second),
        4 => bend == Bend::Old && first == 1,
        5 => bend != Bend::AnyCode && first != 1,
        _ => false,
    };
    if !sound || bad || (bend == Bend::HighKinds && first > 255) {
        return Err(12);
    }
    Ok((4 + length as usize, kind, [first, second, third]))
}

fn bent_file(bend: Bend, file: &[u8], answer: &mut [u64]) -> u32 {
    if answer.len() < 2 {
        return 100;
    }
    answer[1] = 0;
    let (mut at, mut depth, mut records, mut opened) = (0, 0u64, 0, 0);
    while at < file.len() {
        if bend == Bend::FewBytes && records > 0 && file.len() - at < 4 {
            at = file.len();
            break;
        }
        answer[0] = at as u64;
        if bend == Bend::NestingFirst && records > 0 && depth == 0 && file.len() - at >= 4 {
            return 13;
        }
        let (taken, kind, _) = match record(bend, &file[at..]) {
            Ok(read) => read,
            Err(code) => return code,
        };
        let passes = match bend {
            Bend::SecondRoot => kind != 2,
            Bend::ErrorBehind => kind == 4,
            Bend::ExpectedBehind => kind == 5,
            _ => false,
        };
        if records > 0 && depth == 0 && !passes {
            return 13;
        }
        if depth == 0 && kind == 2 && bend != Bend::Below {
            return 13;
        }
        if kind == 1 {
            opened = at;
        }
        depth = if kind == 1 { depth + 1 } else { depth.saturating_sub((kind == 2) as u64) };
        depth %= match bend {
            Bend::Depth8 => 256,
            Bend::Depth16 => 65_536,
            _ => u64::MAX,
        };
        records += 1;
        at += taken;
        let alone = match bend {
            Bend::LoneToken => kind == 3,
            Bend::LoneError => kind == 4,
            Bend::LoneExpected => kind == 5,
            _ => false,
        };
        if alone && depth == 0 {
            return 13;
        }
    }
    answer[0] = at as u64;
    if (records == 0 && bend != Bend::Empty) || (depth > 0 && bend != Bend::OpenEnd) {
        if bend == Bend::OpenPlace {
            answer[0] = opened as u64;
        }
        return 13;
    }
    answer[1] = records;
    0
}

fn bent_step(bend: Bend, file: &[u8], answer: &mut [u64]) -> u32 {
    if answer.len() < 6 {
        return 100;
    }
    answer[..6].fill(0);
    if file.is_empty() || (bend == Bend::FewBytes && file.len() < 4) {
        return 0;
    }
    match record(bend, file) {
        Ok((taken, kind, [first, second, third])) => {
            answer[..5].copy_from_slice(&[taken as u64, kind, first, second, third]);
            0
        }
        Err(code) => code,
    }
}

fn refuse(answer: &mut [u64]) -> u32 {
    if answer.len() < 2 {
        return 100;
    }
    answer[..2].fill(0);
    13
}

/// Changes an answer that was given.
fn then(code: u32, answer: &mut [u64], change: impl FnOnce(u32, &mut [u64]) -> u32) -> u32 {
    if code == 100 {
        return code;
    }
    change(code, answer)
}

fn more(code: u32, word: &mut u64, when: bool) -> u32 {
    *word += when as u64;
    code
}

fn set(code: u32, word: &mut u64, to: fn(u64) -> u64) -> u32 {
    *word = to(*word);
    code
}

fn clears(code: u32, answer: &mut [u64]) -> u32 {
    if code == 100 {
        answer.fill(0);
    }
    code
}

/// Changes the answer about a step that was read, by its record kind.
fn stepped(file: &[u8], answer: &mut [u64], change: impl FnOnce(u64, &mut [u64])) -> u32 {
    let code = read_step(file, answer);
    if code == 0 && !file.is_empty() {
        change(answer[1], answer);
    }
    code
}

fn on(holds: bool, change: impl FnOnce()) {
    if holds {
        change();
    }
}

/// Where each record begins, up to the first that the port does not read.
fn begins(file: &[u8]) -> Vec<usize> {
    let (mut at, mut list, mut step) = (0, vec![0], [0; 6]);
    while at < file.len() && read_step(&file[at..], &mut step) == 0 {
        at += step[0] as usize;
        list.push(at);
    }
    list
}

fn last_good(file: &[u8], answer: &mut [u64]) -> u32 {
    then(read_file(file, answer), answer, |code, answer| {
        let place = answer[0] as usize;
        if code != 0 {
            answer[0] = begins(file).into_iter().filter(|&at| at < place).max().unwrap_or(0) as u64;
        }
        code
    })
}

fn numbered(file: &[u8], answer: &mut [u64]) -> u32 {
    then(read_file(file, answer), answer, |code, answer| {
        let place = answer[0] as usize;
        if code != 0 {
            answer[0] = begins(file).into_iter().filter(|&at| at < place).count() as u64;
        }
        code
    })
}

fn counted(file: &[u8], answer: &mut [u64]) -> u32 {
    then(read_file(file, answer), answer, |code, answer| {
        let place = answer[0] as usize;
        if code != 0 {
            answer[1] = begins(file).into_iter().filter(|&at| at < place).count() as u64;
        }
        code
    })
}

fn keeps_records(file: &[u8], answer: &mut [u64]) -> u32 {
    let before = answer.get(1).copied();
    then(read_file(file, answer), answer, |code, answer| {
        if code != 0 {
            answer[1] = before.unwrap_or(0);
        }
        code
    })
}

fn takes_one(file: &[u8], answer: &mut [u64]) -> u32 {
    if answer.len() != 1 {
        return read_file(file, answer);
    }
    let mut both = [0; 2];
    let code = read_file(file, &mut both);
    answer[0] = both[0];
    code
}

fn takes_five(file: &[u8], answer: &mut [u64]) -> u32 {
    if answer.len() != 5 {
        return read_step(file, answer);
    }
    let mut all = [0; 6];
    let code = read_step(file, &mut all);
    answer.copy_from_slice(&all[..5]);
    code
}

fn keeps_last(file: &[u8], answer: &mut [u64]) -> u32 {
    let before = answer.get(5).copied();
    then(read_step(file, answer), answer, |code, answer| {
        answer[5] = before.unwrap_or(0);
        code
    })
}

fn tells_kind(file: &[u8], answer: &mut [u64]) -> u32 {
    then(read_step(file, answer), answer, |code, answer| {
        if code == 12 {
            answer[1] = file[2] as u64;
        }
        code
    })
}
