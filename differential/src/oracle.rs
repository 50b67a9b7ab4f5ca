//! The oracle's program. See README.md.

use answer::{set_hook, with_stack, CRATE, LOOKUPS};
use differential::case::{answer_line, bytes, list, Case};
use differential::{replay, text};
use std::io::{BufRead, Write};

mod lexed;
mod record;
mod replays;
mod same;
mod search;
mod tests;

fn main() {
    set_hook();
    let words: Vec<String> = std::env::args().skip(1).collect();
    let words: Vec<&str> = words.iter().map(String::as_str).collect();
    let good = with_stack(|| match words[..] {
        [] => answer_all(),
        ["test"] => tests::run(),
        ["same", count, seed] => match (count.parse(), seed.parse()) {
            (Ok(count), Ok(seed)) => same::run(count, seed),
            _ => usage(),
        },
        ["lexed", count, seed] => match (count.parse(), seed.parse()) {
            (Ok(count), Ok(seed)) => lexed::run(count, seed),
            _ => usage(),
        },
        ["replay", folder] => replays::run(std::path::Path::new(folder)),
        ["record", folder] => record::run(std::path::Path::new(folder), answer_line_of),
        ["search", ref words @ ..] => search::run(words) || usage(),
        _ => usage(),
    });
    std::process::exit(if good { 0 } else { 1 });
}

fn usage() -> bool {
    eprintln!("usage: oracle < LINES");
    eprintln!("       oracle test");
    eprintln!("       oracle same COUNT SEED");
    eprintln!("       oracle lexed COUNT SEED");
    eprintln!("       oracle record FOLDER");
    eprintln!("       oracle replay FOLDER");
    eprintln!("       oracle search short all|rest|reduced|expressions|types LENGTH [ENTRY]");
    eprintln!("       oracle search random COUNT SEED");
    false
}

/// Answers the lines of standard input.
fn answer_all() -> bool {
    let mut out = std::io::BufWriter::new(std::io::stdout());
    for line in std::io::stdin().lock().lines() {
        let Ok(line) = line else { return false };
        if writeln!(out, "{}", answer_line_of(&line)).is_err() {
            return false;
        }
    }
    out.flush().is_ok()
}

fn answer_line_of(line: &str) -> String {
    answer_one(line).unwrap_or_else(|| "bad line".to_string())
}

/// The answer to one line, or none where it is no case.
fn answer_one(line: &str) -> Option<String> {
    let (word, rest) = line.split_once(' ').unwrap_or((line, ""));
    let parts: Vec<&str> = rest.split(' ').collect();
    match (word, &parts[..]) {
        ("parse", [entry, kinds, joints]) => {
            let case = fitting(Case::read(entry, kinds, joints)?)?;
            Some(answer_line(&oq3_parser::entries::parse(case.entry, &case.kinds, &case.joints, LOOKUPS)))
        }
        ("process", [words]) => {
            let words = list(words, |n| n.parse().ok())?;
            Some(match oq3_parser::entries::process(&words)? {
                Ok(file) => format!("done {}", bytes(&file)),
                Err(panic) => format!("panic {}:{} {}", panic.file, panic.line, panic.said),
            })
        }
        ("tree" | "stuck", [entry, ..]) => {
            let entry = answer::Entry::of(entry)?;
            let tokens = text::tokens(rest.split_once(' ').map_or("", |(_, t)| t))?;
            let case = Case::of(entry, &tokens);
            let bounds = if word == "tree" { LOOKUPS } else { CRATE };
            let run = oq3_parser::entries::parse(case.entry, &case.kinds, &case.joints, bounds);
            Some(match run.end {
                answer::End::Done => format!("{} {}", run.tokens, text::tree(&answer::read_steps(&run.steps))),
                _ => answer_line(&run),
            })
        }
        _ => replay::answer(line),
    }
}

/// A case that the crate can be given: kinds of its own, and a joint word for every 64 tokens begun.
fn fitting(case: Case) -> Option<Case> {
    let good = case.kinds.iter().all(|&k| k <= oq3_parser::entries::LAST) && case.joints.len() >= case.kinds.len().div_ceil(64);
    good.then_some(case)
}
