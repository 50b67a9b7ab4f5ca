//! Holds the lines `runs` and `breaks` of the grammar's definitions to the crate: each function says that it is called (tools/least).

use answer::{permitted, set_hook, with_stack, Bounds, Entry, Ev, ENTRIES, LOOKUPS};
use calls::Noted;
use differential::case::{hexes, numbers, Case};
use differential::replay::{self, LARGEST};
use differential::{generate, text};
use std::cell::OnceCell;
use std::collections::{BTreeMap, BTreeSet};
use std::io::BufRead;

/// A loop that spins is found sooner than the port finds it: no short list looks so often otherwise.
const BOUNDS: Bounds = Bounds { lookups: 999, ..LOOKUPS };

/// The functions that a case calls.
fn noted(case: &Case) -> BTreeMap<&'static str, Noted> {
    calls::noted(|| {
        oq3_called::entries::parse(case.entry, &case.kinds, &case.joints, BOUNDS);
    })
}

/// Whether the build that notes its calls does with a case what the oracle does.
fn agrees(case: &Case) -> bool {
    let crates = oq3_parser::entries::parse(case.entry, &case.kinds, &case.joints, BOUNDS);
    crates == oq3_called::entries::parse(case.entry, &case.kinds, &case.joints, BOUNDS)
}

/// What short lists are known to do, by function: the first, and so a shortest, that runs it, one that breaks it, and all messages that it
/// reports itself.
#[derive(Default)]
struct Short {
    runs: BTreeMap<&'static str, Case>,
    breaks: BTreeMap<&'static str, Case>,
    own: Messages,
}

/// Messages, by the function that reports them.
type Messages = BTreeMap<String, BTreeSet<String>>;

impl Short {
    fn look(&mut self, alphabet: &[u16], length: usize) {
        generate::short(alphabet, length, |kinds, joints| {
            for entry in ENTRIES {
                let case = Case::new(entry, kinds.to_vec(), vec![joints]);
                for (place, noted) in noted(&case) {
                    let map = if noted.clean() { &mut self.runs } else { &mut self.breaks };
                    map.entry(place).or_insert_with(|| case.clone());
                    if !noted.own.is_empty() {
                        self.own.entry(place.to_string()).or_default().extend(noted.own);
                    }
                }
            }
        });
    }

    /// Every list of at most two permitted kinds, and of three of the reduced alphabet.
    fn all() -> Short {
        let mut short = Short::default();
        for length in 0..=2 {
            short.look(permitted(), length);
        }
        short.look(&generate::reduced(), 3);
        short
    }
}

fn shown(case: &Case) -> String {
    format!("{} {}", case.entry.name(), text::names(&case.kinds, |i| case.joint(i)))
}

/// A list that runs a function and is what is left of a case's tokens when some are taken out, from any entry.
fn within(place: &str, case: &Case) -> Option<Case> {
    let size = case.kinds.len();
    let kept = |set: u32| -> Vec<(u16, bool)> { (0..size).filter(|i| set >> i & 1 == 1).map(|i| (case.kinds[i], case.joint(i))).collect() };
    (0..(1u32 << size) - 1)
        .flat_map(|set| ENTRIES.map(|entry| Case::of(entry, &kept(set))))
        .find(|case| noted(case).get(place).is_some_and(Noted::clean))
}

/// The lines of `replay` for a case, each with its answer: mode 0, and mode 1 where a node of an operator is made; in rooms of the peak.
fn lines(case: &Case) -> Result<Vec<String>, String> {
    let operators = ["BIN_EXPR", "ASSIGNMENT_STMT"].map(|name| Ev::Start(text::kind(name), 0).words()[0]);
    let made = replay::run(case, 0, LARGEST).words.chunks(Ev::WORDS).any(|event| operators.contains(&event[0]));
    let mut lines = Vec::new();
    for mode in 0..=made as u64 {
        let room = Ev::WORDS * replay::run(case, mode, LARGEST).peak;
        if mode == 0 && !replay::agrees(case, room) {
            return Err("the crate and what the port must say differ".to_string());
        }
        let line = format!("parse {} {mode} {room} {} {}", case.entry.name(), numbers(&case.kinds), hexes(&case.joints));
        let said = replay::answer(&line).expect("a line");
        lines.extend([line, said]);
    }
    Ok(lines)
}

/// A row: `PLACE never` or `PLACE all`; `PLACE WHAT ENTRY TEXT` with `least`, `runs` or `breaks`; or `- calls ENTRY TEXT`. Where it holds, its
/// lines with their answers; for the last, the places of the functions that are called. The messages that have been reported are kept.
fn row(row: &str, short: &OnceCell<Short>, reported: &mut Messages) -> Result<Vec<String>, String> {
    let parts: Vec<&str> = row.splitn(4, ' ').collect();
    let short = || short.get_or_init(Short::all);
    let (place, what, entry, said) = match parts[..] {
        [place, "never"] => return short().breaks.get(place).map_or(Ok(vec![]), |case| Err(format!("it is broken by {}", shown(case)))),
        [place, "all"] => {
            let known = short().own.get(place).cloned().unwrap_or_default();
            let missed: Vec<String> = known.difference(reported.entry(place.to_string()).or_default()).cloned().collect();
            return if missed.is_empty() { Ok(vec![]) } else { Err(format!("no list that breaks it has it report {missed:?}")) };
        }
        [place, what, entry, said] => (place, what, entry, said),
        _ => return Err("no row".to_string()),
    };
    let entry = Entry::of(entry).ok_or("no entry")?;
    let case = Case::of(entry, &text::tokens(said).ok_or("no tokens")?);
    if !agrees(&case) {
        return Err("the build that notes its calls does not do what the oracle does".to_string());
    }
    let noted = noted(&case);
    if what == "calls" {
        return Ok(noted.into_keys().map(str::to_string).collect());
    }
    let noted = noted.get(place).ok_or("it is not called")?;
    match (what, noted.clean()) {
        ("least" | "runs", false) => return Err("a message is reported before it is finished, or the run stops".to_string()),
        ("breaks", true) => return Err("it is finished without a message".to_string()),
        _ => (),
    }
    if what == "breaks" {
        reported.entry(place.to_string()).or_default().extend(noted.own.iter().cloned());
    }
    if what == "least" {
        let known = short().runs.get(place).filter(|known| known.kinds.len() < case.kinds.len()).cloned();
        if let Some(less) = known.or_else(|| within(place, &case)) {
            return Err(format!("fewer tokens run it: {}", shown(&less)));
        }
    }
    lines(&case)
}

fn main() {
    set_hook();
    let words: Vec<String> = std::env::args().skip(1).collect();
    with_stack(|| match words[..] {
        [] => {
            let (short, mut reported) = (OnceCell::new(), Messages::new());
            for line in std::io::stdin().lock().lines() {
                match row(&line.expect("a line"), &short, &mut reported) {
                    Ok(lines) => println!("good\t{}", lines.join("\t")),
                    Err(why) => println!("wrong\t{why}"),
                }
            }
        }
        // what a case calls, for whoever writes such a line
        _ => {
            let case = Entry::of(&words[0]).zip(text::tokens(&words[1..].join(" "))).map(|(entry, tokens)| Case::of(entry, &tokens));
            for (place, noted) in noted(&case.expect("ENTRY TEXT")) {
                let mut said: Vec<String> = noted.own.iter().map(|text| format!("{text:?}")).collect();
                for (holds, word) in [(noted.clean(), "clean"), (noted.below, "below"), (noted.stopped, "stopped")] {
                    said.extend(holds.then(|| word.to_string()));
                }
                println!("{place} {}", said.join(" "));
            }
        }
    });
}
