//! The search for panics: which sites are reached, from which entries, with which smallest input.

use answer::{permitted, End, Entry, ENTRIES, LOOKUPS};
use differential::case::Case;
use differential::generate;
use differential::rng::Rng;
use differential::text::{kind, names};
use std::collections::BTreeMap;

/// What was seen of one site from one entry.
struct Site {
    count: u64,
    smallest: Case,
    consumed: usize,
    events: usize,
}

#[derive(Default)]
struct Seen {
    cases: u64,
    sites: BTreeMap<(String, Entry), Site>,
    loops: BTreeMap<Vec<(u16, u16)>, String>,
    /// the most lookups since a token of a done run, the most events for each token of one, and their cases
    most: u64,
    most_at: String,
    ratio: f64,
    ratio_at: String,
}

impl Seen {
    fn look(&mut self, entry: Entry, kinds: &[u16], joints: &[u64]) {
        self.cases += 1;
        let run = oq3_parser::entries::parse(entry, kinds, joints, LOOKUPS);
        if run.end == End::Done {
            if entry == Entry::Source && run.tokens != kinds.len() {
                println!("a source file that ends early: {}", names(kinds, |_| false));
            }
            if run.most > self.most {
                self.most = run.most;
                self.most_at = format!("{} {}", entry.name(), names(kinds, |_| false));
            }
            let ratio = run.events as f64 / kinds.len().max(1) as f64;
            if ratio > self.ratio && kinds.len() > 1 {
                self.ratio = ratio;
                self.ratio_at = format!("{} {}", entry.name(), names(kinds, |_| false));
            }
            return;
        }
        let case = Case::new(entry, kinds.to_vec(), joints.to_vec());
        let site = match run.end {
            End::Lookups => {
                // naming the loop is slow, so it is done once for each set of codes
                let codes = differential::spins(&run.words);
                let name = self.loops.entry(codes.clone()).or_insert_with(|| differential::spinning(&case));
                format!("the step limit in {name}, errors {codes:?}")
            }
            _ => differential::site(&case),
        };
        let found = || Site { count: 0, smallest: case.clone(), consumed: run.tokens, events: run.events };
        let known = self.sites.entry((site, entry)).or_insert_with(found);
        if kinds.len() < known.smallest.kinds.len() {
            *known = Site { count: known.count, ..found() };
        }
        known.count += 1;
    }

    fn say(&self) {
        println!("{} runs", self.cases);
        println!("most lookups since a token in a done run: {} ({})", self.most, self.most_at);
        println!("most events for each token in a done run: {:.2} ({})", self.ratio, self.ratio_at);
        for ((site, entry), seen) in &self.sites {
            println!(
                "{site}\n    {} {} times; smallest: {}",
                entry.name(),
                seen.count,
                names(&seen.smallest.kinds, |i| seen.smallest.joint(i))
            );
            println!("    tokens consumed {}, events {}; {}", seen.consumed, seen.events, seen.smallest.line());
        }
    }
}

/// `short ALPHABET LENGTH [ENTRY]` or `random COUNT SEED`.
pub fn run(words: &[&str]) -> bool {
    let mut seen = Seen::default();
    match words {
        ["short", name, length, entries @ ..] => {
            let alphabet = match *name {
                "all" => permitted().to_vec(),
                // without the kinds that lead to a panic by themselves
                "rest" => permitted().iter().copied().filter(|&k| k != kind("ARRAY_KW") && k != kind("DELAY_KW")).collect(),
                "reduced" => generate::reduced(),
                "expressions" => generate::of_expressions(),
                "types" => generate::of_types(),
                _ => return false,
            };
            let Ok(length) = length.parse() else { return false };
            let entries: Vec<Entry> = ENTRIES.into_iter().filter(|e| entries.is_empty() || entries.contains(&e.name())).collect();
            println!("{} kinds, every list of {length}", alphabet.len());
            generate::short(&alphabet, length, |kinds, joints| {
                for &entry in &entries {
                    seen.look(entry, kinds, &[joints]);
                }
            });
        }
        ["random", count, seed] => {
            let (Ok(count), Ok(seed)) = (count.parse(), seed.parse()) else { return false };
            let mut rng = Rng::new(seed);
            for _ in 0..count {
                let case = generate::any(&mut rng);
                seen.look(case.entry, &case.kinds, &case.joints);
            }
        }
        _ => return false,
    }
    seen.say();
    true
}
