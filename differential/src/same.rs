//! Holds the builds against each other and against the rules on generated cases, so that what the watched build says of the port's
//! refusals is what the oracle does.

use answer::{kinds, End, Entry, Ev, Run, ENTRIES, LOOKUPS};
use differential::case::{answer_line, numbers, Case};
use differential::rng::Rng;
use differential::{found, generate, lists, replay};

/// Compares `count` cases and a quarter as many lists, from a seed, and the shortest lists of tokens; true where nothing differs.
pub fn run(count: u64, seed: u64) -> bool {
    let mut differing = 0;
    let none = vec![false; kinds().len()];
    let mut seen = Seen { ends: [0; 3], codes: [false; 38], most: 0, nodes: none.clone(), tokens: none, found: vec![0; kinds().len()] };
    let mut rng = Rng::new(seed);
    for length in 0..=1 {
        generate::short(answer::permitted(), length, |kinds, joints| {
            for entry in ENTRIES {
                differing += !one(&Case::new(entry, kinds.to_vec(), vec![joints]), &mut rng, &mut seen) as u64;
            }
        });
    }
    for _ in 0..count {
        let case = generate::any(&mut rng);
        differing += !one(&case, &mut rng, &mut seen) as u64;
    }
    let mut passing = 0u64;
    for _ in 0..count / 4 {
        let words = lists::any(&mut rng, oq3_parser::entries::LAST);
        differing += !list(&words, &mut passing) as u64;
    }
    let [done, panics, stuck] = seen.ends;
    println!(
        "differential: {} cases from seed {seed} ({done} done, {panics} panics, {stuck} past the lookups) and {} lists ({passing} well formed): {differing} differ",
        done + panics + stuck,
        count / 4
    );
    println!("differential: at most {} lookups since a token in a done run within the depth", seen.most);
    println!(
        "differential: {} errors have found {} kinds",
        seen.found.iter().sum::<u64>(),
        seen.found.iter().filter(|&&times| times > 0).count()
    );
    // fewer cases may miss a branch by chance
    differing == 0 && (count < 20_000 || seen.all())
}

/// What the cases have met: how the runs ended, the codes of their errors, the kinds of their nodes and of their tokens, and how often an error
/// has found a kind.
struct Seen {
    ends: [u64; 3],
    /// the most lookups since a token of a done run that keeps to the depth
    most: u64,
    codes: [bool; 38],
    nodes: Vec<bool>,
    tokens: Vec<bool>,
    found: Vec<u64>,
}

/// The kinds of nodes that no line of the grammar makes, and the glued kinds that none consumes.
const NEVER: &str = "MEASURE CONST STMT_LIST TYPE DECLARATION INDEX_KIND ARRAY_LITERAL GATE_OPERAND OLD_STYLE_DECLARATION_STATEMENT \
                     MODIFIER DOT3 COLON2 FAT_ARROW";

impl Seen {
    fn note(&mut self, run: &Run) {
        for w in run.words.chunks(2) {
            match Ev::of(w[0], w[1]) {
                Some(Ev::Start(kind, _)) => self.nodes[kind as usize] = true,
                Some(Ev::Token(kind, _)) => self.tokens[kind as usize] = true,
                Some(Ev::Error(code, ..)) => self.codes[code as usize] = true,
                _ => {}
            }
        }
    }

    /// Whether every message, every node and every token was met that can be: if not, the generators have lost a branch.
    fn all(&self) -> bool {
        let mut good = true;
        for code in 1..38 {
            if !self.codes[code] {
                println!("differential: no case has met the message of code {code}");
                good = false;
            }
        }
        let never: Vec<&str> = NEVER.split_whitespace().collect();
        for (number, kind) in kinds().iter().enumerate() {
            let (token, node) = (kind.permitted || kind.why.starts_with("glued"), kind.why == "a node" || kind.name == "ERROR");
            let missing = token && !self.tokens[number] || node && !self.nodes[number];
            if missing != never.contains(&kind.name) {
                println!("differential: {} was {}", kind.name, if missing { "never met" } else { "met after all" });
                good = false;
            }
            // any token, and the end, can stand where another is expected
            if (kind.permitted || number == found::EOF as usize) != (self.found[number] > 0) {
                println!("differential: {} was found {} times", kind.name, self.found[number]);
                good = false;
            }
        }
        good
    }
}

/// One case in every build.
fn one(case: &Case, rng: &mut Rng, seen: &mut Seen) -> bool {
    let parse = |build: fn(Entry, &[u16], &[u64], answer::Bounds) -> Run, bounds| build(case.entry, &case.kinds, &case.joints, bounds);
    let plain = parse(oq3_parser::entries::parse, LOOKUPS);
    let watched = parse(oq3_watched::entries::parse, LOOKUPS);
    seen.note(&plain);
    seen.ends[match plain.end {
        End::Done => 0,
        End::Panic(_) => 1,
        _ => 2,
    }] += 1;
    let mut faults = Vec::new();
    if (Run { peak: 0, deepest: 0, ..watched.clone() }) != plain {
        faults.push(format!("the watched build says {}", answer_line(&watched)));
    }
    if plain.end == End::Done && watched.deepest <= 64 {
        seen.most = seen.most.max(plain.most);
    }
    if plain.end == End::Done {
        if lists::check(&plain.words) != Ok(plain.events) {
            faults.push("its list is not well formed".to_string());
        }
        if case.entry == Entry::Source && plain.tokens != case.kinds.len() {
            faults.push("it does not end at the end".to_string());
        }
        if oq3_parser::entries::process(&plain.words) != Some(Ok(plain.steps.clone())) {
            faults.push("its list, handed in again, resolves to something else".to_string());
        }
        // with what was found: left out, it is the crate's list and steps again, and the tokens before it are those of the list and the steps
        let list = found::with(&case.kinds, &plain.words);
        let file = lists::steps(&list);
        if lists::check(&list) != Ok(plain.events) || found::without(&list) != plain.words || found::wrong(&case.kinds, &list).is_some() {
            faults.push("its list with what was found is another".to_string());
        }
        if replay::process(&list) != Some(Ok(file.clone())) || found::steps_without(&file) != plain.steps {
            faults.push("its steps with what was found are others".to_string());
        }
        if found::wrong_step(&case.kinds, &file).is_some() || file.len() != plain.steps.len() + 2 * found::count(&list) {
            faults.push("its steps do not say what was found".to_string());
        }
        for pair in list.chunks(2) {
            if let Some(Ev::Error(1, _, kind)) = Ev::of(pair[0], pair[1]) {
                seen.found[kind as usize] += 1;
            }
        }
        // a room of the peak is enough, one less is not, and the tokens before the stop are some of those consumed
        let room = |room| parse(oq3_watched::entries::parse, answer::Bounds { room, ..LOOKUPS });
        if room(watched.peak) != watched {
            faults.push("it needs more than its peak".to_string());
        }
        if watched.peak > 0 {
            let less = room(rng.below(watched.peak));
            if less.end != End::Room || less.tokens > plain.tokens {
                faults.push(format!("less than its peak says {}", answer_line(&less)));
            }
        }
    }
    for fault in &faults {
        println!("differential: {}: {}: {fault}", case.line(), answer_line(&plain));
    }
    faults.is_empty()
}

/// One list of events: the check passes it only if `process` takes it.
fn list(words: &[u32], passing: &mut u64) -> bool {
    let passes = lists::check(words).is_ok();
    *passing += passes as u64;
    match replay::process(words) {
        Some(Ok(_)) => return true,
        // words that are no events, or a kind that the crate has not
        None if !passes
            || words.chunks(2).any(|w| (65_536..262_144).contains(&w[0]) && w[0] % 65_536 > oq3_parser::entries::LAST as u32) =>
        {
            return true;
        }
        Some(Err(_)) if !passes => return true,
        _ => {}
    }
    println!("differential: process {}: the check and the crate differ", numbers(words));
    false
}
