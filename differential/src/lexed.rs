//! The second lexer beside the rules, and the crate's own way from text to steps and back over it: `to_input` and `intersperse_trivia`.

use answer::{End, Entry, ENTRIES, LOOKUPS};
use differential::case::Case;
use differential::generate::TOKENS;
use differential::rng::Rng;
use differential::rules::{Bend, Rules};
use differential::{text, texts};
use lexer::{ERROR, FLOAT_NUMBER, IDENT};

/// Compares `count` texts, those with a name, the samples, and all short ones over the telling bytes; true where nothing differs.
pub fn run(count: u64, seed: u64) -> bool {
    let samples = texts::samples();
    let programs: Vec<Vec<u8>> = samples.iter().map(|sample| sample.text.clone()).collect();
    let rules = Rules::new(Bend::None);
    let mut seen = Seen::default();
    for length in 0..=3 {
        texts::short(texts::TELLING, length, &mut |text| seen.look(&rules, text));
    }
    let short = seen.texts;
    texts::NAMED.iter().for_each(|(text, ..)| seen.look(&rules, text));
    programs.iter().for_each(|text| seen.look(&rules, text));
    for case in 0..count {
        let (_, text) = texts::random(&programs, &mut Rng::of(seed, case));
        seen.look(&rules, &text);
    }
    println!(
        "differential: the second lexer and the crate over it on {count} texts from seed {seed}, {} with a name, {} samples and {short} short \
         ones: {} differ",
        texts::NAMED.len(),
        samples.len(),
        seen.differing
    );
    println!(
        "differential: {} parses over `to_input`, {} of them done; {} texts put together again, {} with an ERROR and so an error in the \
         tree; {} joint bits that the crate has not, {} that it has besides",
        seen.parses, seen.done, seen.whole, seen.told, seen.less, seen.more
    );
    let missed = [seen.parses, seen.done, seen.whole, seen.told, seen.less, seen.more].contains(&0);
    if missed {
        println!("differential: the texts miss one of these");
    }
    seen.differing == 0 && !missed
}

/// What the texts were.
#[derive(Default)]
struct Seen {
    texts: u64,
    parses: u64,
    done: u64,
    /// texts that `intersperse_trivia` was given
    whole: u64,
    /// those of them with an ERROR
    told: u64,
    /// joint bits before an IDENT, and those of a FLOAT_NUMBER
    less: u64,
    more: u64,
    differing: u64,
}

impl Seen {
    fn look(&mut self, rules: &Rules, text: &[u8]) {
        self.texts += 1;
        let Err(fault) = self.compare(rules, text) else { return };
        self.differing += 1;
        if self.differing <= 5 {
            println!("differential: the second lexer on {:?}: {fault}", String::from_utf8_lossy(text));
        }
    }

    fn compare(&mut self, rules: &Rules, text: &[u8]) -> Result<(), String> {
        let must = |holds: bool, fault: &str| if holds { Ok(()) } else { Err(fault.to_string()) };
        // the rules, one by one, take their time
        if text.len() <= 400 {
            must(lexer::lex(text) == rules.lex(text), "the rules have other tokens")?;
        }
        let said = lexer::said(text);
        must(said.tokens.iter().skip(1).step_by(2).sum::<u32>() as usize == text.len(), "the lengths do not add up")?;
        must(said.tokens.iter().skip(1).step_by(2).all(|&length| length > 0), "a token without bytes")?;
        let (kinds, joint) = oq3_lexed::lexed::input(text);
        must(kinds == said.kinds, "`to_input` has other kinds")?;
        // the crate has no joint bit before an IDENT, and one behind a FLOAT_NUMBER that does not end in a point
        let mut at = 0;
        let mut floats = lexer::lex(text).into_iter().filter_map(|(kind, length)| {
            at += length;
            (!lexer::is_trivia(kind)).then(|| kind == FLOAT_NUMBER && text[at - 1] != b'.')
        });
        for (i, &own) in said.joint.iter().enumerate() {
            let float = floats.next().expect("a token");
            let named = kinds.get(i + 1) == Some(&IDENT);
            must(joint[i] == (float || (own && !named)), &format!("the joint bit of token {i}, {}", text::names(&kinds, |i| joint[i])))?;
            self.more += (joint[i] && !own) as u64;
            self.less += (own && !joint[i]) as u64;
        }
        if kinds.len() > TOKENS {
            return Ok(());
        }
        for entry in ENTRIES {
            let case = Case::new(entry, said.kinds.clone(), said.joints(0));
            let run = oq3_lexed::entries::parse(entry, &case.kinds, &case.joints, LOOKUPS);
            must(run == oq3_lexed::lexed::parse(entry, text, LOOKUPS), &format!("another run over `to_input` from {}", entry.name()))?;
            self.parses += 1;
            self.done += (run.end == End::Done) as u64;
            if run.end == End::Done && entry == Entry::Source {
                let (all, whole) = oq3_lexed::lexed::texts(text);
                must(all == text && whole, "the texts of the steps are not the text")?;
                self.whole += 1;
                // a byte that begins no token is told in the tree
                if kinds.contains(&ERROR) {
                    must(run.words.iter().step_by(2).any(|word| word >> 16 == 4), "an ERROR without an error in the tree")?;
                    self.told += 1;
                }
            }
        }
        Ok(())
    }
}
