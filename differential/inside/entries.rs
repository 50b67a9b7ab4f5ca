//! The module of entry points that the oracle adds to the crate: it stands inside, so that it sees the parser and the events.

use crate::{
    event::{self, Event},
    grammar,
    input::Input,
    output::Output,
    parser::Parser,
    SyntaxKind,
};
use answer::{Bounds, End, Entry, Ev, Run, Step};

/// The crate's list of a kind number, which must be one of its own.
fn kind(number: u16) -> SyntaxKind {
    SyntaxKind::from(number)
}

fn input(kinds: &[u16], joints: &[u64]) -> Input {
    let mut input = Input::default();
    for (i, &number) in kinds.iter().enumerate() {
        input.push(kind(number));
        if joints[i / 64] >> (i % 64) & 1 == 1 {
            input.was_joint();
        }
    }
    input
}

fn words(events: &[Event]) -> Vec<u32> {
    let mut words = Vec::with_capacity(2 * events.len());
    for event in events {
        let ev = match event {
            Event::Start { kind, forward_parent } => {
                assert_ne!(*forward_parent, Some(0), "a distance of 0 has no encoding");
                Ev::Start(*kind as u16, forward_parent.unwrap_or(0))
            }
            Event::Finish => Ev::Finish,
            Event::Token { kind, n_raw_tokens } => Ev::Token(*kind as u16, *n_raw_tokens),
            Event::Error { msg } => {
                let (code, argument) = answer::message(msg);
                Ev::Error(code, argument, 0)
            }
        };
        words.extend(ev.words());
    }
    words
}

fn steps(output: &Output) -> Vec<u8> {
    let mut file = Vec::new();
    for step in output.iter() {
        let step = match step {
            crate::Step::Enter { kind } => Step::Enter(kind as u16),
            crate::Step::Exit => Step::Leave,
            crate::Step::Token { kind, n_input_tokens } => Step::Token(kind as u16, n_input_tokens),
            crate::Step::Error { msg } => {
                let (code, argument) = answer::message(msg);
                Step::Error(code, argument)
            }
            crate::Step::FloatSplit { .. } => unreachable!("no event makes this step"),
        };
        answer::write_step(&mut file, step);
    }
    file
}

/// The name that the crate gives a kind.
pub fn kind_name(number: u16) -> String {
    format!("{:?}", kind(number))
}

/// The number of the enum's end mark, the highest of its kinds.
pub const LAST: u16 = SyntaxKind::__LAST as u16;

/// One run: token kinds (each at most `LAST`), joint words (one for every 64 tokens begun), and what the run may use.
pub fn parse(entry: Entry, kinds: &[u16], joints: &[u64], bounds: Bounds) -> Run {
    run(entry, &input(kinds, joints), bounds)
}

/// One run on an input.
pub(crate) fn run(entry: Entry, input: &Input, bounds: Bounds) -> Run {
    let mut p = Parser::new(input);
    limit::begin(bounds.lookups);
    watch::begin(bounds.room, bounds.depth);
    let ran = answer::caught(|| match entry {
        Entry::Source => grammar::entry::top::source_file(&mut p),
        Entry::Item => grammar::entry::item(&mut p),
        Entry::Expr => grammar::entry::expression(&mut p),
    });
    let (peak, deepest) = watch::end();
    // The parser outlives the panic: its list says which tokens were consumed.
    let events = p.finish();
    let tokens = events.iter().map(|e| if let Event::Token { n_raw_tokens, .. } = e { *n_raw_tokens as usize } else { 0 }).sum();
    let end = match ran {
        Ok(()) => End::Done,
        Err((payload, panic)) => match payload.downcast_ref::<watch::Stop>() {
            Some(watch::Stop::Room) => End::Room,
            Some(watch::Stop::Depth) => End::Depth,
            // the crate's own bound is a panic of the crate; a lower one is the port's refusal
            None if limit::stuck() && bounds.lookups != limit::CRATE => End::Lookups,
            None => End::Panic(panic.expect("the hook is set")),
        },
    };
    let mut run = Run {
        end,
        tokens,
        events: events.len(),
        words: Vec::new(),
        steps: Vec::new(),
        lookups: limit::lookups(),
        most: limit::most(),
        peak,
        deepest,
    };
    if !limit::stuck() || bounds.lookups != limit::CRATE {
        run.words = words(&events);
    }
    if run.end == End::Done {
        match answer::caught(|| steps(&event::process(events))) {
            Ok(file) => run.steps = file,
            Err((_, panic)) => run.end = End::Panic(panic.expect("the hook is set")),
        }
    }
    run
}

/// The crate's own public call, for the source file: the step file.
pub fn parse_public(kinds: &[u16], joints: &[u64]) -> Vec<u8> {
    limit::begin(limit::CRATE);
    steps(&crate::TopEntryPoint::SourceFile.parse(&input(kinds, joints)))
}

/// `process` on a list of events given as words: the step file or the panic, or none where two words are no event, a kind is not one of the
/// crate's, or an error has found something.
pub fn process(words: &[u32]) -> Option<Result<Vec<u8>, answer::Panic>> {
    if words.len() % 2 != 0 {
        return None;
    }
    let mut events = Vec::with_capacity(words.len() / 2);
    for pair in words.chunks(2) {
        events.push(match Ev::of(pair[0], pair[1])? {
            Ev::Start(number, _) | Ev::Token(number, _) if number > LAST => return None,
            Ev::Start(number, distance) => {
                Event::Start { kind: kind(number), forward_parent: if distance == 0 { None } else { Some(distance) } }
            }
            Ev::Finish => Event::Finish,
            Ev::Token(number, raw) => Event::Token { kind: kind(number), n_raw_tokens: raw },
            Ev::Error(code, argument, 0) => Event::Error { msg: answer::made_message(code, argument) },
            Ev::Error(..) => return None,
        });
    }
    let events = events.into();
    Some(answer::caught(|| steps(&event::process(events))).map_err(|(_, panic)| panic.expect("the hook is set")))
}
