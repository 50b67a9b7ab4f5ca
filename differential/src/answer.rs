//! What a run answers, in one shape for every build of the crate: entries, ends, the encodings of docs/RULES.md, the numbers of the
//! messages, and how a panic is caught and named.

use std::cell::{Cell, RefCell};
use std::collections::HashMap;
use std::panic::{catch_unwind, AssertUnwindSafe};
use std::sync::OnceLock;

#[derive(Clone, Copy, PartialEq, Eq, Debug, Hash, PartialOrd, Ord)]
pub enum Entry {
    Source,
    Item,
    Expr,
}

pub const ENTRIES: [Entry; 3] = [Entry::Source, Entry::Item, Entry::Expr];

impl Entry {
    pub fn name(self) -> &'static str {
        match self {
            Entry::Source => "source",
            Entry::Item => "item",
            Entry::Expr => "expr",
        }
    }

    pub fn of(name: &str) -> Option<Entry> {
        ENTRIES.into_iter().find(|e| e.name() == name)
    }
}

/// What a run may use: the bound of `limit` (`limit::PORT` or `limit::CRATE`), and in the watched build also events and unfinished
/// counted calls.
#[derive(Clone, Copy, Debug)]
pub struct Bounds {
    pub lookups: usize,
    pub room: usize,
    pub depth: usize,
}

/// The port's 10,000 lookups since a token, and nothing else bounded.
pub const LOOKUPS: Bounds = Bounds { lookups: 9_999, room: usize::MAX, depth: usize::MAX };

/// The crate as it is.
pub const CRATE: Bounds = Bounds { lookups: usize::MAX, room: usize::MAX, depth: usize::MAX };

/// A panic: where it is in the source, what it says, and, where traces are on, the lines of the grammar on the stack, innermost first.
#[derive(Clone, PartialEq, Eq, Debug, Hash, PartialOrd, Ord)]
pub struct Panic {
    pub file: String,
    pub line: u32,
    pub said: String,
    pub from: String,
}

#[derive(Clone, PartialEq, Eq, Debug)]
pub enum End {
    Done,
    Panic(Panic),
    /// The bound of lookups since a token was passed.
    Lookups,
    /// The watched build's room was full.
    Room,
    /// The watched build's depth was reached.
    Depth,
}

#[derive(Clone, PartialEq, Eq, Debug)]
pub struct Run {
    pub end: End,
    /// The raw counts of the token events written, added up.
    pub tokens: usize,
    /// How many events the list held at the run's end, whatever the end was.
    pub events: usize,
    /// The events as pairs of words, as the list stood at the run's end. Empty where the crate's own step limit ended it.
    pub words: Vec<u32>,
    /// The step file of the resolved list; empty where the run was not done.
    pub steps: Vec<u8>,
    /// The lookups of the whole run.
    pub lookups: u64,
    /// The most lookups since a token.
    pub most: u64,
    /// The most events at any moment, and the most unfinished counted calls (the watched build; 0 in the others).
    pub peak: usize,
    pub deepest: usize,
}

// Events in two words.
pub const START: u32 = 65_536;
pub const FINISH: u32 = 131_072;
pub const TOKEN: u32 = 196_608;
pub const FAULT: u32 = 262_144;

#[derive(Clone, Copy, PartialEq, Eq, Debug)]
pub enum Ev {
    Start(u16, u32),
    Finish,
    Token(u16, u8),
    /// code, argument, and the kind found: any at code 1, and 0 at the others. The crate says no kind found, so it is 0 in its lists.
    Error(u16, u16, u16),
}

/// The code of "expected KIND", the only one that has a kind found.
pub const EXPECTED: u16 = 1;

impl Ev {
    /// How many words an event has.
    pub const WORDS: usize = 2;

    pub fn words(self) -> [u32; Ev::WORDS] {
        match self {
            Ev::Start(kind, distance) => [START + kind as u32, distance],
            Ev::Finish => [FINISH, 0],
            Ev::Token(kind, raw) => [TOKEN + kind as u32, raw as u32],
            Ev::Error(code, argument, found) => [FAULT + code as u32, argument as u32 + 65_536 * found as u32],
        }
    }

    /// The event that two words are, or none.
    pub fn of(w0: u32, w1: u32) -> Option<Ev> {
        let low = (w0 % 65_536) as u16;
        match w0 - low as u32 {
            START => Some(Ev::Start(low, w1)),
            FINISH if low == 0 && w1 == 0 => Some(Ev::Finish),
            TOKEN if (1..=3).contains(&w1) => Some(Ev::Token(low, w1 as u8)),
            FAULT if low == EXPECTED || w1 < 65_536 => Some(Ev::Error(low, w1 as u16, (w1 >> 16) as u16)),
            _ => None,
        }
    }
}

/// One step, as `Output` gives it; and the port's own, an error of code 1 with the kind expected and the kind found.
#[derive(Clone, Copy, PartialEq, Eq, Debug)]
pub enum Step {
    Enter(u16),
    Leave,
    Token(u16, u8),
    Error(u16, u16),
    Expected(u16, u16),
}

/// Adds a step's record to a step file.
pub fn write_step(file: &mut Vec<u8>, step: Step) {
    fn head(file: &mut Vec<u8>, length: u16, kind: u16) {
        file.extend(length.to_le_bytes());
        file.extend(kind.to_le_bytes());
    }
    match step {
        Step::Enter(kind) => {
            head(file, 2, 1);
            file.extend(kind.to_le_bytes());
        }
        Step::Leave => head(file, 0, 2),
        Step::Token(kind, raw) => {
            head(file, 3, 3);
            file.extend(kind.to_le_bytes());
            file.push(raw);
        }
        Step::Error(code, argument) => {
            head(file, 4, 4);
            file.extend(code.to_le_bytes());
            file.extend(argument.to_le_bytes());
        }
        Step::Expected(kind, found) => {
            head(file, 6, 5);
            for number in [EXPECTED, kind, found] {
                file.extend(number.to_le_bytes());
            }
        }
    }
}

/// The steps of a step file that `write_step` made.
pub fn read_steps(file: &[u8]) -> Vec<Step> {
    let two = |at: usize| u16::from_le_bytes([file[at], file[at + 1]]);
    let mut steps = Vec::new();
    let mut at = 0;
    while at < file.len() {
        steps.push(match two(at + 2) {
            1 => Step::Enter(two(at + 4)),
            2 => Step::Leave,
            3 => Step::Token(two(at + 4), file[at + 6]),
            4 => Step::Error(two(at + 4), two(at + 6)),
            _ => Step::Expected(two(at + 6), two(at + 8)),
        });
        at += 4 + two(at) as usize;
    }
    steps
}

// Messages.

const MESSAGES_PAGE: &str = include_str!(concat!(env!("GRISOLEMP"), "/docs/MESSAGES.md"));
const KINDS_PAGE: &str = include_str!(concat!(env!("GRISOLEMP"), "/docs/KINDS.md"));

/// A row of docs/KINDS.md.
pub struct Kind {
    pub name: &'static str,
    pub permitted: bool,
    pub why: &'static str,
}

/// The kinds, by number.
pub fn kinds() -> &'static [Kind] {
    static KINDS: OnceLock<Vec<Kind>> = OnceLock::new();
    KINDS.get_or_init(|| {
        let mut kinds = Vec::new();
        for line in KINDS_PAGE.lines() {
            let Some(row) = line.strip_prefix("| ") else { continue };
            let mut parts = row.split(" | ");
            let Some(Ok(number)) = parts.next().map(str::parse::<usize>) else { continue };
            assert_eq!(number, kinds.len(), "docs/KINDS.md is not in order");
            let name = parts.next().unwrap().trim_matches('`');
            let permitted = parts.next().unwrap() == "yes";
            let why = parts.next().unwrap();
            kinds.push(Kind { name, permitted, why });
        }
        kinds
    })
}

/// The numbers of the permitted kinds.
pub fn permitted() -> &'static [u16] {
    static PERMITTED: OnceLock<Vec<u16>> = OnceLock::new();
    PERMITTED.get_or_init(|| (0..kinds().len()).filter(|&n| kinds()[n].permitted).map(|n| n as u16).collect())
}

/// The messages from code 2 on, with their codes.
pub fn messages() -> Vec<(u16, String)> {
    let mut rows = Vec::new();
    for line in MESSAGES_PAGE.lines() {
        let Some((code, rest)) = line.strip_prefix("| ").and_then(|r| r.split_once(" | `` \"")) else { continue };
        let (text, _) = rest.split_once("\" ``").expect("a row of docs/MESSAGES.md");
        if code != "1" {
            rows.push((code.parse().unwrap(), text.replace("\\n", "\n").replace("\\\"", "\"")));
        }
    }
    rows
}

/// What stands for an error of a list that was handed in: `process` carries it through.
pub fn made_message(code: u16, argument: u16) -> String {
    format!("#{code} {argument}")
}

/// A message's code and argument.
pub fn message(text: &str) -> (u16, u16) {
    static TABLE: OnceLock<HashMap<String, (u16, u16)>> = OnceLock::new();
    let table = TABLE.get_or_init(|| {
        let mut table = HashMap::new();
        for (number, kind) in kinds().iter().enumerate() {
            table.insert(format!("expected {}", kind.name), (1, number as u16));
        }
        for (code, text) in messages() {
            table.insert(text, (code, 0));
        }
        table
    });
    if let Some(&found) = table.get(text) {
        return found;
    }
    let made = text.strip_prefix('#').and_then(|r| r.split_once(' '));
    if let Some((Ok(code), Ok(argument))) = made.map(|(c, a)| (c.parse(), a.parse())) {
        return (code, argument);
    }
    panic!("a message that docs/MESSAGES.md has not: {text:?}")
}

// Panics.

thread_local! {
    static TRACES: Cell<bool> = const { Cell::new(false) };
    static CATCHING: Cell<bool> = const { Cell::new(false) };
    static LAST: RefCell<Option<Panic>> = const { RefCell::new(None) };
    static SEEN: RefCell<HashMap<Vec<usize>, String>> = RefCell::new(HashMap::new());
}

/// Turns the search for a panic's caller on or off, for this thread.
pub fn trace(on: bool) {
    TRACES.set(on);
}

/// Sets the hook that notes a caught panic instead of printing it. Once for a program.
pub fn set_hook() {
    let old = std::panic::take_hook();
    std::panic::set_hook(Box::new(move |info| {
        if !CATCHING.get() {
            return old(info);
        }
        let payload = info.payload();
        let said =
            payload.downcast_ref::<&str>().map(|s| s.to_string()).or_else(|| payload.downcast_ref::<String>().cloned()).unwrap_or_default();
        let place = info.location().unwrap();
        let from = if TRACES.get() { caller() } else { String::new() };
        LAST.set(Some(Panic { file: place.file().to_string(), line: place.line(), said, from }));
    }));
}

/// What `body` does, or the payload and the note of its panic.
pub fn caught<T>(body: impl FnOnce() -> T) -> Result<T, (Box<dyn std::any::Any + Send>, Option<Panic>)> {
    LAST.set(None);
    CATCHING.set(true);
    let result = catch_unwind(AssertUnwindSafe(body));
    CATCHING.set(false);
    result.map_err(|payload| (payload, last_panic()))
}

/// The last panic that was caught on this thread.
pub fn last_panic() -> Option<Panic> {
    LAST.with_borrow(Clone::clone)
}

extern "C" {
    fn _Unwind_Backtrace(each: extern "C" fn(*mut u8, *mut u8) -> i32, list: *mut u8) -> i32;
    fn _Unwind_GetIP(context: *mut u8) -> usize;
}

extern "C" fn note(context: *mut u8, list: *mut u8) -> i32 {
    let list = unsafe { &mut *(list as *mut Vec<usize>) };
    list.push(unsafe { _Unwind_GetIP(context) });
    // 5 is the code that ends the walk
    if list.len() < 40 {
        0
    } else {
        5
    }
}

/// The lines of the grammar on the stack, innermost first, as `FILE:LINE function`. Naming the lines is slow, so it is done once for each
/// stack of return addresses.
fn caller() -> String {
    let mut stack: Vec<usize> = Vec::new();
    unsafe { _Unwind_Backtrace(note, &mut stack as *mut Vec<usize> as *mut u8) };
    if let Some(known) = SEEN.with_borrow(|seen| seen.get(&stack).cloned()) {
        return known;
    }
    let text = std::backtrace::Backtrace::force_capture().to_string();
    let lines: Vec<&str> = text.lines().map(str::trim).collect();
    let mut found = Vec::new();
    for pair in lines.windows(2) {
        if let Some((_, place)) = pair[1].split_once("src/grammar").filter(|_| pair[1].starts_with("at ")) {
            let place = place.rsplit_once(':').map_or(place, |(head, _)| head);
            let name = pair[0].split_once(": ").map_or(pair[0], |(_, name)| name);
            found.push(format!("src/grammar{place} {}", name.rsplit("::").next().unwrap_or(name)));
        }
    }
    let found = found.join(", ");
    SEEN.with_borrow_mut(|seen| seen.insert(stack, found.clone()));
    found
}

/// Runs `body` on a thread with a stack for the deepest nests that 8,192 tokens can make; `$ORACLE_STACK` gives it other bytes, and with 0 it is
/// run on this thread, which must have them: an emulator is three times as fast where there is one thread.
pub fn with_stack<T: Send>(body: impl FnOnce() -> T + Send) -> T {
    let size = std::env::var("ORACLE_STACK").ok().and_then(|text| text.parse().ok()).unwrap_or(1 << 30);
    if size == 0 {
        return body();
    }
    std::thread::scope(|scope| {
        let thread = std::thread::Builder::new().stack_size(size).spawn_scoped(scope, body).expect("a thread");
        thread.join().unwrap_or_else(|payload| std::panic::resume_unwind(payload))
    })
}
