//! A case of a parse, and the lines in which cases and answers are written.

use answer::{End, Entry, Run};

#[derive(Clone, PartialEq, Eq, Debug, Hash)]
pub struct Case {
    pub entry: Entry,
    pub kinds: Vec<u16>,
    pub joints: Vec<u64>,
}

impl Case {
    pub fn new(entry: Entry, kinds: Vec<u16>, joints: Vec<u64>) -> Case {
        Case { entry, kinds, joints }
    }

    /// A case with a joint bit for each token.
    pub fn of(entry: Entry, tokens: &[(u16, bool)]) -> Case {
        let mut joints = vec![0; tokens.len().div_ceil(64)];
        for (i, _) in tokens.iter().enumerate().filter(|(_, t)| t.1) {
            joints[i / 64] |= 1 << (i % 64);
        }
        Case { entry, kinds: tokens.iter().map(|t| t.0).collect(), joints }
    }

    pub fn joint(&self, i: usize) -> bool {
        self.joints[i / 64] >> (i % 64) & 1 == 1
    }

    /// `parse ENTRY KINDS JOINTS`
    pub fn line(&self) -> String {
        format!("parse {} {} {}", self.entry.name(), numbers(&self.kinds), hexes(&self.joints))
    }

    /// Reads the KINDS and JOINTS of a line.
    pub fn read(entry: &str, kinds: &str, joints: &str) -> Option<Case> {
        let kinds = list(kinds, |n| n.parse().ok())?;
        let joints = list(joints, |n| u64::from_str_radix(n, 16).ok())?;
        Some(Case { entry: Entry::of(entry)?, kinds, joints })
    }
}

/// Numbers in decimal with commas, `-` for none.
pub fn numbers<T: ToString>(list: &[T]) -> String {
    joined(list.iter().map(T::to_string).collect())
}

/// Numbers in hexadecimal with commas, `-` for none.
pub fn hexes(list: &[u64]) -> String {
    joined(list.iter().map(|n| format!("{n:x}")).collect())
}

fn joined(parts: Vec<String>) -> String {
    if parts.is_empty() {
        return "-".to_string();
    }
    parts.join(",")
}

/// Bytes in hexadecimal, `-` for none.
pub fn bytes(file: &[u8]) -> String {
    if file.is_empty() {
        return "-".to_string();
    }
    file.iter().map(|b| format!("{b:02x}")).collect()
}

/// Reads a list with commas; `-` is none.
pub fn list<T>(text: &str, each: impl Fn(&str) -> Option<T>) -> Option<Vec<T>> {
    if text == "-" {
        return Some(Vec::new());
    }
    text.split(',').map(each).collect()
}

/// What a run says, in a line.
pub fn answer_line(run: &Run) -> String {
    let words = numbers(&run.words);
    match &run.end {
        End::Done => format!("done {} {} {} {} {}", run.tokens, run.events, run.lookups, words, bytes(&run.steps)),
        End::Panic(p) => format!("panic {} {}:{} {}", run.tokens, p.file, p.line, p.said.replace('\n', "\\n")),
        End::Lookups => format!("lookups {}", run.tokens),
        End::Room => format!("room {}", run.tokens),
        End::Depth => format!("depth {}", run.tokens),
    }
}
