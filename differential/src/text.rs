//! Tokens and steps in readable form.

use answer::{kinds, Step};
use std::collections::HashMap;
use std::sync::OnceLock;

/// The number of a kind by its name. It must be one.
pub fn kind(name: &str) -> u16 {
    kinds().iter().position(|k| k.name == name).unwrap_or_else(|| panic!("no kind {name}")) as u16
}

/// What a character, a keyword or a type's name is.
fn spelt(text: &str) -> Option<u16> {
    static TABLE: OnceLock<HashMap<&str, u16>> = OnceLock::new();
    let table = TABLE.get_or_init(|| {
        let mut table = HashMap::new();
        for (number, kind) in kinds().iter().enumerate().filter(|(_, k)| k.permitted) {
            if let Some(rest) = kind.why.strip_prefix("the character `` ") {
                table.insert(rest.trim_start_matches('\\').split(' ').next().unwrap(), number as u16);
            } else if let Some((_, word)) = kind.why.split_once('`').filter(|_| kind.why.starts_with("the ")) {
                table.insert(word.trim_end_matches('`'), number as u16);
            }
            table.insert(kind.name, number as u16);
        }
        table
    });
    table.get(text).copied()
}

/// Reads tokens as a lexer would: words stand apart by spaces; inside a word tokens touch. A kind's name is a token of that kind, `"..."`
/// a string, `$0` a hardware qubit, and any other word that is no keyword an identifier. Answers the kinds with joint bits as
/// `to_input` sets them: a token is joint where the next one touches it and is no identifier, and a float always.
pub fn tokens(text: &str) -> Option<Vec<(u16, bool)>> {
    let mut list: Vec<(u16, bool)> = Vec::new();
    for word in text.split_whitespace() {
        let mut touches = false;
        let mut rest = word;
        while let Some(first) = rest.chars().next() {
            let named = |c: char| c.is_ascii_alphanumeric() || c == '_';
            let (length, kind) = if first == '"' {
                (rest[1..].find('"')? + 2, kind("STRING"))
            } else if first == '$' && rest[1..].starts_with(|c: char| c.is_ascii_digit()) {
                (1 + rest[1..].find(|c: char| !c.is_ascii_digit()).unwrap_or(rest.len() - 1), kind("HARDWAREIDENT"))
            } else if first.is_ascii_digit() {
                let length = rest.find(|c: char| !c.is_ascii_digit() && c != '.').unwrap_or(rest.len());
                (length, kind(if rest[..length].contains('.') { "FLOAT_NUMBER" } else { "INT_NUMBER" }))
            } else if named(first) {
                let length = rest.find(|c| !named(c)).unwrap_or(rest.len());
                (length, spelt(&rest[..length]).unwrap_or(kind("IDENT")))
            } else {
                (first.len_utf8(), spelt(&rest[..first.len_utf8()])?)
            };
            if touches && kind != self::kind("IDENT") {
                list.last_mut()?.1 = true;
            }
            list.push((kind, kind == self::kind("FLOAT_NUMBER")));
            touches = true;
            rest = &rest[length..];
        }
    }
    Some(list)
}

/// Tokens by the names of their kinds, `~` after a joint one.
pub fn names(list: &[u16], joint: impl Fn(usize) -> bool) -> String {
    let name = |(i, &k): (usize, &u16)| format!("{}{}", kinds()[k as usize].name, if joint(i) { "~" } else { "" });
    if list.is_empty() {
        return "(no token)".to_string();
    }
    list.iter().enumerate().map(name).collect::<Vec<_>>().join(" ")
}

/// Steps as a tree in one line: `(KIND ...)`, tokens by kind (with `/2` or `/3` where glued), errors as `!code`, `!1:KIND` or, with the kind
/// found, `!1:KIND:KIND`.
pub fn tree(steps: &[Step]) -> String {
    let name = |k: u16| kinds()[k as usize].name;
    let mut out = String::new();
    for step in steps {
        let part = match *step {
            Step::Enter(k) => format!("({}", name(k)),
            Step::Leave => {
                out.push(')');
                continue;
            }
            Step::Token(k, 1) => name(k).to_string(),
            Step::Token(k, raw) => format!("{}/{raw}", name(k)),
            Step::Error(1, k) => format!("!1:{}", name(k)),
            Step::Error(code, _) => format!("!{code}"),
            Step::Expected(k, found) => format!("!1:{}:{}", name(k), name(found)),
        };
        if !out.is_empty() {
            out.push(' ');
        }
        out.push_str(&part);
    }
    out
}
