//! Generators of cases: valid programs, damaged copies, random lists, deep nests, all short lists. The same seed gives the same cases.

use crate::case::Case;
use crate::rng::Rng;
use crate::text::{kind, tokens};
use answer::{permitted, Entry, ENTRIES};
use std::cell::RefCell;
use std::collections::HashMap;

/// The most tokens that a parse takes.
pub const TOKENS: usize = 8_192;

/// The operators, glued and not.
pub const OPERATORS: [&str; 32] = [
    "=", "+=", "-=", "*=", "/=", "%=", "&=", "|=", "^=", "<<=", ">>=", "++", "..", "..=", "||", "&&", "==", "!=", "<", ">", "<=", ">=",
    "|", "^", "&", "<<", ">>", "+", "-", "*", "/", "%",
];

/// `a OP b OP c` for every two operators.
pub fn two_operators() -> Vec<Case> {
    let pair = |first: &str, second: &str| Case::of(Entry::Expr, &tokens(&format!("a {first} b {second} c")).expect("tokens"));
    OPERATORS.iter().flat_map(|first| OPERATORS.iter().map(|second| pair(first, second))).collect()
}

/// A token: its kind, and whether it must touch the one before it, as the second half of `==` does.
type Token = (u16, bool);

/// Writes a program, piece by piece.
struct Writer<'r> {
    rng: &'r mut Rng,
    list: Vec<Token>,
}

impl Writer<'_> {
    /// Adds the tokens of a text. What stands in one word of it touches.
    fn put(&mut self, text: &'static str) {
        thread_local! {
            static KNOWN: RefCell<HashMap<&'static str, Vec<Token>>> = RefCell::new(HashMap::new());
        }
        KNOWN.with_borrow_mut(|known| {
            self.list.extend_from_slice(known.entry(text).or_insert_with(|| {
                let mut list = Vec::new();
                for word in text.split_whitespace() {
                    for (i, token) in tokens(word).expect("tokens").into_iter().enumerate() {
                        list.push((token.0, i > 0));
                    }
                }
                list
            }));
        });
    }

    fn one_of(&mut self, texts: &[&'static str]) {
        let text = *self.rng.pick(texts);
        self.put(text);
    }

    /// One to `most` times `each`, with commas.
    fn commas(&mut self, most: usize, mut each: impl FnMut(&mut Self)) {
        for i in 0..1 + self.rng.below(most) {
            if i > 0 {
                self.put(",");
            }
            each(self);
        }
    }

    fn binary(&mut self) {
        self.one_of(&[
            "+", "-", "*", "/", "%", "^", "&", "|", "<", ">", "==", "!=", "<=", ">=", "<<", ">>", "&&", "||", "++", "..", "..=", "+", "*",
        ]);
    }

    fn assigning(&mut self) {
        self.one_of(&["=", "=", "=", "+=", "-=", "*=", "/=", "&=", "|=", "^=", "%=", "<<=", ">>="]);
    }

    fn literal(&mut self) {
        self.one_of(&["7", "7", "2.5", "true", "false", "BIT_STRING", "100 ns", "1.5 us", "2 im"]);
    }

    fn expr(&mut self, left: usize) {
        if left == 0 {
            return match self.rng.below(3) {
                0 => self.literal(),
                1 => self.put("$3"),
                _ => self.put("a"),
            };
        }
        let left = left - 1;
        match self.rng.below(16) {
            0 | 1 => self.literal(),
            2 | 3 => self.put("a"),
            4..=6 => {
                self.expr(left);
                self.binary();
                self.expr(left);
            }
            7 => {
                self.one_of(&["-", "!", "~", "-", "!"]);
                self.expr(left);
            }
            8 => {
                self.put("(");
                self.expr(left);
                self.put(")");
            }
            9 => {
                self.put("f (");
                if self.rng.chance(3, 4) {
                    self.commas(3, |w| w.expr(left));
                }
                self.put(")");
            }
            10 | 11 => self.indexed(left),
            12 => {
                self.scalar(left);
                self.put("(");
                self.expr(left);
                self.put(")");
            }
            13 => {
                self.put("measure");
                self.qubit(left);
            }
            14 => {
                self.put("[");
                self.commas(3, |w| w.expr(left));
                self.put("]");
            }
            _ => self.put("a"),
        }
    }

    /// An identifier with one or two index operators.
    fn indexed(&mut self, left: usize) {
        self.put("a");
        for _ in 0..1 + self.rng.below(2) {
            self.put("[");
            if self.rng.chance(1, 5) {
                self.put("{");
                self.commas(3, |w| w.expr(left));
                self.put("}");
            } else {
                self.commas(2, |w| w.range(left));
            }
            self.put("]");
        }
    }

    /// An expression or a range.
    fn range(&mut self, left: usize) {
        self.expr(left);
        for _ in 0..self.rng.below(3) {
            self.put(":");
            self.expr(left);
        }
    }

    fn designator(&mut self, left: usize) {
        self.put("[");
        self.expr(left.min(1));
        self.put("]");
    }

    fn scalar(&mut self, left: usize) {
        if self.rng.chance(1, 6) {
            self.put("complex");
            if self.rng.chance(2, 3) {
                self.put("[ float");
                if self.rng.chance(1, 2) {
                    self.designator(left);
                }
                self.put("]");
            }
            return;
        }
        self.one_of(&["int", "uint", "float", "angle", "bool", "bit", "duration", "stretch"]);
        if self.rng.chance(1, 2) {
            self.designator(left);
        }
    }

    fn classical(&mut self, left: usize) {
        if self.rng.chance(4, 5) {
            return self.scalar(left);
        }
        self.put("array [");
        self.scalar(left);
        self.put(",");
        self.commas(3, |w| w.expr(left.min(1)));
        self.put("]");
    }

    fn qubit(&mut self, left: usize) {
        match self.rng.below(4) {
            0 => self.put("$1"),
            1 => self.indexed(left.min(1)),
            _ => self.put("q"),
        }
    }

    fn block(&mut self, left: usize) {
        self.put("{");
        if left > 0 {
            for _ in 0..self.rng.below(3) {
                self.stmt(left - 1);
            }
        }
        self.put("}");
    }

    fn modifiers(&mut self, left: usize) {
        for _ in 0..1 + self.rng.below(2) {
            match self.rng.below(4) {
                0 => self.put("inv @"),
                1 => {
                    self.put("pow (");
                    self.expr(left);
                    self.put(") @");
                }
                2 => self.one_of(&["ctrl @", "negctrl @"]),
                _ => {
                    self.one_of(&["ctrl (", "negctrl ("]);
                    self.expr(left);
                    self.put(") @");
                }
            }
        }
    }

    fn gate_call(&mut self, left: usize) {
        if self.rng.chance(1, 4) {
            self.modifiers(left);
        }
        if self.rng.chance(1, 6) {
            self.put("gphase (");
            self.expr(left);
            return self.put(") ;");
        }
        self.put("g");
        if self.rng.chance(1, 3) {
            self.put("(");
            self.commas(2, |w| w.expr(left));
            self.put(")");
        }
        self.commas(3, |w| w.qubit(left));
        self.put(";");
    }

    fn params(&mut self, left: usize) {
        self.put("(");
        if self.rng.chance(3, 4) {
            self.commas(3, |w| {
                if w.rng.chance(1, 4) {
                    w.put("qubit");
                    if w.rng.chance(1, 2) {
                        w.designator(left);
                    }
                } else {
                    w.classical(left);
                }
                w.put("a");
            });
        }
        self.put(")");
    }

    fn stmt(&mut self, left: usize) {
        let less = left.saturating_sub(1);
        match self.rng.below(36) {
            0..=2 => {
                self.classical(less);
                self.put("a");
                if self.rng.chance(2, 3) {
                    self.put("=");
                    self.expr(left);
                }
                self.put(";");
            }
            3 => {
                self.put("const");
                self.classical(less);
                self.put("a =");
                self.expr(left);
                self.put(";");
            }
            4 | 5 => {
                self.put("qubit");
                if self.rng.chance(1, 2) {
                    self.designator(less);
                }
                self.one_of(&["q ;", "q ;", "$0 ;"]);
            }
            6 => {
                self.one_of(&["input", "output"]);
                self.classical(less);
                self.put("a ;");
            }
            7 => {
                self.put("gate g");
                if self.rng.chance(1, 2) {
                    self.put("(");
                    self.commas(3, |w| w.put("a"));
                    self.put(")");
                }
                self.commas(3, |w| w.put("q"));
                self.block(less);
            }
            8 => {
                self.put("def f");
                self.params(less);
                if self.rng.chance(1, 2) {
                    self.put("->");
                    self.scalar(less);
                }
                self.block(less);
            }
            9 => {
                self.put("defcal g");
                if self.rng.chance(1, 2) {
                    self.params(less);
                }
                self.commas(2, |w| w.one_of(&["q", "$0"]));
                if self.rng.chance(1, 3) {
                    self.put("->");
                    self.scalar(less);
                }
                self.block(less);
            }
            10 => {
                self.put("cal");
                self.block(less);
            }
            11 => self.one_of(&["defcalgrammar \"x\" ;", "include \"x\" ;", "OPENQASM 3.0 ;"]),
            12..=14 => {
                self.put("if (");
                self.expr(left);
                self.put(")");
                self.block(less);
                while self.rng.chance(1, 4) {
                    self.put("else if (");
                    self.expr(less);
                    self.put(")");
                    self.block(less);
                }
                if self.rng.chance(1, 3) {
                    self.put("else");
                    self.block(less);
                }
            }
            15 => {
                self.put("while (");
                self.expr(left);
                self.put(")");
                self.block(less);
            }
            16 | 17 => {
                self.put("for");
                self.scalar(less);
                self.put("i in");
                match self.rng.below(3) {
                    0 => {
                        self.put("{");
                        self.commas(3, |w| w.expr(less));
                        self.put("}");
                    }
                    1 => {
                        self.put("[");
                        self.expr(less);
                        self.put(":");
                        self.expr(less);
                        if self.rng.chance(1, 2) {
                            self.put(":");
                            self.expr(less);
                        }
                        self.put("]");
                    }
                    _ => self.put("a"),
                }
                if left > 0 && self.rng.chance(1, 3) {
                    self.stmt(less);
                } else {
                    self.block(less);
                }
            }
            18 => {
                self.put("switch (");
                self.expr(left);
                self.put(") {");
                for _ in 0..1 + self.rng.below(2) {
                    self.put("case");
                    self.commas(2, |w| w.expr(less));
                    self.block(less);
                }
                if self.rng.chance(1, 2) {
                    self.put("default");
                    self.block(less);
                }
                self.put("}");
            }
            19 => self.one_of(&["break ;", "continue ;", "end ;"]),
            20 => {
                self.put("reset");
                self.qubit(less);
                self.put(";");
            }
            21 => {
                self.put("barrier");
                if self.rng.chance(3, 4) {
                    self.commas(3, |w| w.qubit(less));
                }
                self.put(";");
            }
            22 => {
                self.put("delay");
                self.designator(left);
                self.commas(2, |w| w.qubit(less));
                self.put(";");
            }
            23..=25 => self.gate_call(left),
            26..=28 => {
                if self.rng.chance(1, 3) {
                    self.indexed(less);
                } else {
                    self.put("a");
                }
                self.assigning();
                self.expr(left);
                self.put(";");
            }
            29 => {
                self.expr(left);
                self.put(";");
            }
            30 => {
                self.put("let a =");
                self.expr(left);
                self.put(";");
            }
            31 => self.one_of(&["PRAGMA", "ANNOTATION"]),
            32 => {
                self.put("return");
                if self.rng.chance(2, 3) {
                    self.expr(left);
                }
                self.put(";");
            }
            33 => {
                self.put("box");
                if self.rng.chance(1, 2) {
                    self.designator(less);
                }
                self.block(less);
            }
            34 => self.block(less),
            _ => self.one_of(&[
                "extern f ( int ) -> bit ;",
                "qreg q [ 2 ] ;",
                "creg c [ 2 ] ;",
                "measure q -> c ;",
                "durationof ( { g q ; } ) ;",
                "a = { 1 , 2 } ;",
                "a [ : ] = b ;",
                ";",
            ]),
        }
    }
}

/// Tokens with joint bits as lexing gives them (`to_input`): joint where the next token touches and is no identifier, and a float
/// always. `touching` in 4 of the tokens that may stand apart touch.
fn spaced(list: &[Token], touching: usize, rng: &mut Rng) -> Vec<(u16, bool)> {
    let (ident, float) = (kind("IDENT"), kind("FLOAT_NUMBER"));
    let mut out: Vec<(u16, bool)> = Vec::with_capacity(list.len());
    for &(number, must) in list {
        if (must || rng.chance(touching, 4)) && number != ident {
            if let Some(last) = out.last_mut() {
                last.1 = true;
            }
        }
        out.push((number, number == float));
    }
    out
}

/// A valid program, item or expression, but for the few things that the crate does not take.
pub fn valid(entry: Entry, rng: &mut Rng) -> Vec<(u16, bool)> {
    let left = rng.below(4);
    let touching = *rng.pick(&[0, 1, 2, 4]);
    let mut w = Writer { rng, list: Vec::new() };
    match entry {
        Entry::Source => {
            if w.rng.chance(1, 4) {
                w.put("OPENQASM 3.0 ;");
            }
            for _ in 0..w.rng.below(6) {
                w.stmt(left);
            }
        }
        Entry::Item => w.stmt(left),
        Entry::Expr => w.expr(left),
    }
    let list = std::mem::take(&mut w.list);
    spaced(&list, touching, rng)
}

/// A copy with one to four tokens or joint bits damaged.
pub fn damaged(mut list: Vec<(u16, bool)>, rng: &mut Rng) -> Vec<(u16, bool)> {
    let all = permitted();
    for _ in 0..1 + rng.below(4) {
        let size = list.len();
        if size == 0 {
            list.push((*rng.pick(all), rng.chance(1, 2)));
            continue;
        }
        let at = rng.below(size);
        match rng.below(9) {
            0 => list.truncate(at),
            1 => {
                list.drain(..at);
            }
            2 => list.swap(at, rng.below(size)),
            3 => list.insert(at, list[at]),
            4 => {
                list.remove(at);
            }
            5 => list[at].0 = *rng.pick(all),
            6 => list.insert(at, (*rng.pick(all), rng.chance(1, 2))),
            // a piece of the list comes a second time, elsewhere
            7 => {
                let piece: Vec<_> = list[at..size.min(at + 1 + rng.below(6))].to_vec();
                let to = rng.below(size + 1);
                list.splice(to..to, piece);
            }
            _ => list[at].1 ^= true,
        }
    }
    list
}

/// A list of kinds at random, short or of some length, from all the permitted ones or from a few.
pub fn random(rng: &mut Rng) -> Vec<(u16, bool)> {
    let all = permitted();
    let few: Vec<u16> = (0..2 + rng.below(12)).map(|_| *rng.pick(all)).collect();
    let from = if rng.chance(1, 2) { all } else { &few };
    let most = *rng.pick(&[4, 12, 40, 150]);
    let joints = rng.below(5);
    (0..rng.below(most)).map(|_| (*rng.pick(from), rng.chance(joints, 4))).collect()
}

/// A nest: what stands before, what opens once more, what stands innermost, what closes, what stands behind.
struct Nest(&'static str, &'static str, &'static str, &'static str, &'static str);

/// Nests through each counted function and through each way that leads around the cycle.
const NESTS: [Nest; 34] = [
    // expr_bp
    Nest("", "-", "a", "", ""),
    Nest("", "(", "a", ")", ""),
    Nest("", "[", "a", "]", ""),
    Nest("", "a =", "a", "", ""),
    Nest("", "a += ", "a", "", ""),
    Nest("", "f (", "a", ")", ""),
    Nest("", "int (", "a", ")", ""),
    Nest("", "int [", "2", "] ( a )", ""),
    Nest("", "gphase (", "a", ")", ""),
    Nest("", "return", "a", "", ""),
    Nest("", "box", "a", "", ""),
    Nest("", "pow (", "a", ") @ g q", ""),
    Nest("", "ctrl (", "a", ") @ g q", ""),
    // expression_list
    Nest("", "a [", "a", "]", ""),
    Nest("", "a [ {", "a", "} ]", ""),
    Nest("", "a [ 1 :", "a", "]", ""),
    Nest("", "measure q [ (", "a", ") ]", ""),
    Nest("", "g q [", "a", "]", ""),
    Nest("reset", "q [", "a", "]", ";"),
    Nest("barrier", "q [", "a", "]", ";"),
    // stmt
    Nest("", "{", "", "}", ""),
    Nest("", "{", "a ;", "}", ""),
    Nest("", "for int i in a", ";", "", ""),
    Nest("", "for int i in a", "break ;", "", ""),
    Nest("", "for int i in [ 0 : 2 ] {", "a = 1 ;", "}", ""),
    Nest("", "while ( a ) {", "a = 1 ;", "}", ""),
    Nest("", "switch ( a ) { case 1 {", "a ;", "} }", ""),
    Nest("", "gate g q {", "", "}", ""),
    // if_stmt
    Nest("if ( a ) { }", "else if ( a ) { }", "", "", ""),
    Nest("", "if ( a ) {", "a ;", "}", ""),
    // type_spec and complex_type_spec
    Nest("", "array [", "int", ", 2 ]", "a ;"),
    Nest("", "array [ int , ", "2", "] ( a )", ""),
    Nest("", "complex [", "float", "]", "a ;"),
    Nest("", "complex [", "float [ 2 ]", "]", "( a )"),
];

/// How many nests there are.
pub fn nests() -> usize {
    NESTS.len()
}

/// The nest of that number, `deep` times, in full or cut after its innermost part.
pub fn nest(number: usize, deep: usize, cut: bool) -> Vec<(u16, bool)> {
    let Nest(before, open, inner, close, behind) = NESTS[number];
    let (closing, after) = if cut { (0, "") } else { (deep, behind) };
    let parts = [(before, 1), (open, deep), (inner, 1), (close, closing), (after, 1)];
    let text: Vec<String> = parts.iter().map(|(part, times)| format!("{part} ").repeat(*times)).collect();
    tokens(&text.concat()).expect("tokens")
}

/// A case at random: valid, damaged, a random list, a nest near the depth limit.
pub fn any(rng: &mut Rng) -> Case {
    let entry = *rng.pick(&ENTRIES);
    let mut list = match rng.below(20) {
        0..=4 => valid(entry, rng),
        5..=14 => {
            // a program also goes to the entries that read less
            let whole = *rng.pick(&ENTRIES);
            let list = valid(whole, rng);
            damaged(list, rng)
        }
        15..=18 => random(rng),
        _ => {
            let deep = *rng.pick(&[1, 2, 3, 10, 15, 16, 20, 21, 22, 30, 31, 32, 33, 40, 61, 62, 63, 64, 65, 66, 80]);
            let list = nest(rng.below(NESTS.len()), deep, rng.chance(1, 3));
            if rng.chance(1, 4) {
                damaged(list, rng)
            } else {
                list
            }
        }
    };
    list.truncate(TOKENS);
    Case::of(entry, &list)
}

/// Every list of `length` kinds out of an alphabet, each with no joint bit, and once more with all of them where that can matter: where
/// two neighbours can be glued.
pub fn short(alphabet: &[u16], length: usize, mut each: impl FnMut(&[u16], u64)) {
    let glues = gluing();
    let mut at = vec![0; length];
    let mut list = vec![0; length];
    loop {
        for (slot, &i) in list.iter_mut().zip(&at) {
            *slot = alphabet[i];
        }
        each(&list, 0);
        if list.windows(2).any(|w| glues[w[0] as usize][w[1] as usize]) {
            each(&list, u64::MAX);
        }
        let Some(i) = (0..length).rev().find(|&i| at[i] + 1 < alphabet.len()) else { return };
        at[i] += 1;
        at[i + 1..].fill(0);
    }
}

/// Which kind can be glued to which: the first two of each glued operator, and `.` or `<` or `>` before its `=`.
fn gluing() -> Vec<Vec<bool>> {
    let size = answer::kinds().len();
    let mut glues = vec![vec![false; size]; size];
    for row in answer::kinds() {
        if let Some(parts) = row.why.strip_prefix("glued by the parser of ") {
            let parts: Vec<u16> = parts.split(", ").map(kind).collect();
            glues[parts[0] as usize][parts[1] as usize] = true;
        }
    }
    glues
}

/// Kinds by their names or spellings.
pub fn alphabet(text: &str) -> Vec<u16> {
    text.split_whitespace().map(|word| tokens(word).expect("a token")[0].0).collect()
}

/// The reduced alphabet: one kind of nearly every class that the grammar tells apart.
pub fn reduced() -> Vec<u16> {
    alphabet("; , ( ) { } [ ] < @ - . : = > ! IDENT HARDWAREIDENT INT_NUMBER STRING int complex array qubit const def for in if else switch case delay measure return gate")
}

/// What expressions, indexes and sets are made of.
pub fn of_expressions() -> Vec<u16> {
    alphabet("IDENT INT_NUMBER ( ) [ ] { } , : = - ;")
}

/// What types and parameters are made of.
pub fn of_types() -> Vec<u16> {
    alphabet("array complex int [ ] ( ) , IDENT INT_NUMBER - > def")
}
