//! Wrong lexers: the comparison must find each of them. They read by the rules with one of them bent, or say and leave something else.

use crate::files::smaller;
use crate::lex::{differs, Rooms};
use differential::rng::Rng;
use differential::rules::{Bend, Rules};
use differential::texts;
use lexer::{is_trivia, COMMENT, ERROR, FLOAT_NUMBER, IDENT, MOST, WHITESPACE};
use std::cell::RefCell;

/// What is wrong with what is said or left.
#[derive(Clone, Copy, PartialEq)]
enum Fault {
    None,
    // joint bits
    AcrossComment,
    AcrossBlanks,
    LastJoint,
    NotBeforeName,
    NotBeforeError,
    FloatJoint,
    NoneJoint,
    AllJoint,
    JointLater,
    HighBitFirst,
    // the list and the kinds
    ShortLength,
    LengthFirst,
    Ends,
    TriviaKinds,
    NoTrivia,
    LowByte,
    // what stays
    ClearsBits,
    SetsBits,
    ClearsWord,
    ClearsKind,
    ClearsList,
    KindsOn15,
    JointsOn15,
    ListOn15,
    KindsOn14,
    // the rooms
    OddList,
    ListLess,
    KindsForAll,
    JointsForAll,
    JointsMore,
    KindsOnly,
    ListOnly,
    AnyKinds,
    // the answer
    Place15Kinds,
    Place15None,
    Place15Bytes,
    Kinds15,
    PlaceKinds,
    PlaceBytes,
    CountAll,
    KeepsCount,
    Place14,
    Late14,
    Early14,
    Low14,
    RoomFirst,
    OneAnswer,
    ThreeAnswers,
    ClearsAnswer,
    WritesBehind,
    AnswerLate,
}

/// Runs the wrong lexers on the texts with a name, on each word and mark, on short texts, random ones and those at the limit until one differs;
/// true where each of them does.
pub fn run(seed: u64) -> bool {
    let mut wrong: Vec<(String, Bend, Fault)> = Vec::new();
    wrong.extend(BENDS.iter().map(|&(name, bend)| (name.to_string(), bend, Fault::None)));
    let words = Rules::words().into_iter().filter(|&word| word != "pragma");
    wrong.extend(words.map(|word| (format!("one that has `{word}` for a name"), Bend::Word(word), Fault::None)));
    wrong.extend(Rules::marks().into_iter().map(|mark| (format!("one without the mark {}", mark as char), Bend::Mark(mark), Fault::None)));
    wrong.extend(FAULTS.iter().map(|&(name, fault)| (name.to_string(), Bend::None, fault)));
    let mut cases: Vec<Vec<u8>> = texts::NAMED.iter().map(|(text, ..)| text.to_vec()).collect();
    cases.extend(Rules::words().into_iter().map(|word| word.as_bytes().to_vec()));
    cases.extend(Rules::marks().into_iter().map(|mark| vec![mark]));
    for length in 1..=3 {
        texts::short(texts::TELLING, length, &mut |text| cases.push(text.to_vec()));
    }
    cases.extend((0..2_000).map(|case| texts::random(&[], &mut Rng::of(!seed, case)).1));
    // more tokens than a joint word has bits
    cases.extend([63, 64, 65, 128, 129].map(|tokens| texts::repeated(b";", tokens)));
    cases.extend([MOST, MOST + 1].map(|bytes| texts::repeated(b" ", bytes)));
    // the rules without a fault, and the second lexer's own call, have none
    let right = Reader::new(Bend::None);
    let by_rules = |t: &[u8], k: &mut [u16], j: &mut [u64], l: &mut [u32], a: &mut [u64]| call(&right, Fault::None, t, k, j, l, a);
    for text in &cases {
        if let Some(fault) = differs(&by_rules, text, Rooms::All, seed).or_else(|| differs(&lexer::call, text, Rooms::All, seed)) {
            println!("differential: the lexers of this tool differ on \"{}\": {fault}", text.escape_ascii());
            return false;
        }
    }
    let mut missed = 0;
    for (name, bend, fault) in &wrong {
        let rules = Reader::new(*bend);
        let lex = |t: &[u8], k: &mut [u16], j: &mut [u64], l: &mut [u32], a: &mut [u64]| call(&rules, *fault, t, k, j, l, a);
        let found = cases.iter().enumerate().any(|(i, text)| {
            let bad = |text: &[u8]| differs(&lex, text, Rooms::All, i as u64).is_some();
            bad(text) && (text.len() > 100 || bad(&smaller(text.clone(), bad)))
        });
        if !found {
            println!("differential: {name} was not found");
            missed += 1;
        }
    }
    println!("differential: {} of {} wrong lexers are found", wrong.len() - missed, wrong.len());
    missed == 0
}

const BENDS: &[(&str, Bend)] = &[
    // words
    ("one that takes words in any case", Bend::AnyCase),
    ("one that has `_` for a name", Bend::Underscore),
    ("one with bytes above 127 in a name", Bend::HighInWord),
    ("one with bytes above 127 first in a name", Bend::HighWord),
    // numbers
    ("one that reads floats without exponents", Bend::NoExponent),
    ("one that does not know `E`", Bend::NoGreatExponent),
    ("one that takes `1e` for a float", Bend::OpenExponent),
    ("one that does not take `1.` for a float", Bend::PointLast),
    ("one that does not take `.5` for a float", Bend::PointFirst),
    ("one that does not take `1.e5` for a float", Bend::PointExponent),
    ("one that reads `1..2` as a range", Bend::PointPoint),
    ("one that takes `1__0` for an integer", Bend::TwoUnderscores),
    ("one that takes `1_` for an integer", Bend::LastUnderscore),
    ("one that does not know `0B`", Bend::NoGreatB),
    ("one that does not know `0X`", Bend::NoGreatX),
    ("one that knows `0O`", Bend::GreatO),
    ("one that does not know `0o`", Bend::NoOctal),
    ("one with an octal 8", Bend::Octal8),
    ("one with a binary 2", Bend::Binary2),
    ("one with small hexadecimal digits only", Bend::SmallHex),
    ("one that knows no bases", Bend::NoBase),
    ("one that takes `0b` for an integer", Bend::BareBase),
    ("one that puts a unit to its number", Bend::Unit),
    // strings
    ("one that reads STRING before BIT_STRING", Bend::StringFirst),
    ("one without bit strings", Bend::NoBits),
    ("one that takes `\"0__1\"` for a bit string", Bend::BitsTwo),
    ("one that takes `\"0_\"` for a bit string", Bend::BitsLast),
    ("one that takes '01' for a bit string", Bend::BitsSingle),
    ("one without single quotes", Bend::NoSingle),
    ("one that takes an empty string", Bend::Empty),
    ("one that takes a tab in a string", Bend::Tab),
    ("one that takes line ends in a string", Bend::Lines),
    ("one that knows escapes", Bend::Escapes),
    ("one that takes an open string to the end", Bend::OpenString),
    ("one that takes a string to the last quote", Bend::LongString),
    ("one that closes a string with the other quote", Bend::AnyQuote),
    // comments
    ("one whose comments nest", Bend::Nests),
    ("one that takes an open comment to the end", Bend::OpenComment),
    ("one that takes a comment to the last close", Bend::LongComment),
    ("one that does not close after two stars", Bend::Stars),
    ("one that takes `/*/` for a comment", Bend::OneStar),
    ("one whose comment takes the CR", Bend::CommentCr),
    ("one whose comment takes the LF", Bend::CommentLf),
    ("one whose comment needs a line end", Bend::CommentEnd),
    // pragmas and annotations
    ("one whose pragma takes the CR", Bend::PragmaCr),
    ("one whose `#pragma` needs a blank", Bend::PragmaBlank),
    ("one that takes `pragmatic` for a pragma", Bend::PragmaWord),
    ("one that has `pragma` alone for a keyword", Bend::PragmaBare),
    ("one that does not know `#pragma`", Bend::NoPoundPragma),
    ("one whose pragma ends before a byte above 127", Bend::PragmaHigh),
    ("one whose annotation takes the CR", Bend::AnnotationCr),
    ("one whose annotation is a word", Bend::AnnotationWord),
    ("one that takes `@1` for an annotation", Bend::AnnotationAny),
    ("one that reads `@x` as AT IDENT", Bend::NoAnnotation),
    ("one that reads `$0` as DOLLAR INT_NUMBER", Bend::NoHardware),
    ("one that takes `$0_1` for a qubit", Bend::HardwareUnderscore),
    ("one that takes `$q` for a qubit", Bend::HardwareName),
    // white space, what is no token, marks
    ("one with a form feed as white space", Bend::FormFeed),
    ("one with a vertical tab as white space", Bend::VerticalTab),
    ("one with NUL as white space", Bend::Nul),
    ("one with CR as an error", Bend::NoCr),
    ("one with a token for each blank", Bend::Blanks),
    ("one with one error for a character", Bend::Characters),
    ("one that puts errors together", Bend::Errors),
    ("one that glues `==`", Bend::Glued),
    ("one with the shortest match", Bend::Shortest),
];

const FAULTS: &[(&str, Fault)] = &[
    ("one that is joint across a comment", Fault::AcrossComment),
    ("one that is joint across blanks", Fault::AcrossBlanks),
    ("one whose last token is joint", Fault::LastJoint),
    ("one that is not joint before a name", Fault::NotBeforeName),
    ("one that is not joint before an error", Fault::NotBeforeError),
    ("one whose floats are joint", Fault::FloatJoint),
    ("one without joint bits", Fault::NoneJoint),
    ("one with all joint bits", Fault::AllJoint),
    ("one with the joint bit on the second", Fault::JointLater),
    ("one with its highest joint bit first", Fault::HighBitFirst),
    ("one with a length one short and the next one longer", Fault::ShortLength),
    ("one with the length first", Fault::LengthFirst),
    ("one with ends for lengths", Fault::Ends),
    ("one with trivia among the kinds", Fault::TriviaKinds),
    ("one without trivia in the list", Fault::NoTrivia),
    ("one with a byte of a length", Fault::LowByte),
    ("one that clears the bits behind the last token", Fault::ClearsBits),
    ("one that sets the bits behind the last token", Fault::SetsBits),
    ("one that clears the next joint word", Fault::ClearsWord),
    ("one that clears the next kind", Fault::ClearsKind),
    ("one that clears the next list word", Fault::ClearsList),
    ("one that writes a kind and refuses", Fault::KindsOn15),
    ("one that writes a joint word and refuses", Fault::JointsOn15),
    ("one that writes a list word and refuses", Fault::ListOn15),
    ("one that writes a kind of a text that is too long", Fault::KindsOn14),
    ("one that refuses a list room of odd length", Fault::OddList),
    ("one that takes a list room that is a word short", Fault::ListLess),
    ("one that wants a kind for trivia too", Fault::KindsForAll),
    ("one that wants joint bits for trivia too", Fault::JointsForAll),
    ("one that always wants a joint word more", Fault::JointsMore),
    ("one that asks for the room of kinds alone", Fault::KindsOnly),
    ("one that asks for the list room alone", Fault::ListOnly),
    ("one that does not ask for the room of kinds", Fault::AnyKinds),
    ("one whose 15 has the kinds for its place", Fault::Place15Kinds),
    ("one whose 15 has the place 0", Fault::Place15None),
    ("one whose 15 has the bytes for its place", Fault::Place15Bytes),
    ("one that counts kinds in a 15", Fault::Kinds15),
    ("one whose place is the kinds", Fault::PlaceKinds),
    ("one whose place is the bytes", Fault::PlaceBytes),
    ("one that counts all tokens for kinds", Fault::CountAll),
    ("one that leaves the kinds of a refusal as they were", Fault::KeepsCount),
    ("one whose 14 has a place", Fault::Place14),
    ("one that takes a byte more", Fault::Late14),
    ("one that takes a byte less", Fault::Early14),
    ("one that looks at 16 bits of the length", Fault::Low14),
    ("one that says 15 before 14", Fault::RoomFirst),
    ("one that takes an answer of one word", Fault::OneAnswer),
    ("one that wants an answer of three words", Fault::ThreeAnswers),
    ("one that clears a short answer", Fault::ClearsAnswer),
    ("one that writes behind its answer", Fault::WritesBehind),
    ("one that says 100 behind 14 and 15", Fault::AnswerLate),
];

/// The rules with a fault. They are slow, so they read a text once for all its calls, and a long one not at all.
struct Reader {
    rules: Rules,
    last: RefCell<(Vec<u8>, Vec<(u16, usize)>)>,
}

impl Reader {
    fn new(bend: Bend) -> Reader {
        Reader { rules: Rules::new(bend), last: RefCell::default() }
    }

    fn lex(&self, text: &[u8]) -> Vec<(u16, usize)> {
        if text.len() > 5_000 {
            return lexer::lex(text);
        }
        let mut last = self.last.borrow_mut();
        if last.0 != text {
            *last = (text.to_vec(), self.rules.lex(text));
        }
        last.1.clone()
    }
}

/// The call over these rules, with a fault.
fn call(rules: &Reader, fault: Fault, text: &[u8], kinds: &mut [u16], joints: &mut [u64], tokens: &mut [u32], answer: &mut [u64]) -> u32 {
    let is = |other: Fault| fault == other;
    let least = if is(Fault::OneAnswer) { 1 } else { 2 + is(Fault::ThreeAnswers) as usize };
    if answer.len() < least && !is(Fault::AnswerLate) {
        if is(Fault::ClearsAnswer) {
            answer.fill(0);
        }
        return 100;
    }
    let mut says = |code: u32, place: usize, count: usize| {
        if answer.len() < least {
            return if code == 0 { 100 } else { code };
        }
        answer[0] = place as u64;
        if answer.len() > 1 && !(is(Fault::KeepsCount) && code != 0) {
            answer[1] = count as u64;
        }
        if is(Fault::WritesBehind) && answer.len() > 2 {
            answer[2] = 0;
        }
        code
    };
    let most = match fault {
        Fault::Late14 => MOST + 1,
        Fault::Early14 => MOST - 1,
        _ => MOST,
    };
    let over = text.len() > most && !(is(Fault::Low14) && text.len() % 65_536 < 10);
    let list = rules.lex(text);
    let shown: Vec<usize> = (0..list.len()).filter(|&i| is(Fault::TriviaKinds) || !is_trivia(list[i].0)).collect();
    let (all, count) = (list.len(), shown.len());
    let words = match fault {
        Fault::JointsForAll => all.div_ceil(64),
        Fault::JointsMore => count / 64 + 1,
        _ => count.div_ceil(64),
    };
    let small = match fault {
        Fault::KindsOnly => kinds.len() < count,
        Fault::ListOnly => tokens.len() < 2 * all,
        Fault::AnyKinds => joints.len() < words || tokens.len() < 2 * all,
        Fault::KindsForAll => kinds.len() < all || joints.len() < words || tokens.len() < 2 * all,
        Fault::OddList => kinds.len() < count || joints.len() < words || tokens.len() < 2 * all || tokens.len() % 2 == 1,
        Fault::ListLess => kinds.len() < count || joints.len() < words || tokens.len() + 1 < 2 * all,
        _ => kinds.len() < count || joints.len() < words || tokens.len() < 2 * all,
    };
    if over && !(is(Fault::RoomFirst) && small) {
        if let (Fault::KindsOn14, [first, ..]) = (fault, &mut *kinds) {
            *first = IDENT;
        }
        return says(14, if is(Fault::Place14) { text.len() } else { 0 }, 0);
    }
    if small {
        match fault {
            Fault::KindsOn15 => kinds.iter_mut().take(1).for_each(|word| *word = list[0].0),
            Fault::JointsOn15 => joints.iter_mut().take(1).for_each(|word| *word &= !1),
            Fault::ListOn15 => tokens.iter_mut().take(1).for_each(|word| *word = list[0].0 as u32),
            _ => {}
        }
        let place = match fault {
            Fault::Place15Kinds => count,
            Fault::Place15None => 0,
            Fault::Place15Bytes => text.len(),
            _ => all,
        };
        return says(15, place, if is(Fault::Kinds15) { count } else { 0 });
    }
    let mut end = 0;
    let mut written: Vec<u32> = Vec::new();
    for (i, &(kind, length)) in list.iter().enumerate() {
        end += length;
        let mut length = length as u32;
        match fault {
            Fault::ShortLength if i == 0 && all > 1 && length > 1 => length -= 1,
            Fault::ShortLength if i == 1 && list[0].1 > 1 => length += 1,
            Fault::Ends => length = end as u32,
            Fault::LowByte => length %= 256,
            _ => {}
        }
        match fault {
            Fault::NoTrivia if is_trivia(kind) => {}
            Fault::LengthFirst => written.extend([length, kind as u32]),
            _ => written.extend([kind as u32, length]),
        }
    }
    // with a fault the rooms may hold less
    tokens.iter_mut().zip(&written).for_each(|(word, &now)| *word = now);
    kinds.iter_mut().zip(&shown).for_each(|(word, &i)| *word = list[i].0);
    for (n, &i) in shown.iter().enumerate() {
        let behind = list[i + 1..].iter().map(|token| token.0);
        let next = match fault {
            Fault::AcrossComment => behind.clone().find(|&kind| kind != COMMENT),
            Fault::AcrossBlanks => behind.clone().find(|&kind| kind != WHITESPACE),
            _ => behind.clone().next(),
        };
        let joint = match (fault, next) {
            (Fault::AllJoint, _) => true,
            (Fault::NoneJoint, _) => false,
            (Fault::FloatJoint, _) if list[i].0 == FLOAT_NUMBER => true,
            (Fault::LastJoint, None) => true,
            (Fault::NotBeforeName, Some(IDENT)) | (Fault::NotBeforeError, Some(ERROR)) => false,
            (Fault::JointLater, _) => i > 0 && !is_trivia(list[i - 1].0),
            (_, next) => next.is_some_and(|kind| !is_trivia(kind)),
        };
        let bit = if is(Fault::HighBitFirst) { 63 - n % 64 } else { n % 64 };
        if let Some(word) = joints.get_mut(n / 64) {
            *word = *word & !(1 << bit) | (joint as u64) << bit;
        }
    }
    match (fault, count % 64) {
        (Fault::ClearsBits, used @ 1..) => joints[count / 64] &= !(u64::MAX << used),
        (Fault::SetsBits, used @ 1..) => joints[count / 64] |= u64::MAX << used,
        (Fault::ClearsWord, _) => joints.iter_mut().skip(words).for_each(|word| *word = 0),
        (Fault::ClearsKind, _) => kinds.iter_mut().skip(count).for_each(|word| *word = 0),
        (Fault::ClearsList, _) => tokens.iter_mut().skip(2 * all).for_each(|word| *word = 0),
        _ => {}
    }
    let place = match fault {
        Fault::PlaceKinds => count,
        Fault::PlaceBytes => text.len(),
        _ => all,
    };
    says(0, place, if is(Fault::CountAll) { all } else { count })
}
