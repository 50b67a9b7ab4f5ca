//! The port's static library behind safe functions: the thin wrapper for Rust, and what the differential runs and the benchmark call. It
//! needs no other file. Nothing holds the declarations to the library: they are the exported functions of crates/oq3_c/src/lib.rt and
//! crates/oq3_read_c/src/lib.rt, and a slice is a pointer and a length. What each number says stands in docs/RULES.md, and what to lend in
//! include/oq3.h. A program that only reads step files takes the last two and links `oq3_read` instead.

#[link(name = "oq3", kind = "static")]
extern "C" {
    fn oq3_check(words: *const u32, words_length: usize, answer: *mut u64, answer_length: usize) -> u32;
    fn oq3_resolve(
        words: *mut u32,
        words_length: usize,
        steps: *mut u8,
        steps_length: usize,
        answer: *mut u64,
        answer_length: usize,
    ) -> u32;
    fn oq3_parse(
        entry: u32,
        mode: u32,
        kinds: *const u16,
        kinds_length: usize,
        joints: *const u64,
        joints_length: usize,
        room: *mut u32,
        room_length: usize,
        answer: *mut u64,
        answer_length: usize,
    ) -> u32;
    fn oq3_lex(
        text: *const u8,
        text_length: usize,
        kinds: *mut u16,
        kinds_length: usize,
        joints: *mut u64,
        joints_length: usize,
        tokens: *mut u32,
        tokens_length: usize,
        answer: *mut u64,
        answer_length: usize,
    ) -> u32;
    fn oq3_read_file(file: *const u8, file_length: usize, answer: *mut u64, answer_length: usize) -> u32;
    fn oq3_read_step(file: *const u8, file_length: usize, answer: *mut u64, answer_length: usize) -> u32;
}

/// The list check: its number. The place is the first word of `answer`; where that has none, 100 is said and nothing is done.
pub fn check(words: &[u32], answer: &mut [u64]) -> u32 {
    // SAFETY: the slices are valid for the call and do not overlap, and the library reads and writes within them.
    unsafe { oq3_check(words.as_ptr(), words.len(), answer.as_mut_ptr(), answer.len()) }
}

/// Resolution: its number, and the place as in `check`. Ten bytes of `steps` for each event are always enough.
pub fn resolve(words: &mut [u32], steps: &mut [u8], answer: &mut [u64]) -> u32 {
    // SAFETY: as in `check`.
    unsafe { oq3_resolve(words.as_mut_ptr(), words.len(), steps.as_mut_ptr(), steps.len(), answer.as_mut_ptr(), answer.len()) }
}

/// A parse: its number. The first three words of `answer` are the place, the events and the lookups; where it has fewer, 100 is said and
/// nothing is done. An entry above 2 is 101.
pub fn parse(entry: u32, mode: u32, kinds: &[u16], joints: &[u64], room: &mut [u32], answer: &mut [u64]) -> u32 {
    let (k, j, r, a) = (kinds.as_ptr(), joints.as_ptr(), room.as_mut_ptr(), answer.as_mut_ptr());
    // SAFETY: as in `check`.
    unsafe { oq3_parse(entry, mode, k, kinds.len(), j, joints.len(), r, room.len(), a, answer.len()) }
}

/// Lexing: its number. The first two words of `answer` are all tokens, trivia too, and the kinds; where it has fewer, 100 is said and nothing
/// is done. A kind for each byte of the text, a joint word for each 64 of them begun and two words of `tokens` for each are always enough.
pub fn lex(text: &[u8], kinds: &mut [u16], joints: &mut [u64], tokens: &mut [u32], answer: &mut [u64]) -> u32 {
    let (k, j, t, a) = (kinds.as_mut_ptr(), joints.as_mut_ptr(), tokens.as_mut_ptr(), answer.as_mut_ptr());
    // SAFETY: as in `check`.
    unsafe { oq3_lex(text.as_ptr(), text.len(), k, kinds.len(), j, joints.len(), t, tokens.len(), a, answer.len()) }
}

/// A whole step file: its number. The first two words of `answer` are the place and the records; where it has fewer, 100 is said and
/// nothing is done.
pub fn read_file(file: &[u8], answer: &mut [u64]) -> u32 {
    // SAFETY: as in `check`.
    unsafe { oq3_read_file(file.as_ptr(), file.len(), answer.as_mut_ptr(), answer.len()) }
}

/// The first step of a file: its number. The first six words of `answer` are the bytes taken, the record kind (0 at the end) and the
/// payload's numbers; where it has fewer, 100 is said and nothing is done.
pub fn read_step(file: &[u8], answer: &mut [u64]) -> u32 {
    // SAFETY: as in `check`.
    unsafe { oq3_read_step(file.as_ptr(), file.len(), answer.as_mut_ptr(), answer.len()) }
}
