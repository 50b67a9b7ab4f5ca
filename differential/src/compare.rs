//! The program that links the port and holds it against the crate. See README.md.

use answer::{set_hook, with_stack};

mod events;
mod files;
mod lent;
mod lex;
mod parse;
mod port;
mod wrong;
mod wrong_files;
mod wrong_lex;
mod wrong_parse;

fn main() {
    set_hook();
    let words: Vec<String> = std::env::args().skip(1).collect();
    let words: Vec<&str> = words.iter().map(String::as_str).collect();
    let good = with_stack(|| match words[..] {
        [what, count, seed] => match (what, count.parse(), seed.parse()) {
            ("events", Ok(count), Ok(seed)) => wrong::run(seed) && events::run(count, seed),
            ("parse", Ok(count), Ok(seed)) => wrong_parse::run(seed) && parse::run(count, seed),
            ("files", Ok(count), Ok(seed)) => wrong_files::run(seed) && files::run(count, seed),
            ("lex", Ok(count), Ok(seed)) => wrong_lex::run(seed) && lex::run(count, seed),
            _ => usage(),
        },
        _ => usage(),
    });
    std::process::exit(if good { 0 } else { 1 });
}

fn usage() -> bool {
    eprintln!("usage: compare events|parse|files|lex COUNT SEED");
    false
}
