//! ask WORD [WORDS..] < SCRIPT: what qs_WORD answers, on standard output, with its status.

#[path = "../qs.rs"]
mod qs;

use std::env;
use std::io::{self, Read, Write};
use std::process::ExitCode;

fn main() -> io::Result<ExitCode> {
    let words: Vec<_> = env::args_os().skip(1).collect();
    let Some(word) = words.first().and_then(|it| qs::Word::named(it)) else {
        eprintln!("ask: the first word is check, graph, rules, play, syncs, outcomes, ask, fronts or estimate");
        return Ok(ExitCode::from(2));
    };
    let mut script = Vec::new();
    io::stdin().read_to_end(&mut script)?;
    let (text, status) = qs::call(word, &script, &words[1..]);
    io::stdout().write_all(&text)?;
    Ok(ExitCode::from(status))
}
