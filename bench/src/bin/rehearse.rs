//! The floor rehearsal, from standard input to standard output. With --no-14 no event tests the record.

#![forbid(unsafe_code)]

use std::io;
use std::process::ExitCode;

use floor::script;

fn main() -> ExitCode {
    let words: Vec<String> = std::env::args().skip(1).collect();
    let (input, output) = (io::stdin().lock(), io::stdout().lock());
    let result = match words.as_slice() {
        [] => script::run::<true>(input, output),
        [word] if word == "--no-14" => script::run::<false>(input, output),
        _ => {
            eprintln!("usage: rehearse [--no-14] < SCRIPT");
            return ExitCode::from(2);
        }
    };
    match result {
        Ok(()) => ExitCode::SUCCESS,
        Err(error) => {
            eprintln!("rehearse: {error}");
            ExitCode::FAILURE
        }
    }
}
