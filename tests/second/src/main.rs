//! Two commands: `second cases [SEED]` prints case lines, `second answers` answers the lines of standard input.

use std::io::{self, BufRead, BufWriter, Write};
use std::process::ExitCode;

const SEED: u64 = 1999;

fn main() -> ExitCode {
    let arguments: Vec<String> = std::env::args().skip(1).collect();
    let arguments: Vec<&str> = arguments.iter().map(String::as_str).collect();
    let done = match arguments[..] {
        ["cases"] => print_cases(SEED),
        ["cases", seed] => match seed.parse() {
            Ok(seed) => print_cases(seed),
            Err(_) => return usage(),
        },
        ["answers"] => print_answers(),
        _ => return usage(),
    };
    match done {
        Ok(()) => ExitCode::SUCCESS,
        Err(error) => {
            eprintln!("second: {error}");
            ExitCode::FAILURE
        }
    }
}

fn usage() -> ExitCode {
    eprintln!("usage: second cases [SEED] | second answers");
    ExitCode::from(2)
}

fn print_cases(seed: u64) -> io::Result<()> {
    let mut out = BufWriter::new(io::stdout().lock());
    for line in second::cases::all(seed) {
        writeln!(out, "{line}")?;
    }
    out.flush()
}

fn print_answers() -> io::Result<()> {
    let mut out = BufWriter::new(io::stdout().lock());
    for line in io::stdin().lock().split(b'\n') {
        // Bytes that are no text are no case.
        let answer = match std::str::from_utf8(&line?) {
            Ok(line) => second::answer(line),
            Err(_) => "not a case".to_string(),
        };
        writeln!(out, "{answer}")?;
    }
    out.flush()
}
