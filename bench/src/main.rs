//! Measures the library against brute force, tells the ratios, and keeps them in bench/results.md and
//! bench/ratios.svg.
//!     bench ROUNDS SEED DATE COMMIT MACHINE KIT      from the top of the repository; bench/run gives the arguments
//! An answer that differs, and a case that cannot run, is an error and no ratio.

use bench::results::Run;
use bench::{cases, ratios, results};
use std::process::ExitCode;

const RESULTS: &str = "bench/results.md";
const PICTURE: &str = "bench/ratios.svg";

fn main() -> ExitCode {
    match run() {
        Ok(()) => ExitCode::SUCCESS,
        Err(why) => {
            eprintln!("error: {why}");
            ExitCode::FAILURE
        }
    }
}

fn run() -> Result<(), String> {
    let run = arguments()?;
    println!("seed {}, {} rounds", run.seed, run.rounds);
    let mut cases = cases::all(run.seed);
    for case in &mut cases {
        case.compare()?;
    }
    println!("all ways agree on every input");
    cases.iter_mut().for_each(|case| case.choose_calls());
    for round in 0..run.rounds {
        for case in &mut cases {
            case.round(round)?;
        }
    }
    let rows = results::rows(&cases);
    for row in &rows {
        println!("{}", row.line());
    }
    let before = std::fs::read_to_string(RESULTS).map_err(|why| format!("{RESULTS}: {why}"))?;
    write(RESULTS, results::with_section(&before, &results::section(&run, &rows)))?;
    write(PICTURE, ratios::picture(&run, &rows))
}

fn write(file: &str, text: String) -> Result<(), String> {
    std::fs::write(file, text).map_err(|why| format!("{file}: {why}"))?;
    println!("written: {file}");
    Ok(())
}

fn arguments() -> Result<Run, String> {
    let given: Vec<String> = std::env::args().skip(1).collect();
    let [rounds, seed, date, commit, machine, kit] =
        <[String; 6]>::try_from(given).map_err(|_| "ROUNDS SEED DATE COMMIT MACHINE KIT are asked for")?;
    let rounds = rounds.parse().map_err(|_| format!("{rounds} is no number of rounds"))?;
    if rounds < 3 {
        return Err("a median asks for 3 rounds".into());
    }
    let seed = seed.parse().map_err(|_| format!("{seed} is no seed"))?;
    Ok(Run { date, commit, machine, kit, rounds, seed })
}
