//! `differ`: runs cases on fresh seeds for some seconds, or one case again.
#![forbid(unsafe_code)]

use differ::case::{self, Ran, Tally};
use std::process::ExitCode;
use std::time::{Duration, Instant, SystemTime, UNIX_EPOCH};

const USAGE: &str = "usage: differ --seconds N    cases on fresh seeds for N seconds
       differ --seed S       the case of seed S again
       differ --every-byte S every value of every byte of sample headers and a program, again from seed S";

fn main() -> ExitCode {
    let arguments: Vec<String> = std::env::args().skip(1).collect();
    let number = arguments.get(1).and_then(|text| text.parse().ok());
    match (arguments.first().map(String::as_str), number) {
        (Some("--seconds"), Some(seconds)) => fresh(Duration::from_secs(seconds)),
        (Some("--seed"), Some(seed)) => again(seed, case::run),
        (Some("--every-byte"), Some(seed)) => again(seed, case::run_every_byte),
        _ => {
            eprintln!("{USAGE}");
            ExitCode::from(2)
        }
    }
}

fn again(seed: u64, run: impl FnOnce(u64) -> Ran) -> ExitCode {
    match run(seed) {
        Ok(tally) => {
            println!("seed {seed}: {} calls, library and model agree", tally.calls());
            ExitCode::SUCCESS
        }
        Err(disagreement) => {
            println!("{disagreement}");
            ExitCode::FAILURE
        }
    }
}

/// Seeds from the clock on: no two runs have the same.
fn fresh(time: Duration) -> ExitCode {
    let first = SystemTime::now().duration_since(UNIX_EPOCH).map_or(0, |since| since.as_nanos() as u64);
    let (start, mut seeds, mut tally) = (Instant::now(), 0, Tally::default());
    while start.elapsed() < time {
        match case::run(first.wrapping_add(seeds)) {
            Ok(more) => tally.add(&more),
            Err(disagreement) => {
                println!("{disagreement}");
                return ExitCode::FAILURE;
            }
        }
        seeds += 1;
    }
    let calls = tally.calls();
    let rate = calls as f64 / start.elapsed().as_secs_f64();
    println!("{seeds} cases from seed {first}, {calls} calls, {rate:.0} a second: library and model agree");
    ExitCode::SUCCESS
}
