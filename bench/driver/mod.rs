//! Compares the Rust with the proved library, and times both.

mod compare;
mod decks;
mod judge;
mod lent;
mod listings;
mod made;
mod time;

use std::process::ExitCode;

pub fn run() -> ExitCode {
    let words: Vec<String> = std::env::args().skip(1).collect();
    let words: Vec<&str> = words.iter().map(String::as_str).collect();
    match words[..] {
        ["compare", count] | ["compare", count, _] => {
            let seed = words.get(2).map_or("1", |seed| seed);
            let (Ok(count), Ok(seed)) = (count.parse(), seed.parse()) else {
                return usage();
            };
            if !compare::run(count, seed) {
                return ExitCode::FAILURE;
            }
        }
        ["time"] => time::run(),
        ["spin", what, exons] | ["spin", what, exons, _] => {
            let rounds = words.get(3).and_then(|rounds| rounds.parse().ok());
            if !time::spin(what, exons.parse().unwrap_or(1), rounds) {
                return usage();
            }
        }
        _ => return usage(),
    }
    ExitCode::SUCCESS
}

fn usage() -> ExitCode {
    eprintln!(
        "usage: compare COUNT [SEED] | time | spin admit|index|place|places|call|calls EXONS [ROUNDS]"
    );
    ExitCode::FAILURE
}
