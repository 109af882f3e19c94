//! Asks the Rust: lists its answers of each kind, or answers in plain text.

mod admission;
mod answer;
mod ask;
mod bases;
mod call;
mod call_line;
mod call_shapes;
mod call_windows;
mod deck;
mod deck_record;
mod list_calls;
mod list_index;
mod list_intervals;
mod list_places;
mod listing;
mod listing_line;
mod place;
mod record;
mod rng;
mod shape;
mod terms;

use std::io::Write;
use std::process::ExitCode;

pub fn run() -> ExitCode {
    let arguments: Vec<String> = std::env::args().skip(1).collect();
    let done = match arguments.first().map(String::as_str) {
        Some("index") => write(&list_index::list()),
        Some("places") => write(&list_places::list()),
        Some("intervals") => write(&list_intervals::list()),
        Some("calls") => write(&list_calls::list()),
        Some("terms") => write(&terms::list()),
        Some("ask") if arguments.len() > 1 => ask::answer_all(arguments.into_iter().skip(1)),
        Some("ask") => ask::answer_all(std::io::stdin().lines().map_while(Result::ok)),
        Some("listing") if arguments.len() == 3 => listing::run(&arguments[1], &arguments[2]),
        _ => Err(
            "usage: oracle index | places | intervals | calls | terms | ask [LINE ...] \
                  | listing DECK WINDOW"
                .to_string(),
        ),
    };
    match done {
        Ok(()) => ExitCode::SUCCESS,
        Err(message) => {
            eprintln!("{message}");
            ExitCode::FAILURE
        }
    }
}

fn write(list: &[u8]) -> Result<(), String> {
    std::io::stdout()
        .write_all(list)
        .map_err(|error| error.to_string())
}
