//! panel [DECK WINDOW [CHROMOSOME POSITION REF ALT]]: the transcripts of a deck file, and what a call does on each.

use std::process::ExitCode;
use vareffect_proved::{Call, Deck, Refusal, Window};

fn read_file(path: &str) -> Vec<u8> {
    std::fs::read(path).unwrap_or_else(|error| {
        eprintln!("{path}: {error}");
        std::process::exit(2)
    })
}

fn refuse(what: &str, refusal: Refusal) -> ExitCode {
    let record = refusal.record.map(|record| format!(" at record {record}"));
    let record = record.unwrap_or_default();
    println!("{what} refused, number {}{record}", refusal.number);
    println!("cause: {}", refusal.cause());
    println!("what to do: {}", refusal.advice());
    ExitCode::FAILURE
}

fn main() -> ExitCode {
    let words: Vec<String> = std::env::args().collect();
    let word = |i: usize, other| words.get(i).map_or(other, String::as_str);
    let deck = read_file(word(1, "demo/panel/deck.bin"));
    let file = read_file(word(2, "demo/panel/window.bin"));
    let call = Call {
        chromosome: word(3, "7").parse().unwrap_or(0),
        position: word(4, "20318").parse().unwrap_or(0),
        ref_base: word(5, "A").bytes().next().unwrap_or(0),
        alt_base: word(6, "G").bytes().next().unwrap_or(0),
    };
    let deck = match Deck::read(&deck) {
        Ok(deck) => deck,
        Err(refusal) => return refuse("deck", refusal),
    };
    let window = match Window::read(&file) {
        Ok(window) => window,
        Err(refusal) => return refuse("window", refusal),
    };
    for transcript in deck.transcripts() {
        let admitted = transcript.admit().map_or("refused", |()| "admitted");
        print!("{} {admitted}: ", transcript.model.id);
        match transcript.call(window, call) {
            Ok(answer) => {
                let terms: Vec<&str> = answer.consequences.names().collect();
                println!("{} {}", answer.location.name(), terms.join(" "));
            }
            Err(refusal) => println!("number {}, {}", refusal.number, refusal.cause()),
        }
    }
    ExitCode::SUCCESS
}
