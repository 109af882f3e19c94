//! The lister of document 01, step 10, with the Rust's answers.

use super::admission::admit;
use super::call_line;
use super::deck;
use super::listing_line::{Window, answer};
use std::io::{self, Read, Write};

/// Writes every line of the listing.
fn list(deck: &[u8], window: &[u8], calls: &[u8], out: &mut impl Write) -> io::Result<()> {
    let entries = match deck::read(deck) {
        Ok(entries) => entries,
        Err(refused) => return writeln!(out, "0 {} {}", refused.record, refused.number),
    };
    let mut subjects = Vec::new();
    for entry in entries {
        match admit(entry.tx) {
            Ok(subject) => subjects.push(subject),
            Err(number) => return writeln!(out, "0 {} {number}", entry.record),
        }
    }
    let Some(window) = Window::read(window).filter(|_| calls.len() <= 65_536) else {
        return writeln!(out, "0 0 27");
    };
    for (at, (line, complete)) in call_line::lines(calls).enumerate() {
        let at = at + 1;
        let Some(call) = call_line::read(line).filter(|_| complete) else {
            writeln!(out, "{at} 0 26")?;
            continue;
        };
        for subject in &subjects {
            match answer(subject, &window, &call) {
                Err(number) => writeln!(out, "{at} {} {number}", subject.tx.id)?,
                Ok(columns) => {
                    write!(out, "{at} {} 0 ", subject.tx.id)?;
                    out.write_all(&columns)?;
                    out.write_all(b"\n")?;
                }
            }
        }
    }
    Ok(())
}

/// Lists the calls of standard input over two named files.
pub fn run(deck: &str, window: &str) -> Result<(), String> {
    let file = |path: &str| match std::fs::read(path) {
        Err(error) if error.kind() == io::ErrorKind::NotFound => Ok(Vec::new()),
        read => read.map_err(|error| format!("{path}: {error}")),
    };
    let (deck, window, mut calls) = (file(deck)?, file(window)?, Vec::new());
    let mut out = io::BufWriter::new(io::stdout().lock());
    let done = io::stdin().lock().read_to_end(&mut calls);
    done.and_then(|_| list(&deck, &window, &calls, &mut out))
        .and_then(|()| out.flush())
        .map_err(|error| error.to_string())
}
