//! The source of vareffect and the proved library in one program.

mod both;
#[allow(dead_code)]
mod codon;
#[allow(dead_code, unused_imports, unused_variables)]
mod consequence;
/// The oracle's own generators.
#[allow(dead_code)]
mod driver {
    pub mod admission;
    pub mod answer;
    pub mod bases;
    pub mod call;
    pub mod call_line;
    pub mod deck;
    pub mod deck_record;
    pub mod listing_line;
    pub mod place;
    pub mod record;
    pub mod rng;
    pub mod shape;
}
#[allow(dead_code)]
mod error;
#[allow(dead_code)]
mod fasta;
#[allow(dead_code, unused_imports)]
mod locate;
#[allow(dead_code)]
mod transcript;
#[allow(dead_code)]
mod types;

pub use error::VarEffectError;

/// Named by error.rs; the store that has it is absent.
#[derive(Debug)]
pub struct StoreFormat;

fn main() -> std::process::ExitCode {
    both::run()
}
