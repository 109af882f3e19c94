//! Root of the oracle's crate: the source of vareffect beside our driver.
//! What the driver does not reach of the source is compiled all the same.

#[allow(dead_code)]
mod codon;
#[allow(dead_code, unused_imports, unused_variables)]
mod consequence;
mod driver;
#[allow(dead_code)]
mod error;
#[allow(dead_code)]
mod fasta;
#[allow(dead_code, unused_imports)]
mod locate;
#[allow(dead_code)]
mod transcript;
#[allow(dead_code)]
mod types;

pub use error::VarEffectError;

/// Named by error.rs; the store that has it is absent.
#[derive(Debug)]
pub struct StoreFormat;

fn main() -> std::process::ExitCode {
    driver::run()
}
