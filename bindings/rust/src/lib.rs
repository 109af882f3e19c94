//! Where a base falls on a transcript and what a single-base call does there,
//! answered by the proved static library `libinterface.a`.
//!
//! ```
//! use vareffect_proved::{Call, Deck, Window, example};
//!
//! let deck = Deck::read(&example::DECK)?;
//! let window = Window::read(&example::WINDOW_FILE)?;
//! let call = Call { chromosome: 1, position: 129, ref_base: b'A', alt_base: b'C' };
//! for transcript in deck.transcripts() {
//!     let answer = transcript.call(window, call)?;
//!     assert_eq!(answer.location.name(), "CdsExon");
//!     let terms: Vec<&str> = answer.consequences.names().collect();
//!     assert_eq!(terms, ["missense_variant", "splice_region_variant"]);
//! }
//! # Ok::<(), vareffect_proved::Refusal>(())
//! ```
//!
//! Coordinates count from 0 and ends are not included. Chromosomes are 1 to 25
//! (23 X, 24 Y, 25 M). Exons, segments and selenocysteine bases stand in strand
//! order: on the minus strand the highest exon comes first. What cannot be
//! answered is a [`Refusal`] with its number, cause and what to do.
//!
//! Answers have the cases and field names of the `vareffect` crate, whose
//! answers they are proved and compared to be. All functions may be called from
//! any number of threads at once. The library needs at most [`STACK`] bytes of
//! stack, for a listing [`LIST_STACK`]; with 64 KiB more there is room for the
//! frames of this crate too.

mod answer;
mod ask;
mod call;
mod codons;
mod deck;
pub mod example;
mod held;
mod interval;
mod listing;
mod model;
mod place;
mod questions;
mod raw;
mod refusal;
mod terms;
mod transcript;
mod words;

pub use answer::{ConsequenceResult, Numbered};
pub use call::{Call, Window};
pub use codons::{AminoAcids, Codon, Codons};
pub use deck::Deck;
pub use interval::{Flank, Interval, SpliceSpill};
pub use listing::Listing;
pub use model::{Model, Strand};
pub use place::{SpliceSide, VariantLocation};
pub use refusal::Refusal;
pub use terms::Terms;
pub use transcript::Transcript;
pub use words::TERM_NAMES;

/// The version of the library's functions that this crate is made for.
///
/// ```
/// assert_eq!(vareffect_proved::ABI, vareffect_proved::abi());
/// ```
pub const ABI: u64 = 2;

/// The most stack, in bytes, that a function of the library needs, other than
/// that of a [`Listing`].
///
/// ```
/// use std::thread;
/// use vareffect_proved::{Deck, STACK, example};
///
/// // 64 KiB more for the frames of this crate and of the thread.
/// let thread = thread::Builder::new().stack_size(STACK + 65_536);
/// let read = thread.spawn(|| Deck::read(&example::DECK).is_ok()).unwrap();
/// assert!(read.join().unwrap());
/// ```
pub const STACK: usize = 131_072;

/// The most stack, in bytes, that a piece of a [`Listing`] needs.
///
/// ```
/// use std::thread;
/// use vareffect_proved::{LIST_STACK, Listing, example};
///
/// let listing = Listing::of_files(&example::DECK, &example::WINDOW_FILE, b"9\n");
/// thread::scope(|scope| {
///     let thread = thread::Builder::new().stack_size(LIST_STACK + 65_536);
///     let listed = thread.spawn_scoped(scope, || listing.whole()).unwrap();
///     assert_eq!(listed.join().unwrap(), b"1 0 26\n");
/// });
/// ```
pub const LIST_STACK: usize = 196_608;

/// The version of the functions of the library that is linked; [`ABI`] where
/// both are of one release.
///
/// ```
/// assert_eq!(vareffect_proved::abi(), 2);
/// ```
pub fn abi() -> u64 {
    // SAFETY: it takes nothing and returns a number.
    unsafe { raw::vareffect_abi() }
}
