//! A transcript of two exons with its window and deck, for trying things out.
//!
//! ```
//! use vareffect_proved::{Deck, example};
//!
//! let deck = Deck::read(&example::DECK)?;
//! let lines = deck.list(&example::WINDOW_FILE, b"1 111 T C\n").whole();
//! assert_eq!(lines, b"1 7 0 CdsExon 1/2 - 2 12 1 aTg/aCg M/T start_lost\n");
//! # Ok::<(), vareffect_proved::Refusal>(())
//! ```

use crate::{Model, Transcript, Window};

/// Exons \[100,130) and \[160,190), CDS \[110,170).
///
/// ```
/// assert_eq!(vareffect_proved::example::TRANSCRIPT.admit(), Ok(()));
/// ```
pub const TRANSCRIPT: Transcript = Transcript {
    model: Model {
        id: 7,
        chromosome: 1,
        exon_count: 2,
        tx_start: 100,
        tx_end: 190,
        cds_start: 110,
        cds_end: 170,
        minus: false,
        has_cds: true,
        start_complete: true,
    },
    exon_starts: &[100, 160],
    exon_ends: &[130, 190],
    seg_phases: &[0, 1],
    seg_exons: &[0, 1],
    seg_starts: &[110, 160],
    seg_ends: &[130, 170],
    selenocysteine: &[],
};

/// The bytes of a deck file with that transcript.
///
/// ```
/// use vareffect_proved::{Deck, example};
///
/// let deck = Deck::read(&example::DECK)?;
/// assert!(deck.transcripts().eq([example::TRANSCRIPT]));
/// # Ok::<(), vareffect_proved::Refusal>(())
/// ```
#[rustfmt::skip]
pub const DECK: [u8; 112] = [
    0, 0, 1, 0,   0, 0, 0, 0,   0, 0, 0, 0,   0, 0, 0, 0, // head
    1, 2, 0, 0,   7, 0, 0, 0,   1, 0, 2, 0,   4, 0, 0, 0, // transcript
    3, 0, 3, 0, 100, 0, 0, 0, 130, 0, 0, 0,   0, 0, 0, 0, // exons
    3, 0, 0, 0, 160, 0, 0, 0, 190, 0, 0, 0,   0, 0, 0, 0,
    2, 0, 0, 0, 110, 0, 0, 0, 170, 0, 0, 0,   5, 0, 0, 0, // bounds of the CDS
    4, 0, 6, 0, 110, 0, 0, 0, 130, 0, 0, 0,   0, 0, 0, 0, // segments
    4, 1, 0, 0, 160, 0, 0, 0, 170, 0, 0, 0,   1, 0, 0, 0,
];

/// The bytes of a window file: 90 bases of chromosome 1 from coordinate 100 on.
///
/// ```
/// use vareffect_proved::{Window, example};
///
/// assert_eq!(Window::read(&example::WINDOW_FILE), Ok(example::WINDOW));
/// ```
pub const WINDOW_FILE: [u8; 100] = *b"\x01\0\x64\0\0\0\0\0\0\0\
AAAAAAAAAAATGAAAAAAAAAAAAAAAGAAAAAAAAAAAAAAAA\
AAAAAAAAAAAAAAAAAAAAAATAAAAAAAAAAAAAAAAAAAAAA";

/// That window.
///
/// ```
/// assert_eq!(vareffect_proved::example::WINDOW.bases[11], b'T');
/// ```
pub const WINDOW: Window = Window {
    chromosome: 1,
    first: 100,
    bases: FILE.split_at(10).1,
};

const FILE: &[u8] = &WINDOW_FILE;
