//! A transcript as it is lent.

use crate::Model;

/// A transcript: its scalars, then exons, segments and selenocysteine bases in
/// strand order, a slice for each field.
///
/// ```
/// use vareffect_proved::{Model, Refusal, Transcript, example};
///
/// let model = Model { tx_end: 191, ..example::TRANSCRIPT.model };
/// let longer = Transcript { model, ..example::TRANSCRIPT };
/// assert_eq!(longer.admit(), Err(Refusal::new(4)));
/// ```
#[derive(Debug, Clone, Copy, PartialEq, Eq)]
pub struct Transcript<'a> {
    pub model: Model,
    pub exon_starts: &'a [u64],
    pub exon_ends: &'a [u64],
    /// GFF3 phases.
    pub seg_phases: &'a [u8],
    /// For each segment the index of its exon, from 0.
    pub seg_exons: &'a [u16],
    pub seg_starts: &'a [u64],
    pub seg_ends: &'a [u64],
    /// A base of each selenocysteine codon.
    pub selenocysteine: &'a [u64],
}
