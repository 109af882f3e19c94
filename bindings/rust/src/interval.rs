//! An interval beside or across a transcript.

/// On which side of the transcript, and how far.
///
/// ```
/// use vareffect_proved::{Flank, example};
///
/// assert_eq!(example::TRANSCRIPT.interval(1, 190, 200)?.flank, Flank::Downstream(1));
/// # Ok::<(), vareffect_proved::Refusal>(())
/// ```
#[derive(Debug, Clone, Copy, PartialEq, Eq, Hash)]
pub enum Flank {
    Overlaps,
    Upstream(u64),
    Downstream(u64),
    Far,
}

/// Which splice windows of a short intron are reached from the exon.
///
/// ```
/// use vareffect_proved::{Model, SpliceSpill, Transcript, example};
///
/// // An intron of one base, and an insertion before it.
/// let short = Transcript {
///     model: Model { has_cds: false, tx_end: 161, ..example::TRANSCRIPT.model },
///     exon_starts: &[100, 131], exon_ends: &[130, 161],
///     seg_phases: &[], seg_exons: &[], seg_starts: &[], seg_ends: &[], ..example::TRANSCRIPT
/// };
/// let spill = SpliceSpill { donor: false, acceptor: true };
/// assert_eq!(short.interval(1, 130, 130)?.spill, Some(spill));
/// # Ok::<(), vareffect_proved::Refusal>(())
/// ```
#[derive(Debug, Clone, Copy, PartialEq, Eq, Hash)]
pub struct SpliceSpill {
    pub donor: bool,
    pub acceptor: bool,
}

/// What an interval is to a transcript.
///
/// ```
/// use vareffect_proved::{Flank, Interval, example};
///
/// let inside = Interval { flank: Flank::Overlaps, frameshift_intron: None, spill: None };
/// assert_eq!(example::TRANSCRIPT.interval(1, 110, 120)?, inside);
/// # Ok::<(), vareffect_proved::Refusal>(())
/// ```
#[derive(Debug, Clone, Copy, PartialEq, Eq, Hash)]
pub struct Interval {
    pub flank: Flank,
    /// The short intron (1 to 13 bases) that holds an end.
    pub frameshift_intron: Option<u16>,
    /// `None` where no window is reached.
    pub spill: Option<SpliceSpill>,
}

impl Interval {
    /// From the words behind the refusal's number.
    pub(crate) fn from_words(words: &[i64; 6]) -> Self {
        let [kind, distance, held, intron, donor, acceptor] = *words;
        let distance = distance as u64;
        Self {
            flank: match kind {
                0 => Flank::Overlaps,
                1 => Flank::Upstream(distance),
                2 => Flank::Downstream(distance),
                _ => Flank::Far,
            },
            frameshift_intron: (held == 1).then_some(intron as u16),
            spill: (donor + acceptor > 0).then_some(SpliceSpill {
                donor: donor == 1,
                acceptor: acceptor == 1,
            }),
        }
    }
}
