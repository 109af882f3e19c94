//! The place of a base.

use crate::words::PLACE_NAMES;

/// The end of an intron that a base is near to.
///
/// ```
/// use vareffect_proved::{SpliceSide, VariantLocation, example};
///
/// let near = VariantLocation::SpliceRegion { intron_index: 0, side: SpliceSide::Donor, distance: 3 };
/// assert_eq!(example::TRANSCRIPT.place(1, 132, 133), Ok(near));
/// ```
#[derive(Debug, Clone, Copy, PartialEq, Eq, Hash)]
pub enum SpliceSide {
    Donor,
    Acceptor,
}

/// Where a base falls; cases and fields are named as in the `vareffect` crate.
/// Indexes count from 0, 5' first.
///
/// ```
/// use vareffect_proved::{VariantLocation, example};
///
/// let base = VariantLocation::CdsExon {
///     exon_index: 0,
///     cds_segment_index: 0,
///     cds_offset: 1,
///     codon_number: 1,
///     codon_position: 1,
///     is_splice_region: false,
/// };
/// assert_eq!(example::TRANSCRIPT.place(1, 111, 112), Ok(base));
/// ```
#[derive(Debug, Clone, Copy, PartialEq, Eq, Hash)]
pub enum VariantLocation {
    Upstream {
        distance: u64,
    },
    Downstream {
        distance: u64,
    },
    Distal,
    FivePrimeUtr {
        exon_index: u16,
        offset_from_cds_start: i64,
        is_splice_region: bool,
    },
    CdsExon {
        exon_index: u16,
        cds_segment_index: u16,
        cds_offset: u32,
        codon_number: u32,
        codon_position: u8,
        is_splice_region: bool,
    },
    ThreePrimeUtr {
        exon_index: u16,
        offset_from_cds_end: i64,
        is_splice_region: bool,
    },
    SpliceDonor {
        intron_index: u16,
        offset: u8,
    },
    SpliceAcceptor {
        intron_index: u16,
        offset: u8,
    },
    SpliceRegion {
        intron_index: u16,
        side: SpliceSide,
        distance: i64,
    },
    Intron {
        intron_index: u16,
        distance_to_nearest_exon: i64,
    },
    FrameshiftIntron {
        intron_index: u16,
        distance_to_nearest_exon: i64,
    },
    NonCodingExon {
        exon_index: u16,
        is_splice_region: bool,
    },
    NonCodingIntron {
        intron_index: u16,
        distance_to_nearest_exon: i64,
    },
}

impl VariantLocation {
    /// The name of the case, as the lister prints it.
    ///
    /// ```
    /// use vareffect_proved::VariantLocation;
    ///
    /// assert_eq!(VariantLocation::Upstream { distance: 5 }.name(), "Upstream");
    /// ```
    pub fn name(&self) -> &'static str {
        PLACE_NAMES[self.kind()]
    }

    fn kind(&self) -> usize {
        match self {
            Self::Upstream { .. } => 0,
            Self::Downstream { .. } => 1,
            Self::Distal => 2,
            Self::FivePrimeUtr { .. } => 3,
            Self::CdsExon { .. } => 4,
            Self::ThreePrimeUtr { .. } => 5,
            Self::SpliceDonor { .. } => 6,
            Self::SpliceAcceptor { .. } => 7,
            Self::SpliceRegion { .. } => 8,
            Self::Intron { .. } => 9,
            Self::FrameshiftIntron { .. } => 10,
            Self::NonCodingExon { .. } => 11,
            Self::NonCodingIntron { .. } => 12,
        }
    }

    /// From kind, mark, index, segment, codon position, distance, codon number.
    pub(crate) fn from_words(words: &[i64; 7]) -> Self {
        let [kind, mark, index, segment, position, distance, number] = *words;
        let (index, marked) = (index as u16, mark == 1);
        match kind {
            0 => Self::Upstream {
                distance: distance as u64,
            },
            1 => Self::Downstream {
                distance: distance as u64,
            },
            2 => Self::Distal,
            3 => Self::FivePrimeUtr {
                exon_index: index,
                offset_from_cds_start: distance,
                is_splice_region: marked,
            },
            4 => Self::CdsExon {
                exon_index: index,
                cds_segment_index: segment as u16,
                cds_offset: distance as u32,
                codon_number: number as u32,
                codon_position: position as u8,
                is_splice_region: marked,
            },
            5 => Self::ThreePrimeUtr {
                exon_index: index,
                offset_from_cds_end: distance,
                is_splice_region: marked,
            },
            6 => Self::SpliceDonor {
                intron_index: index,
                offset: distance as u8,
            },
            7 => Self::SpliceAcceptor {
                intron_index: index,
                offset: distance as u8,
            },
            8 => Self::SpliceRegion {
                intron_index: index,
                side: if marked {
                    SpliceSide::Acceptor
                } else {
                    SpliceSide::Donor
                },
                distance,
            },
            9 => Self::Intron {
                intron_index: index,
                distance_to_nearest_exon: distance,
            },
            10 => Self::FrameshiftIntron {
                intron_index: index,
                distance_to_nearest_exon: distance,
            },
            11 => Self::NonCodingExon {
                exon_index: index,
                is_splice_region: marked,
            },
            12 => Self::NonCodingIntron {
                intron_index: index,
                distance_to_nearest_exon: distance,
            },
            _ => unreachable!("a kind is 0 to 12"),
        }
    }
}
