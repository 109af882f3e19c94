//! The answer to a call.

use crate::{AminoAcids, Codon, Codons, Terms, VariantLocation};

/// Number of all, counted from the 5' end.
///
/// ```
/// use vareffect_proved::{Call, Numbered, example};
///
/// let call = Call { chromosome: 1, position: 129, ref_base: b'A', alt_base: b'C' };
/// let answer = example::TRANSCRIPT.call(example::WINDOW, call)?;
/// assert_eq!(answer.exon, Some(Numbered { number: 1, total: 2 }));
/// # Ok::<(), vareffect_proved::Refusal>(())
/// ```
#[derive(Debug, Clone, Copy, PartialEq, Eq, Hash)]
pub struct Numbered {
    pub number: u16,
    pub total: u16,
}

/// What a call does: the place, and fields named as in the `vareffect` crate.
/// What does not apply is `None`.
///
/// ```
/// use vareffect_proved::{Call, example};
///
/// let call = Call { chromosome: 1, position: 129, ref_base: b'A', alt_base: b'C' };
/// let answer = example::TRANSCRIPT.call(example::WINDOW, call)?;
/// assert_eq!((answer.cds_position, answer.cdna_position, answer.protein_start), (Some(20), Some(30), Some(7)));
/// assert_eq!(answer.intron, None);
/// # Ok::<(), vareffect_proved::Refusal>(())
/// ```
#[derive(Debug, Clone, Copy, PartialEq, Eq, Hash)]
pub struct ConsequenceResult {
    pub location: VariantLocation,
    pub exon: Option<Numbered>,
    pub intron: Option<Numbered>,
    /// Coding bases from 1, with the pad of an incomplete first codon.
    pub cds_position: Option<u32>,
    /// Exonic bases from 1.
    pub cdna_position: Option<u32>,
    /// The codon's number from 1.
    pub protein_start: Option<u32>,
    pub codons: Option<Codons>,
    pub amino_acids: Option<AminoAcids>,
    pub consequences: Terms,
}

impl ConsequenceResult {
    /// From the words behind the refusal's number.
    pub(crate) fn from_words(words: &[i64; 19]) -> Self {
        let w = |i: usize| words[i] as u32;
        let numbered = |i: usize| {
            (w(i) != 0).then_some(Numbered {
                number: w(i) as u16,
                total: w(i + 1) as u16,
            })
        };
        let counted = |i: usize| (w(i) != 0).then_some(w(i));
        let codon = |i: usize| {
            let [len, bases @ ..] = w(i).to_le_bytes();
            Codon { len, bases }
        };
        let [letters, one, two, _] = w(17).to_le_bytes();
        Self {
            location: VariantLocation::from_words(words.first_chunk().expect("7 of 19")),
            exon: numbered(7),
            intron: numbered(9),
            cds_position: counted(11),
            cdna_position: counted(12),
            protein_start: counted(13),
            codons: (w(14) != 0).then(|| Codons {
                reference: codon(14),
                altered: codon(15),
                place: w(16) as u8,
            }),
            amino_acids: match letters {
                0 => None,
                1 => Some(AminoAcids::One(one)),
                _ => Some(AminoAcids::Change(one, two)),
            },
            consequences: Terms(w(18)),
        }
    }
}
