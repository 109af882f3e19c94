//! The codons that a call changes, and their letters.

/// The first `len` of three bytes, on the coding strand.
///
/// ```
/// use vareffect_proved::{Call, Codon, example};
///
/// let call = Call { chromosome: 1, position: 129, ref_base: b'A', alt_base: b'C' };
/// let answer = example::TRANSCRIPT.call(example::WINDOW, call)?;
/// assert_eq!(answer.codons.map(|c| c.altered), Some(Codon { len: 3, bases: *b"GCA" }));
/// # Ok::<(), vareffect_proved::Refusal>(())
/// ```
#[derive(Debug, Clone, Copy, PartialEq, Eq, Hash)]
pub struct Codon {
    pub len: u8,
    pub bases: [u8; 3],
}

/// The reference and the altered codon, and the place of the changed base.
///
/// ```
/// use vareffect_proved::{Call, example};
///
/// let call = Call { chromosome: 1, position: 129, ref_base: b'A', alt_base: b'C' };
/// let answer = example::TRANSCRIPT.call(example::WINDOW, call)?;
/// let codons = answer.codons.unwrap();
/// assert_eq!(codons.reference.bases[usize::from(codons.place)], b'A');
/// # Ok::<(), vareffect_proved::Refusal>(())
/// ```
#[derive(Debug, Clone, Copy, PartialEq, Eq, Hash)]
pub struct Codons {
    pub reference: Codon,
    pub altered: Codon,
    pub place: u8,
}

impl Codons {
    /// As the lister prints them: the changed base as it stands, the others small.
    ///
    /// ```
    /// use vareffect_proved::{Call, example};
    ///
    /// let call = Call { chromosome: 1, position: 129, ref_base: b'A', alt_base: b'C' };
    /// let answer = example::TRANSCRIPT.call(example::WINDOW, call)?;
    /// assert_eq!(answer.codons.unwrap().shown(), b"gAa/gCa");
    /// # Ok::<(), vareffect_proved::Refusal>(())
    /// ```
    pub fn shown(&self) -> Vec<u8> {
        let one = |codon: &Codon| -> Vec<u8> {
            let shown = |(i, b): (usize, &u8)| {
                if i == usize::from(self.place) {
                    *b
                } else {
                    b.to_ascii_lowercase()
                }
            };
            codon.bases[..usize::from(codon.len)]
                .iter()
                .enumerate()
                .map(shown)
                .collect()
        };
        [one(&self.reference), one(&self.altered)].join(&b'/')
    }
}

/// The letters of the two codons, by NCBI's genetic code table 1, on chromosome
/// 25 by table 2: `*` stop, `U` selenocysteine, `X` unknown.
///
/// ```
/// use vareffect_proved::{AminoAcids, Call, example};
///
/// let call = Call { chromosome: 1, position: 129, ref_base: b'A', alt_base: b'C' };
/// let answer = example::TRANSCRIPT.call(example::WINDOW, call)?;
/// assert_eq!(answer.amino_acids, Some(AminoAcids::Change(b'E', b'A')));
/// # Ok::<(), vareffect_proved::Refusal>(())
/// ```
#[derive(Debug, Clone, Copy, PartialEq, Eq, Hash)]
pub enum AminoAcids {
    /// Both codons read this letter.
    One(u8),
    /// Reference and altered letter.
    Change(u8, u8),
}

impl AminoAcids {
    /// As the lister prints them.
    ///
    /// ```
    /// assert_eq!(vareffect_proved::AminoAcids::Change(b'E', b'A').shown(), b"E/A");
    /// ```
    pub fn shown(&self) -> Vec<u8> {
        match *self {
            Self::One(a) => vec![a],
            Self::Change(a, b) => vec![a, b'/', b],
        }
    }
}
