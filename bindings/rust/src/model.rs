//! A transcript without its lists.

/// The strand of a transcript.
///
/// ```
/// use vareffect_proved::{Strand, example};
///
/// assert_eq!(example::TRANSCRIPT.model.strand(), Strand::Plus);
/// ```
#[derive(Debug, Clone, Copy, PartialEq, Eq, Hash)]
pub enum Strand {
    Plus,
    Minus,
}

/// A transcript without its lists, laid out as the library takes it
/// (`VareffectModel` of the C header): a question hands it on as it is.
///
/// ```
/// use vareffect_proved::{Model, Strand, example};
///
/// let other = Model { minus: true, has_cds: false, ..example::TRANSCRIPT.model };
/// assert_eq!((other.strand(), other.cds()), (Strand::Minus, None));
/// ```
#[repr(C)]
#[derive(Debug, Clone, Copy, PartialEq, Eq, Hash)]
pub struct Model {
    /// Any number; the lister prints it.
    pub id: u32,
    /// 1 to 25; 23 X, 24 Y, 25 M.
    pub chromosome: u16,
    /// How many exons the lists have.
    pub exon_count: u16,
    /// The lowest start of an exon.
    pub tx_start: u64,
    /// The highest end of an exon.
    pub tx_end: u64,
    /// The lowest coding base; not read without CDS.
    pub cds_start: u64,
    /// The highest coding base and 1; not read without CDS.
    pub cds_end: u64,
    /// Whether it is on the minus strand.
    pub minus: bool,
    /// Whether it has a CDS.
    pub has_cds: bool,
    /// Whether the annotation marks the start of the CDS as complete (a GFF3
    /// without `cds_start_NF`).
    pub start_complete: bool,
}

impl Model {
    /// The strand.
    ///
    /// ```
    /// use vareffect_proved::{Model, Strand, example};
    ///
    /// let minus = Model { minus: true, ..example::TRANSCRIPT.model };
    /// assert_eq!(minus.strand(), Strand::Minus);
    /// ```
    pub const fn strand(&self) -> Strand {
        if self.minus {
            Strand::Minus
        } else {
            Strand::Plus
        }
    }

    /// Start and end of the CDS, where there is one.
    ///
    /// ```
    /// assert_eq!(vareffect_proved::example::TRANSCRIPT.model.cds(), Some((110, 170)));
    /// ```
    pub const fn cds(&self) -> Option<(u64, u64)> {
        if self.has_cds {
            Some((self.cds_start, self.cds_end))
        } else {
            None
        }
    }
}
