//! A transcript that was taken out of a deck.

use crate::raw;
use crate::{Model, Refusal, Transcript};

/// A transcript of the deck with its lists.
#[derive(Debug, Clone)]
pub(crate) struct Held {
    model: Model,
    exon_starts: Vec<u64>,
    exon_ends: Vec<u64>,
    seg_phases: Vec<u8>,
    seg_exons: Vec<u16>,
    seg_starts: Vec<u64>,
    seg_ends: Vec<u64>,
    selenocysteine: Vec<u64>,
}

impl Held {
    /// The transcript at a place, and how many there are.
    pub(crate) fn read(bytes: &[u8], place: u64) -> Result<(Self, u64), Refusal> {
        let mut scalars = [0; 12];
        let (mut exon_starts, mut exon_ends) = ([0; 512], [0; 512]);
        let (mut phases, mut exons, mut starts, mut ends) =
            ([0; 512], [0; 512], [0; 512], [0; 512]);
        let mut selenocysteine = [0; 64];
        // SAFETY: the pointer comes with the length of its slice, and what is written is borrowed alone.
        let outcome = unsafe {
            raw::vareffect_deck_transcript(
                bytes.as_ptr(),
                bytes.len(),
                place,
                &mut scalars,
                &mut exon_starts,
                &mut exon_ends,
                &mut phases,
                &mut exons,
                &mut starts,
                &mut ends,
                &mut selenocysteine,
            )
        };
        let count = counted(outcome)?;
        let model = model_of(&scalars);
        let listed = usize::from(model.exon_count);
        let [.., segments, selenocysteines] = scalars.map(|number| number as usize);
        let held = Self {
            model,
            exon_starts: exon_starts[..listed].to_vec(),
            exon_ends: exon_ends[..listed].to_vec(),
            seg_phases: phases[..segments].to_vec(),
            seg_exons: exons[..segments].to_vec(),
            seg_starts: starts[..segments].to_vec(),
            seg_ends: ends[..segments].to_vec(),
            selenocysteine: selenocysteine[..selenocysteines].to_vec(),
        };
        Ok((held, count))
    }

    pub(crate) fn lent(&self) -> Transcript<'_> {
        Transcript {
            model: self.model,
            exon_starts: &self.exon_starts,
            exon_ends: &self.exon_ends,
            seg_phases: &self.seg_phases,
            seg_exons: &self.seg_exons,
            seg_starts: &self.seg_starts,
            seg_ends: &self.seg_ends,
            selenocysteine: &self.selenocysteine,
        }
    }
}

/// From the scalars of `vareffect_deck_transcript`.
#[rustfmt::skip]
fn model_of(scalars: &[u64; 12]) -> Model {
    let [id, chromosome, minus, exons, tx_start, tx_end, has_cds, cds_start, cds_end, complete, ..] = *scalars;
    Model {
        id: id as u32,
        chromosome: chromosome as u16,
        exon_count: exons as u16,
        tx_start,
        tx_end,
        cds_start,
        cds_end,
        minus: minus == 1,
        has_cds: has_cds == 1,
        start_complete: complete == 1,
    }
}

/// The value where the number is 0, else the refusal with its record.
pub(crate) fn counted(outcome: raw::Outcome) -> Result<u64, Refusal> {
    match outcome.number {
        0 => Ok(outcome.value),
        number => Err(Refusal {
            number: number as u8,
            record: Some(outcome.value as u16),
        }),
    }
}
