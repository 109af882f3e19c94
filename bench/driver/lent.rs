//! A transcript of the oracle as the proved library takes it.

use crate::driver::record::Tx;
use vareffect_proved::{Model, Transcript};

pub struct Lent {
    model: Model,
    exon_starts: Vec<u64>,
    exon_ends: Vec<u64>,
    seg_phases: Vec<u8>,
    seg_exons: Vec<u16>,
    seg_starts: Vec<u64>,
    seg_ends: Vec<u64>,
    selenocysteine: Vec<u64>,
}

impl Lent {
    pub fn new(tx: &Tx) -> Self {
        let (cds_start, cds_end) = tx.cds.unwrap_or_default();
        let model = Model {
            id: tx.id,
            chromosome: tx.chrom,
            exon_count: tx.exons.len() as u16,
            tx_start: tx.tx_start().into(),
            tx_end: tx.tx_end().into(),
            cds_start: cds_start.into(),
            cds_end: cds_end.into(),
            minus: tx.minus,
            has_cds: tx.cds.is_some(),
            start_complete: tx.start_complete,
        };
        Self {
            model,
            exon_starts: tx.exons.iter().map(|e| e.0.into()).collect(),
            exon_ends: tx.exons.iter().map(|e| e.1.into()).collect(),
            seg_phases: tx.segments.iter().map(|s| s.phase).collect(),
            seg_exons: tx.segments.iter().map(|s| s.exon).collect(),
            seg_starts: tx.segments.iter().map(|s| s.start.into()).collect(),
            seg_ends: tx.segments.iter().map(|s| s.end.into()).collect(),
            selenocysteine: tx.sec.iter().map(|&b| b.into()).collect(),
        }
    }

    pub fn transcript(&self) -> Transcript<'_> {
        Transcript {
            model: self.model,
            exon_starts: &self.exon_starts,
            exon_ends: &self.exon_ends,
            seg_phases: &self.seg_phases,
            seg_exons: &self.seg_exons,
            seg_starts: &self.seg_starts,
            seg_ends: &self.seg_ends,
            selenocysteine: &self.selenocysteine,
        }
    }
}
