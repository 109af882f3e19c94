//! A transcript put to the Rust, and the bytes of its index and of an interval.

use super::record::{Kind, Tx, put_answers, put16, put32};
use crate::error::VarEffectError;
use crate::locate::helpers::{exonic_splice_spill, frameshift_intron_endpoint};
use crate::locate::{Flank, LocateIndex, VariantLocation, classify_flank, locate_variant};
use crate::types::TranscriptModel;

/// A transcript with what the Rust makes of it.
pub struct Subject {
    pub tx: Tx,
    pub model: TranscriptModel,
    pub index: LocateIndex,
}

impl Subject {
    pub fn new(tx: Tx) -> Self {
        let model = tx.model();
        let index = LocateIndex::build(&model).expect("an admitted transcript");
        Self { tx, model, index }
    }

    pub fn place(&self, start: u32) -> VariantLocation {
        let start = u64::from(start);
        locate_variant(
            &self.model.chrom,
            start,
            start + 1,
            &self.model,
            &self.index,
        )
        .expect("a place in an admitted transcript")
    }
}

/// The blocks of the transcripts, each with its answers.
pub fn answered(
    kind: Kind,
    all: Vec<Tx>,
    mut answers: impl FnMut(&Subject) -> Vec<Vec<u8>>,
) -> Vec<u8> {
    let mut out = Vec::new();
    for tx in all {
        let subject = Subject::new(tx);
        put_answers(&mut out, kind, &subject.tx.encode(), &answers(&subject));
    }
    out
}

/// The refusal number of document 01 that an error of `LocateIndex::build` is.
pub fn refusal(error: &VarEffectError) -> u8 {
    let VarEffectError::Malformed(text) = error else {
        panic!("unexpected error {error:?}")
    };
    let causes = [
        ("CDS phase outside 0..=2", 6),
        ("non-zero first CDS phase on a CDS marked start-complete", 7),
        ("CDS segment refers to a missing exon", 8),
        ("more than one CDS segment in one exon", 9),
        ("CDS start base not found in any exon", 10),
        ("CDS end base not found in any exon", 11),
        ("outside the CDS", 13),
    ];
    match causes.iter().find(|cause| text.contains(cause.0)) {
        Some(cause) => cause.1,
        None => panic!("unexpected error {text}"),
    }
}

pub fn put_index(out: &mut Vec<u8>, built: &Result<LocateIndex, VarEffectError>) {
    let index = match built {
        Ok(index) => index,
        Err(error) => {
            out.extend_from_slice(&[refusal(error), 0, 0, 0]);
            return;
        }
    };
    let or_none = |place: Option<usize>| place.map_or(u16::MAX, |i| i as u16);
    out.push(0);
    out.push(index.cds_start_pad() as u8);
    out.push(u8::from(index.has_frameshift_intron()));
    out.push(0);
    put16(out, or_none(index.cds_start_exon_idx()));
    put16(out, or_none(index.cds_end_exon_idx()));
    put32(out, index.utr5_exonic_len());
    put16(out, index.selenocysteine_codons().len() as u16);
    put16(out, 0);
    for &sum in index.cumulative_cds() {
        put32(out, sum);
    }
    for segment in index.exon_to_cds_seg() {
        put16(out, segment.unwrap_or(u16::MAX));
    }
    for &codon in index.selenocysteine_codons() {
        put32(out, codon);
    }
}

/// The 16 bytes of an interval question and its three answers.
pub fn interval(subject: &Subject, start: u32, end: u32) -> Vec<u8> {
    let (from, to) = (u64::from(start), u64::from(end));
    let (kind, distance) = match classify_flank(from, to, &subject.model) {
        Flank::Overlaps => (0, 0),
        Flank::Upstream(distance) => (1, distance),
        Flank::Downstream(distance) => (2, distance),
        Flank::Far => (3, 0),
    };
    let spill = exonic_splice_spill(from, to, &subject.model, &subject.index);
    let short = frameshift_intron_endpoint(from, to, &subject.model, &subject.index);
    let mut out = Vec::new();
    put32(&mut out, start);
    put32(&mut out, end);
    out.push(kind);
    out.push(spill.map_or(0, |s| u8::from(s.donor) + 2 * u8::from(s.acceptor)));
    put16(&mut out, short.unwrap_or(u16::MAX));
    put32(&mut out, distance as u32);
    out
}
