//! Refusals 1 to 13 of a transcript from a deck. `LocateIndex::build` decides
//! 6 to 11 and 13; the others, which the Rust lacks, are judged here.

use super::answer::{Subject, refusal};
use super::record::{COORDINATE_LIMIT, Tx};
use super::shape::intersections;
use crate::locate::LocateIndex;

/// Refusals 1 to 5, or 0. In a deck exon_count and tx bounds come from the
/// exons, so that no transcript shows 4.
fn before_the_index(tx: &Tx) -> u8 {
    let (exons, segments) = (tx.exons.len(), tx.segments.len());
    if exons == 0 || exons > 512 || segments > exons || tx.sec.len() > 64 {
        return 1;
    }
    let parts: Vec<(u32, u32)> = tx.segments.iter().map(|s| (s.start, s.end)).collect();
    let intervals = || tx.exons.iter().chain(&parts);
    let over = |&coordinate: &u32| coordinate > COORDINATE_LIMIT;
    if intervals().any(|&(start, end)| start >= end)
        || intervals()
            .chain(&tx.cds)
            .any(|(start, end)| over(start) || over(end))
        || tx.sec.iter().any(over)
        || !(1..=25).contains(&tx.chrom)
    {
        return 2;
    }
    let in_order = |pair: &[(u32, u32)]| {
        let (before, after) = (pair[0], pair[1]);
        if tx.minus {
            after.1 <= before.0
        } else {
            before.1 <= after.0
        }
    };
    if !tx.exons.windows(2).all(in_order) {
        return 3;
    }
    if tx.cds.is_some() != (segments > 0) || tx.cds.is_some_and(|(start, end)| start >= end) {
        return 5;
    }
    0
}

/// Refusal 12: the segments are not the intersections. Phases are free.
fn not_the_intersections(tx: &Tx) -> bool {
    let due = tx.cds.map_or(Vec::new(), |cds| intersections(tx, cds, 0));
    let same = |(a, b): (&super::record::Segment, &super::record::Segment)| {
        (a.exon, a.start, a.end) == (b.exon, b.start, b.end)
    };
    due.len() != tx.segments.len() || !due.iter().zip(&tx.segments).all(same)
}

/// The transcript as the Rust takes it. `build` adds up the lengths of the
/// segments before anyone has seen that they overlap (12). Where the sum is
/// beyond any transcript, it gets segments of one base: 6 to 11 read only
/// their phases and exon indexes.
fn put_to_the_rust(tx: &Tx) -> Tx {
    let mut tx = tx.clone();
    let sum: u64 = tx.segments.iter().map(|s| u64::from(s.end - s.start)).sum();
    if sum > u64::from(COORDINATE_LIMIT) {
        for segment in &mut tx.segments {
            segment.end = segment.start + 1;
        }
    }
    tx
}

/// The transcript with its index, or the first of refusals 1 to 13.
pub fn admit(tx: Tx) -> Result<Subject, u8> {
    let number = before_the_index(&tx);
    if number != 0 {
        return Err(number);
    }
    let model = put_to_the_rust(&tx).model();
    let built = LocateIndex::build(&model);
    let number = built.as_ref().err().map_or(0, refusal);
    if (number == 0 || number == 13) && not_the_intersections(&tx) {
        return Err(12);
    }
    match built {
        Ok(index) => Ok(Subject { tx, model, index }),
        Err(_) => Err(number),
    }
}
