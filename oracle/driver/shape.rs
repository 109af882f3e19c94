//! Transcripts that pass refusals 1 to 13, made from lengths in strand order.

use super::record::{COORDINATE_LIMIT, Segment, Tx};
use super::rng::Rng;

/// A transcript without CDS whose lowest base is `low`. `lens` are exon
/// lengths and `gaps` the gaps after each but the last, both from 5' to 3'.
pub fn plain(id: u32, chrom: u16, minus: bool, low: u32, lens: &[u32], gaps: &[u32]) -> Tx {
    assert_eq!(lens.len(), gaps.len() + 1);
    let span: u32 = lens.iter().sum::<u32>() + gaps.iter().sum::<u32>();
    let mut exons = Vec::new();
    let mut before = 0;
    for (i, &len) in lens.iter().enumerate() {
        exons.push(if minus {
            (low + span - before - len, low + span - before)
        } else {
            (low + before, low + before + len)
        });
        before += len + gaps.get(i).copied().unwrap_or(0);
    }
    Tx {
        id,
        chrom,
        minus,
        start_complete: true,
        exons,
        cds: None,
        segments: Vec::new(),
        sec: Vec::new(),
    }
}

/// Number of exonic bases.
pub fn exonic(tx: &Tx) -> u32 {
    tx.exons.iter().map(|e| e.1 - e.0).sum()
}

/// Coordinate of the exonic base with this number, counted from 0 at the 5' end.
pub fn coordinate(tx: &Tx, number: u32) -> u32 {
    let mut left = number;
    for &(start, end) in &tx.exons {
        if left < end - start {
            return if tx.minus {
                end - 1 - left
            } else {
                start + left
            };
        }
        left -= end - start;
    }
    panic!("the transcript has no such base")
}

/// The nonempty exon-CDS intersections in strand order, with phases that
/// continue the reading frame from the first.
pub fn intersections(tx: &Tx, cds: (u32, u32), first_phase: u8) -> Vec<Segment> {
    let mut segments = Vec::new();
    let mut padded = (3 - u32::from(first_phase)) % 3;
    for (i, &(start, end)) in tx.exons.iter().enumerate() {
        let (start, end) = (start.max(cds.0), end.min(cds.1));
        if start < end {
            segments.push(Segment {
                phase: ((3 - padded % 3) % 3) as u8,
                exon: i as u16,
                start,
                end,
            });
            padded += end - start;
        }
    }
    segments
}

/// Makes exonic bases `first` to `last` (both included) the CDS.
pub fn set_cds(tx: &mut Tx, first: u32, last: u32, first_phase: u8, start_complete: bool) {
    let (a, b) = (coordinate(tx, first), coordinate(tx, last));
    let cds = (a.min(b), a.max(b) + 1);
    tx.cds = Some(cds);
    tx.segments = intersections(tx, cds, first_phase);
    tx.start_complete = start_complete;
}

/// Coordinates of the coding bases from 5' to 3'.
pub fn coding_bases(tx: &Tx) -> Vec<u32> {
    let mut bases = Vec::new();
    for segment in &tx.segments {
        let run = segment.start..segment.end;
        if tx.minus {
            bases.extend(run.rev());
        } else {
            bases.extend(run);
        }
    }
    bases
}

/// Adds `count` selenocysteine bases, often several in one codon and in no order.
pub fn add_sec(rng: &mut Rng, tx: &mut Tx, count: u32) {
    let bases = coding_bases(tx);
    let mut at = 0;
    for i in 0..count {
        if i == 0 || rng.chance(60) {
            at = rng.below(bases.len() as u32) as usize;
        } else {
            at = (at + rng.below(3) as usize).min(bases.len() - 1);
        }
        tx.sec.push(bases[at]);
    }
}

pub fn exon_length(rng: &mut Rng) -> u32 {
    match rng.below(10) {
        0 | 1 => 1,
        2 => rng.between(2, 3),
        3..=7 => rng.between(4, 20),
        _ => rng.between(21, 60),
    }
}

pub fn gap_length(rng: &mut Rng) -> u32 {
    match rng.below(10) {
        0 => 0,
        1 => 1,
        2..=4 => rng.between(2, 13),
        5..=7 => rng.between(14, 20),
        8 => rng.between(21, 40),
        _ => rng.between(41, 200),
    }
}

/// The two gaps, or the second before the first.
pub fn either_order(rng: &mut Rng, one: u32, two: u32) -> [u32; 2] {
    if rng.chance(50) {
        [one, two]
    } else {
        [two, one]
    }
}

/// The lowest base of a transcript of this span: mostly small, sometimes 0,
/// sometimes so that the end is at or near the limit.
pub fn low_base(rng: &mut Rng, span: u32) -> u32 {
    match rng.below(12) {
        0 => 0,
        1 => COORDINATE_LIMIT - span,
        2 => COORDINATE_LIMIT - span - rng.below(6000),
        3 => rng.below(6000),
        _ => rng.between(5_000, 60_000),
    }
}

/// A transcript without CDS, of `count` exons.
pub fn random_plain(rng: &mut Rng, id: u32, count: u32) -> Tx {
    let lens: Vec<u32> = (0..count).map(|_| exon_length(rng)).collect();
    let gaps: Vec<u32> = (1..count).map(|_| gap_length(rng)).collect();
    let span = lens.iter().sum::<u32>() + gaps.iter().sum::<u32>();
    let low = low_base(rng, span);
    let chrom = rng.between(1, 25) as u16;
    let minus = rng.chance(50);
    let mut tx = plain(id, chrom, minus, low, &lens, &gaps);
    tx.start_complete = rng.chance(50);
    tx
}

/// Gives the transcript a CDS: in a few bases, in one exon, or across many.
pub fn random_cds(rng: &mut Rng, tx: &mut Tx) {
    let total = exonic(tx);
    let (first, last) = match rng.below(6) {
        0 => (0, total - 1),
        1 => {
            let exon = rng.below(tx.exons.len() as u32) as usize;
            let before: u32 = tx.exons[..exon].iter().map(|e| e.1 - e.0).sum();
            (before, before + tx.exons[exon].1 - tx.exons[exon].0 - 1)
        }
        2 => {
            let first = rng.below(total);
            (first, (first + rng.below(4)).min(total - 1))
        }
        _ => {
            let (a, b) = (rng.below(total), rng.below(total));
            (a.min(b), a.max(b))
        }
    };
    let phase = rng.below(3) as u8;
    let complete = phase == 0 && rng.chance(60);
    set_cds(tx, first, last, phase, complete);
    // Only the first phase counts; the others need only be 0 to 2.
    if rng.chance(20) {
        for segment in tx.segments.iter_mut().skip(1) {
            segment.phase = rng.below(3) as u8;
        }
    }
}
