//! Transcripts, windows and questions, random and near the edges.

use crate::driver::bases::fill;
use crate::driver::record::{MITOCHONDRIAL, QUERY_LIMIT, Segment, Tx};
use crate::driver::rng::Rng;
use crate::driver::shape::{
    add_sec, coding_bases, exonic, plain, random_cds, random_plain, set_cds,
};
use crate::locate::LocateIndex;
use vareffect_proved::Call;

/// A transcript like a gene's: exons of 60 to 300 bases, introns of 80 to 3000.
pub fn gene(rng: &mut Rng, count: u32, minus: bool) -> Tx {
    let lens: Vec<u32> = (0..count).map(|_| rng.between(60, 300)).collect();
    let gaps: Vec<u32> = (1..count).map(|_| rng.between(80, 3000)).collect();
    let mut tx = plain(1, 7, minus, 1_000_000, &lens, &gaps);
    let total = exonic(&tx);
    set_cds(&mut tx, total / 10, total - 1 - total / 10, 0, true);
    tx
}

/// An admitted transcript: mostly few exons with short gaps, at times a gene.
/// One in eight is put on chromosome 25.
pub fn transcript(rng: &mut Rng, id: u32) -> Tx {
    let count = match rng.below(400) {
        0 => rng.between(65, 512),
        1 => 512,
        2..=12 => rng.between(8, 64),
        13..=60 => 1,
        _ => rng.between(2, 7),
    };
    if rng.chance(5) {
        let minus = rng.chance(50);
        return gene(rng, count.min(40), minus);
    }
    let mut tx = random_plain(rng, id, count);
    if rng.below(8) == 0 {
        tx.chrom = MITOCHONDRIAL;
    }
    if rng.chance(85) {
        random_cds(rng, &mut tx);
        if rng.chance(30) {
            let most = if rng.chance(5) { 64 } else { 6 };
            let bases = rng.between(1, most);
            add_sec(rng, &mut tx, bases);
        }
    }
    tx
}

/// The transcript with one or two things changed, which may be refused.
pub fn altered(rng: &mut Rng, tx: &Tx) -> Tx {
    let mut tx = tx.clone();
    for _ in 0..rng.between(1, 2) {
        alter(rng, &mut tx);
    }
    tx
}

fn moved(rng: &mut Rng, at: u32) -> u32 {
    match rng.below(8) {
        0 => rng.below(1 << 31),
        1 => rng.between(999_999_999, 1_000_000_001),
        _ => at.saturating_add_signed(rng.between(0, 6) as i32 - 3),
    }
}

fn alter(rng: &mut Rng, tx: &mut Tx) {
    let exon = rng.below(tx.exons.len() as u32) as usize;
    let segments = tx.segments.len();
    let one = (segments > 0).then(|| rng.below(segments as u32) as usize);
    match (rng.below(14), one) {
        (0, _) => tx.exons[exon].0 = moved(rng, tx.exons[exon].0),
        (1, _) => tx.exons[exon].1 = moved(rng, tx.exons[exon].1),
        (2, _) => tx.exons.swap(0, exon),
        (3, _) => tx.chrom = rng.below(28) as u16,
        (4, _) => tx.start_complete = !tx.start_complete,
        (5, _) => tx.minus = !tx.minus,
        (6, _) if tx.cds.is_some() => {
            let (start, end) = tx.cds.unwrap_or_default();
            tx.cds = Some((moved(rng, start), moved(rng, end)));
        }
        (6, _) => tx.cds = Some(tx.exons[exon]),
        (7, Some(i)) => tx.segments[i].phase = rng.below(5) as u8,
        (8, Some(i)) => {
            tx.segments[i].exon = (u32::from(tx.segments[i].exon) + rng.below(3)) as u16;
        }
        (9, Some(i)) => tx.segments[i].start = moved(rng, tx.segments[i].start),
        (10, Some(i)) => tx.segments[i].end = moved(rng, tx.segments[i].end),
        (11, Some(i)) => drop(tx.segments.remove(i)),
        (12, Some(i)) => {
            let again: Segment = tx.segments[i].clone();
            tx.segments.insert(i, again);
        }
        (_, _) => {
            let at = rng.pick(&[tx.exons[exon].0, tx.exons[exon].1]);
            tx.sec.push(moved(rng, at));
        }
    }
}

/// A coordinate near an edge, or anywhere on the transcript or far away.
pub fn position(rng: &mut Rng, tx: &Tx) -> u64 {
    let (start, end) = (tx.tx_start(), tx.tx_end());
    let edge = match rng.below(40) {
        0 => start.saturating_sub(5_000),
        1 => end + 4_999,
        2 => QUERY_LIMIT,
        3 => return u64::from(rng.below(QUERY_LIMIT)),
        4 => return rng.next() >> rng.below(64),
        5..=7 => tx.cds.map_or(start, |cds| cds.0),
        8..=10 => tx.cds.map_or(end, |cds| cds.1),
        11..=24 => return u64::from(rng.between(start, end - 1)),
        _ => {
            let exon = rng.pick(&tx.exons);
            if rng.chance(50) { exon.0 } else { exon.1 }
        }
    };
    let reach = rng.pick(&[1, 3, 9, 20]);
    u64::from(edge.saturating_add_signed(rng.below(2 * reach + 1) as i32 - reach as i32))
}

/// Start and end: often an insertion, at times the end before the start.
pub fn interval(rng: &mut Rng, tx: &Tx) -> (u64, u64) {
    let one = position(rng, tx);
    let other = match rng.below(20) {
        0..=5 => one,
        6..=14 => one.saturating_add(rng.between(1, 4).into()),
        15..=17 => one.saturating_add(rng.between(5, 40).into()),
        _ => position(rng, tx),
    };
    if rng.chance(97) {
        (one.min(other), one.max(other))
    } else {
        (one, other)
    }
}

/// First coordinate and bytes: over the transcript, cut, of one byte, or far away.
pub fn window(rng: &mut Rng, tx: &Tx, index: &LocateIndex) -> (u32, Vec<u8>) {
    let coding = coding_bases(tx);
    let (start, end) = (tx.tx_start(), tx.tx_end());
    let (first, past) = match rng.below(10) {
        0 if !coding.is_empty() => {
            let (a, b) = (rng.pick(&coding), rng.pick(&coding));
            (a.min(b), a.max(b) + 1)
        }
        1 if !coding.is_empty() => {
            let a = rng.pick(&coding);
            (a, a + 1)
        }
        2 => (start.saturating_sub(5_005), start + 1),
        3 => (end - 1, end + 5_005),
        _ => (start.saturating_sub(8), end + 8),
    };
    let (pad, sec) = (index.cds_start_pad(), index.selenocysteine_codons());
    (first, fill(rng, tx, first, past - first, pad, sec))
}

/// A call that the window mostly fits.
pub fn call(rng: &mut Rng, tx: &Tx, first: u32, bytes: &[u8]) -> Call {
    let position = if rng.chance(70) {
        u64::from(first + rng.below(bytes.len() as u32))
    } else {
        position(rng, tx)
    };
    let within = position
        .checked_sub(first.into())
        .and_then(|i| bytes.get(i as usize));
    let ref_base = match within {
        Some(&base) if rng.chance(97) => base,
        _ => rng.pick(b"ACGTNacgt"),
    };
    let alt_base = if rng.chance(97) {
        let others = b"ACGT".iter().copied().filter(|&b| b != ref_base);
        rng.pick(&others.collect::<Vec<u8>>())
    } else {
        rng.pick(b"ACGTNacgt-")
    };
    let chromosome = if rng.chance(99) {
        tx.chrom
    } else {
        rng.below(27) as u16
    };
    Call {
        chromosome,
        position,
        ref_base,
        alt_base,
    }
}
