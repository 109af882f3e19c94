//! Intervals: `classify_flank`, `exonic_splice_spill` and
//! `frameshift_intron_endpoint` on intervals and insertions.

use super::answer::{answered, interval};
use super::record::{Kind, QUERY_LIMIT, Tx};
use super::rng::Rng;
use super::shape::{either_order, plain, random_cds, random_plain};

pub fn list() -> Vec<u8> {
    let mut rng = Rng::new(4);
    let mut all: Vec<Tx> = Vec::new();
    each_gap(&mut rng, &mut all);
    // A base between two gaps of 1 is in a window of each.
    for minus in [false, true] {
        for low in [6_000, 8_000] {
            all.push(plain(
                all.len() as u32,
                9,
                minus,
                low,
                &[7, 1, 1, 6],
                &[1, 1, 1],
            ));
        }
    }
    // The lowest base of the genome: an insertion at 0 has no base before it.
    for minus in [false, true] {
        all.push(plain(all.len() as u32, 3, minus, 0, &[1, 1, 4], &[1, 2]));
        all.push(plain(all.len() as u32, 3, minus, 0, &[9], &[]));
    }
    for i in 0..130 {
        let count = if i % 9 == 0 { 1 } else { rng.between(2, 6) };
        let mut tx = random_plain(&mut rng, all.len() as u32, count);
        if rng.chance(60) {
            random_cds(&mut rng, &mut tx);
        }
        all.push(tx);
    }
    answered(Kind::Intervals, all, |subject| {
        intervals_asked(&mut rng, &subject.tx)
            .into_iter()
            .map(|(start, end)| interval(subject, start, end))
            .collect()
    })
}

/// Two and three exons around a gap of each size from 0 to 15, the middle one
/// at times so short that the windows of both gaps reach it.
fn each_gap(rng: &mut Rng, all: &mut Vec<Tx>) {
    for gap in 0..=15 {
        for minus in [false, true] {
            let low = rng.between(6_000, 9_000);
            let chrom = rng.between(1, 25) as u16;
            all.push(plain(all.len() as u32, chrom, minus, low, &[8, 8], &[gap]));
            let middle = rng.pick(&[1, 1, 2, 3]);
            let other = rng.pick(&[1, 1, 2, 13, 14, 0]);
            let gaps = either_order(rng, gap, other);
            all.push(plain(
                all.len() as u32,
                chrom,
                minus,
                low,
                &[5, middle, 5],
                &gaps,
            ));
        }
    }
}

/// At every edge, insertions and intervals that begin or end near it; and the
/// same around distance 5000 on both sides.
fn intervals_asked(rng: &mut Rng, tx: &Tx) -> Vec<(u32, u32)> {
    let mut asked = Vec::new();
    let mut ask = |start: i64, length: i64| {
        if let (Ok(start), Ok(end)) = (u32::try_from(start), u32::try_from(start + length))
            && end <= QUERY_LIMIT
        {
            asked.push((start, end));
        }
    };
    for edge in tx.exons.iter().flat_map(|e| [e.0, e.1]) {
        for shift in -6..=6 {
            let at = i64::from(edge) + shift;
            let length = i64::from(rng.between(4, 30));
            for length in [0, 1, 2, 3, length] {
                ask(at, length);
            }
            let length = i64::from(rng.between(2, 30));
            ask(at - length, length);
        }
    }
    let (start, end) = (i64::from(tx.tx_start()), i64::from(tx.tx_end()));
    for distance in 4_997..=5_003 {
        for length in [0, 1, 2, 30, i64::from(rng.between(3, 29))] {
            ask(start - distance - length, length);
            ask(end + distance, length);
        }
    }
    for _ in 0..6 {
        let length = i64::from(rng.below(31));
        ask(i64::from(rng.below(QUERY_LIMIT)), length);
        ask(start - i64::from(rng.between(7, 4_996)) - length, length);
        ask(end + i64::from(rng.between(7, 4_996)), length);
    }
    // Over the whole transcript, and the last insertion that may be asked for.
    ask(start, end - start);
    ask(start - 1, end - start + 2);
    ask(i64::from(QUERY_LIMIT), 0);
    ask(0, 0);
    asked
}
