//! Places: `locate_variant` at single bases.

use super::answer::answered;
use super::place::put_place;
use super::record::{Kind, QUERY_LIMIT, Tx, put32};
use super::rng::Rng;
use super::shape::{either_order, exonic, plain, random_cds, random_plain, set_cds};

pub fn list() -> Vec<u8> {
    let mut rng = Rng::new(2);
    let mut all: Vec<Tx> = Vec::new();
    documented(&mut all);
    each_gap(&mut rng, &mut all);
    for i in 0..420 {
        let count = if i % 7 == 0 { 1 } else { rng.between(2, 7) };
        let mut tx = random_plain(&mut rng, 100 + all.len() as u32, count);
        if rng.chance(80) {
            random_cds(&mut rng, &mut tx);
        }
        all.push(tx);
    }
    for minus in [false, true] {
        all.push(longest(&mut rng, 100 + all.len() as u32, minus));
    }
    answered(Kind::Places, all, |subject| {
        bases_asked(&mut rng, &subject.tx)
            .into_iter()
            .map(|base| {
                let mut answer = Vec::new();
                put32(&mut answer, base);
                put_place(&mut answer, &subject.place(base));
                answer
            })
            .collect()
    })
}

/// Three exons around one gap of each size from 0 to 44 and one of another
/// size, without CDS and with each pad. The middle exon is at times one base.
fn each_gap(rng: &mut Rng, all: &mut Vec<Tx>) {
    for gap in 0..=44 {
        for minus in [false, true] {
            for pad in [None, Some(0), Some(1), Some(2)] {
                let middle = rng.pick(&[1, 2, 3, 5, 7]);
                let other = rng.pick(&[0, 1, 2, 3, 12, 13, 14, 18, 24, 25, 26]);
                let lens = [rng.between(4, 9), middle, rng.between(4, 9)];
                let gaps = either_order(rng, gap, other);
                let low = rng.between(6_000, 9_000);
                let chrom = rng.between(1, 25) as u16;
                let mut tx = plain(100 + all.len() as u32, chrom, minus, low, &lens, &gaps);
                if let Some(pad) = pad {
                    let last = exonic(&tx) - 1;
                    let first = rng.below(4);
                    let phase = ((3 - pad) % 3) as u8;
                    set_cds(&mut tx, first, last - rng.below(4), phase, pad == 0);
                }
                all.push(tx);
            }
        }
    }
}

/// The two transcripts of document 01's marked entries; all others have an id over 100.
fn documented(all: &mut Vec<Tx>) {
    let mut tx = plain(7, 1, false, 100, &[30, 30], &[30]);
    set_cds(&mut tx, 10, 39, 0, true);
    all.push(tx);
    all.push(plain(8, 1, false, 100, &[30, 17], &[13]));
}

/// 512 exons, of one base and more, with short and long gaps.
fn longest(rng: &mut Rng, id: u32, minus: bool) -> Tx {
    let lens: Vec<u32> = (0..512).map(|_| rng.pick(&[1, 1, 2, 3, 4, 7, 9])).collect();
    let gaps: Vec<u32> = (0..511)
        .map(|_| rng.pick(&[0, 1, 2, 3, 12, 13, 14, 18, 26]))
        .collect();
    let mut tx = plain(id, 5, minus, 40_000, &lens, &gaps);
    set_cds(&mut tx, 100, 1_500, 2, false);
    tx
}

/// Every base of the transcript and 4 beyond each end, bases around distance
/// 5000 on both sides, and some between.
fn bases_asked(rng: &mut Rng, tx: &Tx) -> Vec<u32> {
    let (start, end) = (tx.tx_start(), tx.tx_end());
    let mut bases: Vec<u32> = (start.saturating_sub(4)..end + 4).collect();
    for distance in 4_998..=5_002 {
        bases.extend(start.checked_sub(distance));
        bases.push(end - 1 + distance);
    }
    for _ in 0..4 {
        let distance = rng.between(5, 4_997);
        bases.extend(start.checked_sub(distance));
        bases.push(end - 1 + distance);
    }
    // Far away, up to the last base that may be asked for.
    bases.extend([0, rng.below(QUERY_LIMIT), QUERY_LIMIT - 1]);
    bases
}
