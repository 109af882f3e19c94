//! The transcripts of the calls, on chromosomes 1 to 24.

use super::record::Tx;
use super::rng::Rng;
use super::shape::{add_sec, exonic, gap_length, low_base, plain, random_cds, set_cds};

/// Each pad with each number of bases in the last codon, from a CDS of one
/// base up, on both strands, with the start complete and not.
pub fn each_frame(rng: &mut Rng, next: &mut impl FnMut() -> u32) -> Vec<Tx> {
    let mut all = Vec::new();
    for minus in [false, true] {
        for (pad, complete) in [(0, true), (0, false), (1, false), (2, false)] {
            for length in [1, 2, 3, 4, 5, 6, 7, 16, 17, 18] {
                let lens = [rng.between(3, 8), rng.between(1, 4), 14];
                let gaps = [gap_length(rng), gap_length(rng)];
                let low = rng.between(6_000, 9_000);
                let chrom = rng.between(1, 24) as u16;
                let mut tx = plain(next(), chrom, minus, low, &lens, &gaps);
                let first = rng.below((exonic(&tx) - length).min(4) + 1);
                set_cds(
                    &mut tx,
                    first,
                    first + length - 1,
                    ((3 - pad) % 3) as u8,
                    complete,
                );
                let count = rng.below(3);
                add_sec(rng, &mut tx, count);
                all.push(tx);
            }
        }
    }
    all
}

/// Gaps of 0 to 3, 13, 14 and 20 in the CDS, in the UTRs and without CDS, also two
/// of them around an exon of one base.
pub fn short_gaps(next: &mut impl FnMut() -> u32) -> Vec<Tx> {
    let mut all = Vec::new();
    for minus in [false, true] {
        for (one, two) in [(1, 1), (1, 20), (20, 1), (2, 1), (1, 3), (13, 14), (0, 1)] {
            for middle in [1, 2, 5] {
                let lens = [9, middle, 9];
                let tx = plain(next(), 4, minus, 7_000, &lens, &[one, two]);
                let bounds = [
                    (2, 14 + middle),
                    (0, 4),
                    (13 + middle, 15 + middle),
                    (9, 12 + middle),
                ];
                for (first, last) in bounds {
                    let mut coding = tx.clone();
                    coding.id = next();
                    set_cds(&mut coding, first, last, 0, true);
                    all.push(coding);
                }
                all.push(tx);
            }
        }
    }
    all
}

/// One of 1 to 6 exons.
pub fn random(rng: &mut Rng, id: u32, noncoding: bool) -> Tx {
    let count = rng.between(1, 6);
    let lens: Vec<u32> = (0..count)
        .map(|_| rng.pick(&[1, 3, 8, 11, 17, 24, 30]))
        .collect();
    let gaps: Vec<u32> = (1..count).map(|_| gap_length(rng).min(60)).collect();
    let span = lens.iter().sum::<u32>() + gaps.iter().sum::<u32>();
    let low = low_base(rng, span);
    let chrom = rng.between(1, 24) as u16;
    let minus = rng.chance(50);
    let mut tx = plain(id, chrom, minus, low, &lens, &gaps);
    if !noncoding {
        let last = exonic(&tx) - 1;
        if last > 12 && rng.chance(70) {
            let phase = rng.below(3) as u8;
            let (first, last) = (rng.below(6), last - rng.below(6));
            set_cds(&mut tx, first, last, phase, phase == 0 && rng.chance(70));
        } else {
            random_cds(rng, &mut tx);
        }
        if rng.chance(50) {
            let bases = rng.between(1, 6);
            add_sec(rng, &mut tx, bases);
        }
    }
    tx
}

/// One of 512 exons.
pub fn many_exons(rng: &mut Rng, id: u32, minus: bool) -> Tx {
    let lens: Vec<u32> = (0..512).map(|_| rng.pick(&[1, 2, 3, 4, 7])).collect();
    let gaps: Vec<u32> = (0..511).map(|_| rng.pick(&[0, 1, 2, 13, 14, 26])).collect();
    let mut tx = plain(id, 6, minus, 50_000, &lens, &gaps);
    set_cds(&mut tx, 100, 1_500, 2, false);
    add_sec(rng, &mut tx, 64);
    tx
}
