//! Bases of a window: codons that start, stop or nearly do so are frequent, on
//! chromosome 25 those of its own code, and so are bytes that are no base.

use super::record::{MITOCHONDRIAL, Tx};
use super::rng::Rng;
use super::shape::coding_bases;
use crate::codon::complement;

const STOPS: [&[u8; 3]; 3] = [b"TAA", b"TAG", b"TGA"];
/// One base away from a stop.
const NEAR_STOPS: [&[u8; 3]; 12] = [
    b"TGG", b"TGT", b"TGC", b"CGA", b"AGA", b"GGA", b"TTA", b"TCA", b"TAT", b"CAA", b"GAG", b"AAG",
];
/// One base away from TGA.
const NEAR_TGA: [&[u8; 3]; 6] = [b"TGG", b"TGC", b"CGA", b"GGA", b"TCA", b"TAA"];
/// Read otherwise by the mitochondrial code.
const DIFFERENT: [&[u8; 3]; 4] = [b"AGA", b"AGG", b"ATA", b"TGA"];
/// Lower case, other letters, blanks, zero, and bytes over 127, among them
/// those that are letters with two cases in Latin-1.
const ODD: [u8; 20] = [
    b'N', b'N', b'a', b'c', b'g', b't', b'n', b'R', b'Z', b'-', b'/', b' ', b'\n', b'\r', 0, 127,
    128, 0xc5, 0xe5, 255,
];

fn base(rng: &mut Rng) -> u8 {
    rng.pick(b"ACGT")
}

/// A codon that decides on chromosome 25: codon 1 as a start, else one of the
/// four that differ, or one a base away.
fn mitochondrial(rng: &mut Rng, number: u32) -> [u8; 3] {
    if number == 1 {
        return *rng.pick(&[b"ATG", b"ATA"]);
    }
    let mut codon = *rng.pick(&DIFFERENT);
    if rng.chance(60) {
        codon[rng.below(3) as usize] = base(rng);
    }
    codon
}

/// `partial` is for a padded or unfinished codon, whose bytes are shown
/// whatever they are.
fn codon(rng: &mut Rng, number: u32, mito: bool, sec: bool, partial: bool) -> [u8; 3] {
    if partial && rng.chance(60) {
        return [(); 3].map(|_| {
            if rng.chance(50) {
                rng.pick(&ODD)
            } else {
                base(rng)
            }
        });
    }
    if mito && !sec && rng.chance(60) {
        return mitochondrial(rng, number);
    }
    let random = [base(rng), base(rng), base(rng)];
    let choice = rng.below(100);
    if sec && choice < 60 {
        return *b"TGA";
    }
    if sec && choice < 85 {
        return *rng.pick(&NEAR_TGA);
    }
    if number == 1 && choice < 60 {
        return *b"ATG";
    }
    let mut odd = random;
    odd[rng.below(3) as usize] = rng.pick(&ODD);
    match choice {
        0..=19 => *rng.pick(&STOPS),
        20..=29 => *b"ATG",
        30..=49 => *rng.pick(&NEAR_STOPS),
        50..=61 => odd,
        62 => [rng.pick(&ODD), rng.pick(&ODD), rng.pick(&ODD)],
        _ => random,
    }
}

/// `length` bytes from `first`. Coding bases are set codon by codon in the
/// padded frame and stand complemented on the minus strand.
pub fn fill(rng: &mut Rng, tx: &Tx, first: u32, length: u32, pad: u32, sec: &[u32]) -> Vec<u8> {
    let mut bytes: Vec<u8> = (0..length)
        .map(|_| {
            if rng.chance(15) {
                rng.pick(&ODD)
            } else {
                base(rng)
            }
        })
        .collect();
    let coding = coding_bases(tx);
    let total = pad + coding.len() as u32;
    let mut current = [0; 3];
    for (i, at) in coding.into_iter().enumerate() {
        let offset = i as u32 + pad;
        if i == 0 || offset % 3 == 0 {
            let number = offset / 3 + 1;
            let partial = i == 0 && pad > 0 || offset + 3 > total;
            let mito = tx.chrom == MITOCHONDRIAL;
            current = codon(rng, number, mito, sec.contains(&number), partial);
        }
        let byte = current[(offset % 3) as usize];
        if let Some(place) = at.checked_sub(first)
            && place < length
        {
            bytes[place as usize] = if tx.minus { complement(byte) } else { byte };
        }
    }
    bytes
}
