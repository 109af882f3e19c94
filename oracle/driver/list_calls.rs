//! Calls: `annotate_snv_verified` over a window.

use super::answer::Subject;
use super::call::{call, window};
use super::call_shapes::{each_frame, many_exons, random, short_gaps};
use super::call_windows::{cut, every_base, far, put_calls, single, some, whole};
use super::record::{MITOCHONDRIAL, Tx};
use super::rng::Rng;
use super::shape::{coding_bases, plain, set_cds};
use crate::codon::complement;

pub fn list() -> Vec<u8> {
    let mut out = Vec::new();
    // Document 01's transcript has id 7.
    let mut id = 100;
    let mut next = || {
        id += 1;
        id
    };
    documented(&mut out);
    part(&mut Rng::new(3), &mut out, &mut next, 600, None);
    let mut rng = Rng::new(5);
    part(&mut rng, &mut out, &mut next, 100, Some(MITOCHONDRIAL));
    for minus in [false, true] {
        every_codon(&mut rng, &mut out, next(), minus);
    }
    out
}

/// Calls on transcripts of every shape, `count` random ones among them, on
/// chromosomes 1 to 24 or all on the one given.
fn part(
    rng: &mut Rng,
    out: &mut Vec<u8>,
    next: &mut impl FnMut() -> u32,
    count: u32,
    only: Option<u16>,
) {
    let put = |tx: Tx| Tx {
        chrom: only.unwrap_or(tx.chrom),
        ..tx
    };
    for tx in each_frame(rng, next).into_iter().map(put) {
        whole(rng, out, tx.clone());
        single(rng, out, tx);
    }
    for tx in short_gaps(next).into_iter().map(put) {
        whole(rng, out, tx);
    }
    for i in 0..count {
        let tx = put(random(rng, next(), i % 12 == 0));
        if i % 4 == 0 {
            cut(rng, out, tx);
        } else if i % 25 == 1 {
            far(rng, out, tx);
        } else {
            whole(rng, out, tx);
        }
    }
    for minus in [false, true] {
        let tx = put(many_exons(rng, next(), minus));
        let (first, length) = (tx.tx_start(), tx.tx_end() - tx.tx_start());
        some(rng, out, tx, first, length, 600);
    }
}

/// The deck and the three calls that document 01 prints.
fn documented(out: &mut Vec<u8>) {
    let mut tx = plain(7, 1, false, 100, &[30, 30], &[30]);
    set_cds(&mut tx, 10, 39, 0, true);
    let mut bytes = vec![b'A'; 90];
    (bytes[11], bytes[67], bytes[12], bytes[28]) = (b'T', b'T', b'G', b'G');
    let fasta = window(&tx, 100, bytes);
    let subject = Subject::new(tx);
    let answers: Vec<Vec<u8>> = [(111, b'T', b'C'), (129, b'A', b'C'), (130, b'A', b'G')]
        .map(|(pos, reference, alt)| call(&subject, &fasta, pos, reference, alt))
        .into();
    put_calls(out, &subject, &fasta, &answers);
}

/// A mitochondrial gene of all 64 codons.
fn every_codon(rng: &mut Rng, out: &mut Vec<u8>, id: u32, minus: bool) {
    let mut tx = plain(id, MITOCHONDRIAL, minus, 3_000, &[200], &[]);
    set_cds(&mut tx, 4, 195, 0, true);
    let mut bytes = vec![b'A'; 200];
    for (i, at) in coding_bases(&tx).into_iter().enumerate() {
        let base = b"ACGT"[(i / 3) >> (4 - 2 * (i % 3)) & 3];
        bytes[(at - 3_000) as usize] = if minus { complement(base) } else { base };
    }
    let fasta = window(&tx, 3_000, bytes);
    every_base(rng, out, &Subject::new(tx), &fasta);
}
