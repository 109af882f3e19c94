//! Windows of the calls, and which bases of them are called.

use super::answer::Subject;
use super::bases::fill;
use super::call::{call, window};
use super::record::{Kind, Tx, put_answers, put16, put32};
use super::rng::Rng;
use super::shape::coding_bases;
use crate::fasta::FastaReader;
use crate::locate::VariantLocation;

/// A window over the transcript and some bases beyond.
pub fn whole(rng: &mut Rng, out: &mut Vec<u8>, tx: Tx) {
    let first = tx.tx_start().saturating_sub(4);
    let length = tx.tx_end() + 4 - first;
    ask(rng, out, tx, first, length);
}

/// A window that begins or ends at a coding base, or both.
pub fn cut(rng: &mut Rng, out: &mut Vec<u8>, tx: Tx) {
    let coding = coding_bases(&tx);
    let (mut first, mut end) = (tx.tx_start(), tx.tx_end());
    if !coding.is_empty() {
        let (a, b) = (rng.pick(&coding), rng.pick(&coding));
        match rng.below(3) {
            0 => first = a,
            1 => end = a + 1,
            _ => (first, end) = (a.min(b), a.max(b) + 1),
        }
    }
    ask(rng, out, tx, first, end - first);
}

/// Windows of one byte: each of the first and last three coding bases alone.
pub fn single(rng: &mut Rng, out: &mut Vec<u8>, tx: Tx) {
    let coding = coding_bases(&tx);
    for (i, &base) in coding.iter().enumerate() {
        if i < 3 || i + 3 >= coding.len() {
            ask(rng, out, tx.clone(), base, 1);
        }
    }
}

/// Windows around distance 5000 on both sides, and one over all of it.
pub fn far(rng: &mut Rng, out: &mut Vec<u8>, tx: Tx) {
    let (low, high) = (tx.tx_start().saturating_sub(5_006), tx.tx_end() + 5_006);
    ask(rng, out, tx.clone(), low, 12);
    ask(rng, out, tx.clone(), high - 12, 12);
    some(rng, out, tx, low, high - low, 60);
}

fn prepared(rng: &mut Rng, tx: Tx, first: u32, length: u32) -> (Subject, FastaReader) {
    let subject = Subject::new(tx);
    let (pad, sec) = (
        subject.index.cds_start_pad(),
        subject.index.selenocysteine_codons(),
    );
    let bytes = fill(rng, &subject.tx, first, length, pad, sec);
    let fasta = window(&subject.tx, first, bytes);
    (subject, fasta)
}

fn ask(rng: &mut Rng, out: &mut Vec<u8>, tx: Tx, first: u32, length: u32) {
    let (subject, fasta) = prepared(rng, tx, first, length);
    every_base(rng, out, &subject, &fasta);
}

/// Every coding base of the window with every alt, every other base with one.
pub fn every_base(rng: &mut Rng, out: &mut Vec<u8>, subject: &Subject, fasta: &FastaReader) {
    let mut answers = Vec::new();
    for (pos, &reference) in (fasta.first as u32..).zip(&fasta.bytes) {
        if matches!(subject.place(pos), VariantLocation::CdsExon { .. }) {
            for alt in *b"ACGT" {
                if alt != reference {
                    answers.push(call(subject, fasta, pos, reference, alt));
                }
            }
        } else {
            one_alt(rng, subject, fasta, pos, &mut answers);
        }
    }
    put_calls(out, subject, fasta, &answers);
}

/// `count` bases of the window, each with one alt.
pub fn some(rng: &mut Rng, out: &mut Vec<u8>, tx: Tx, first: u32, length: u32, count: u32) {
    let (subject, fasta) = prepared(rng, tx, first, length);
    let mut answers = Vec::new();
    for _ in 0..count {
        let pos = first + rng.below(length);
        one_alt(rng, &subject, &fasta, pos, &mut answers);
    }
    put_calls(out, &subject, &fasta, &answers);
}

fn one_alt(rng: &mut Rng, s: &Subject, fasta: &FastaReader, pos: u32, answers: &mut Vec<Vec<u8>>) {
    let reference = fasta.bytes[(u64::from(pos) - fasta.first) as usize];
    let alts: Vec<u8> = b"ACGT"
        .iter()
        .copied()
        .filter(|&a| a != reference)
        .collect();
    answers.push(call(s, fasta, pos, reference, rng.pick(&alts)));
}

/// Appends the calls of a transcript and its window.
pub fn put_calls(out: &mut Vec<u8>, subject: &Subject, fasta: &FastaReader, answers: &[Vec<u8>]) {
    let mut head = subject.tx.encode();
    put16(&mut head, subject.tx.chrom);
    put16(&mut head, 0);
    put32(&mut head, fasta.first as u32);
    put32(&mut head, fasta.bytes.len() as u32);
    head.extend_from_slice(&fasta.bytes);
    put_answers(out, Kind::Calls, &head, answers);
}
