//! The window of a call, and the bytes of its answer.

use super::answer::Subject;
use super::place::put_place;
use super::record::{Tx, chrom_name, put16, put32};
use crate::consequence::snv::annotate_snv_verified;
use crate::error::VarEffectError;
use crate::fasta::FastaReader;

/// A window on the transcript's chromosome.
pub fn window(tx: &Tx, first: u32, bytes: Vec<u8>) -> FastaReader {
    FastaReader {
        chrom: chrom_name(tx.chrom),
        first: u64::from(first),
        bytes,
    }
}

/// The 64 bytes of a call and its answer.
pub fn call(subject: &Subject, fasta: &FastaReader, pos: u32, reference: u8, alt: u8) -> Vec<u8> {
    let mut out = Vec::new();
    put32(&mut out, pos);
    out.extend_from_slice(&[reference, alt, 0, 0]);
    let model = &subject.model;
    let answer = annotate_snv_verified(
        &model.chrom,
        u64::from(pos),
        reference,
        alt,
        model,
        &subject.index,
        fasta,
    );
    let result = match answer {
        Ok(result) => result,
        Err(error) => {
            out.push(call_refusal(&error));
            out.resize(64, 0);
            return out;
        }
    };
    out.extend_from_slice(&[0, 0, 0, 0]);
    put_place(&mut out, &subject.place(pos));
    put_of(&mut out, &result.exon);
    put_of(&mut out, &result.intron);
    put32(&mut out, result.cds_position.unwrap_or(0));
    put32(&mut out, result.cdna_position.unwrap_or(0));
    put32(&mut out, result.protein_start.unwrap_or(0));
    put_text(&mut out, &result.codons, 7);
    put_text(&mut out, &result.amino_acids, 3);
    let terms = result.consequences.iter();
    put32(
        &mut out,
        terms.fold(0, |set, term| set | 1 << (term.severity_rank() - 1)),
    );
    assert_eq!(out.len(), 64);
    out
}

pub fn call_refusal(error: &VarEffectError) -> u8 {
    match error {
        VarEffectError::CoordinateOutOfRange { .. } => 21,
        VarEffectError::Malformed(text) if text.starts_with("variant is distal") => 19,
        other => panic!("unexpected error {other:?}"),
    }
}

/// The two numbers of a "k/n" text, 0 and 0 where it is absent.
fn put_of(out: &mut Vec<u8>, text: &Option<String>) {
    let (k, n) = match text {
        None => (0, 0),
        Some(text) => {
            let (k, n) = text.split_once('/').expect("k/n");
            (k.parse().expect("k"), n.parse().expect("n"))
        }
    };
    put16(out, k);
    put16(out, n);
}

/// Length, then each char as one byte, filled with zeros.
fn put_text(out: &mut Vec<u8>, text: &Option<String>, room: usize) {
    let text = text.as_deref().unwrap_or("");
    let mut bytes: Vec<u8> = text
        .chars()
        .map(|c| u8::try_from(c).expect("one byte"))
        .collect();
    out.push(bytes.len() as u8);
    bytes.resize(room, 0);
    out.extend_from_slice(&bytes);
}
