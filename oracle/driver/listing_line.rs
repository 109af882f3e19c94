//! One line of the listing: a call's refusals 14 to 19 and 21, and the Rust's columns.

use super::answer::Subject;
use super::call::call_refusal;
use super::call_line::Call;
use super::record::{QUERY_LIMIT, chrom_name};
use crate::consequence::ConsequenceResult;
use crate::consequence::snv::annotate_snv_verified;
use crate::fasta::FastaReader;

/// The window and its chromosome.
pub struct Window {
    pub chromosome: u16,
    pub fasta: FastaReader,
}

impl Window {
    /// None where the file is refused by 27.
    pub fn read(file: &[u8]) -> Option<Self> {
        if file.len() < 10 || file.len() > 65_536 {
            return None;
        }
        let chromosome = u16::from_le_bytes([file[0], file[1]]);
        let fasta = FastaReader {
            chrom: chrom_name(chromosome),
            first: u64::from_le_bytes(file[2..10].try_into().expect("8 bytes")),
            bytes: file[10..].to_vec(),
        };
        Some(Self { chromosome, fasta })
    }

    fn byte(&self, position: u64) -> Option<u8> {
        let place = position.checked_sub(self.fasta.first)?;
        self.fasta.bytes.get(usize::try_from(place).ok()?).copied()
    }
}

/// The Rust's result, or the refusal of the call: 14 to 18 are document 01's.
pub fn judged(subject: &Subject, window: &Window, call: &Call) -> Result<ConsequenceResult, u8> {
    let own = subject.tx.chrom;
    if call.position >= u64::from(QUERY_LIMIT) {
        return Err(15);
    }
    if call.chromosome != own || window.chromosome != own {
        return Err(14);
    }
    if !b"ACGT".contains(&call.alt) || call.alt == call.reference {
        return Err(16);
    }
    let base = window.byte(call.position).ok_or(17)?;
    if base != call.reference {
        return Err(18);
    }
    annotate_snv_verified(
        &subject.model.chrom,
        call.position,
        call.reference,
        call.alt,
        &subject.model,
        &subject.index,
        &window.fasta,
    )
    .map_err(|error| call_refusal(&error))
}

/// The columns from place to terms, or the refusal of the call.
pub fn answer(subject: &Subject, window: &Window, call: &Call) -> Result<Vec<u8>, u8> {
    let result = judged(subject, window, call)?;
    let place = format!("{:?}", subject.place(call.position as u32));
    let name = place.split([' ', '{']).next().expect("a name");
    Ok(columns(name, &result))
}

/// The columns from place to terms.
pub fn columns(place: &str, result: &ConsequenceResult) -> Vec<u8> {
    // A char of the Rust's text is one byte here, over 127 too.
    let text = |text: &Option<String>| -> Vec<u8> {
        let one_byte = |c| u8::try_from(c).expect("one byte");
        text.as_deref()
            .unwrap_or("-")
            .chars()
            .map(one_byte)
            .collect()
    };
    let number = |number: Option<u32>| number.map_or("-".to_string(), |n| n.to_string());
    let terms: Vec<&str> = result.consequences.iter().map(|c| c.as_str()).collect();
    let columns = [
        place.as_bytes().to_vec(),
        text(&result.exon),
        text(&result.intron),
        number(result.cds_position).into_bytes(),
        number(result.cdna_position).into_bytes(),
        number(result.protein_start).into_bytes(),
        text(&result.codons),
        text(&result.amino_acids),
        terms.join(",").into_bytes(),
    ];
    columns.join(&b' ')
}
