//! Questions in plain text, one statement a line; README.md has the form.

use super::answer::refusal;
use super::call::window;
use super::record::{Segment, Tx};
use super::shape::intersections;
use crate::consequence::snv::annotate_snv_verified;
use crate::fasta::FastaReader;
use crate::locate::helpers::{exonic_splice_spill, frameshift_intron_endpoint};
use crate::locate::{LocateIndex, classify_flank, locate_variant};

struct Session {
    tx: Tx,
    fasta: FastaReader,
}

/// Answers every line, or says which one is not understood.
pub fn answer_all(lines: impl Iterator<Item = String>) -> Result<(), String> {
    let tx = Tx {
        id: 0,
        chrom: 1,
        minus: false,
        start_complete: false,
        exons: Vec::new(),
        cds: None,
        segments: Vec::new(),
        sec: Vec::new(),
    };
    let fasta = window(&tx, 0, Vec::new());
    let mut session = Session { tx, fasta };
    for line in lines {
        let words: Vec<&str> = line.split_whitespace().collect();
        if words.is_empty() {
            continue;
        }
        let answer = session
            .statement(&words)
            .ok_or(format!("not understood: {line}"))?;
        if !answer.is_empty() {
            println!("{answer}");
        }
    }
    Ok(())
}

fn span(word: &str) -> Option<(u32, u32)> {
    let (start, end) = word.split_once('-')?;
    Some((start.parse().ok()?, end.parse().ok()?))
}

fn segment(word: &str) -> Option<Segment> {
    let mut parts = word.split(':');
    let phase = parts.next()?.parse().ok()?;
    let exon = parts.next()?.parse().ok()?;
    let (start, end) = span(parts.next()?)?;
    Some(Segment {
        phase,
        exon,
        start,
        end,
    })
}

/// One character is one byte.
fn bytes(word: &str) -> Option<Vec<u8>> {
    word.chars().map(|c| u8::try_from(c).ok()).collect()
}

impl Session {
    /// Takes one statement; the answer of a question, else an empty text.
    fn statement(&mut self, words: &[&str]) -> Option<String> {
        let tx = &mut self.tx;
        match *words {
            ["transcript", id, chrom, strand, start] => {
                tx.id = id.parse().ok()?;
                tx.chrom = chrom.parse().ok()?;
                tx.minus = ["plus", "minus"].iter().position(|&w| w == strand)? == 1;
                tx.start_complete = ["incomplete", "complete"]
                    .iter()
                    .position(|&w| w == start)?
                    == 1;
                (tx.exons, tx.cds, tx.segments, tx.sec) = (vec![], None, vec![], vec![]);
            }
            ["exons", ref exons @ ..] if !exons.is_empty() => {
                tx.exons = exons.iter().map(|w| span(w)).collect::<Option<_>>()?;
            }
            ["cds", bounds, phase] => {
                let cds = span(bounds)?;
                let phase: u8 = phase.parse().ok().filter(|&p| p < 3)?;
                tx.cds = Some(cds);
                tx.segments = intersections(tx, cds, phase);
            }
            ["segments", ref segments @ ..] => {
                tx.segments = segments.iter().map(|w| segment(w)).collect::<Option<_>>()?;
            }
            ["selenocysteine", ref bases @ ..] => {
                tx.sec = bases
                    .iter()
                    .map(|w| w.parse().ok())
                    .collect::<Option<_>>()?;
            }
            ["window", first, bases] => {
                self.fasta = window(tx, first.parse().ok()?, bytes(bases)?);
            }
            _ => return self.question(words),
        }
        Some(String::new())
    }

    fn question(&self, words: &[&str]) -> Option<String> {
        if self.tx.exons.is_empty() {
            return None;
        }
        let model = self.tx.model();
        let index = match LocateIndex::build(&model) {
            Ok(index) => index,
            Err(error) => return Some(format!("refused: {} {error:?}", refusal(&error))),
        };
        match *words {
            ["index"] => Some(format!("{index:?}")),
            ["place", base] => {
                let base: u64 = base.parse().ok()?;
                let place = locate_variant(&model.chrom, base, base + 1, &model, &index);
                Some(format!("{place:?}"))
            }
            ["interval", start, end] => {
                let (start, end): (u64, u64) = (start.parse().ok()?, end.parse().ok()?);
                if start > end {
                    return None;
                }
                let flank = classify_flank(start, end, &model);
                let spill = exonic_splice_spill(start, end, &model, &index);
                let short = frameshift_intron_endpoint(start, end, &model, &index);
                Some(format!("{flank:?} {spill:?} short intron {short:?}"))
            }
            ["call", pos, reference, alt] => {
                let pos: u64 = pos.parse().ok()?;
                let ([reference], [alt]) = (&bytes(reference)?[..], &bytes(alt)?[..]) else {
                    return None;
                };
                let answer = annotate_snv_verified(
                    &model.chrom,
                    pos,
                    *reference,
                    *alt,
                    &model,
                    &index,
                    &self.fasta,
                );
                let result = match answer {
                    Ok(result) => result,
                    Err(error) => return Some(format!("refused: {error:?}")),
                };
                let terms: Vec<&str> = result.consequences.iter().map(|c| c.as_str()).collect();
                let number = |n: Option<u32>| n.map_or("-".to_string(), |n| n.to_string());
                let text = |t: Option<String>| t.unwrap_or("-".to_string());
                Some(format!(
                    "{} {} {} {} {} {} {} {}",
                    text(result.exon),
                    text(result.intron),
                    number(result.cds_position),
                    number(result.cdna_position),
                    number(result.protein_start),
                    text(result.codons),
                    text(result.amino_acids),
                    terms.join(",")
                ))
            }
            _ => None,
        }
    }
}
