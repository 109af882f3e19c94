//! A transcript of a list: its bytes, and the Rust's own model of it.

use crate::types::{CdsSegment, Exon, Strand, TranscriptModel};

/// The limit of document 01 on coordinates of a transcript.
pub const COORDINATE_LIMIT: u32 = 1_000_000_000;
/// The limit of document 01 on start and end of a query.
pub const QUERY_LIMIT: u32 = 1_000_010_000;

/// The chromosome that has a genetic code of its own.
pub const MITOCHONDRIAL: u16 = 25;

/// The first byte of a block; `LISTS` of listfile.py has the same order.
#[derive(Clone, Copy)]
pub enum Kind {
    Index,
    Places,
    Intervals,
    Calls,
}

#[derive(Clone)]
pub struct Segment {
    pub phase: u8,
    pub exon: u16,
    pub start: u32,
    pub end: u32,
}

/// Exons and segments stand in strand order.
#[derive(Clone)]
pub struct Tx {
    pub id: u32,
    pub chrom: u16,
    pub minus: bool,
    pub start_complete: bool,
    pub exons: Vec<(u32, u32)>,
    pub cds: Option<(u32, u32)>,
    pub segments: Vec<Segment>,
    pub sec: Vec<u32>,
}

pub fn chrom_name(number: u16) -> String {
    match number {
        23 => "chrX".to_string(),
        24 => "chrY".to_string(),
        MITOCHONDRIAL => "chrM".to_string(),
        n => format!("chr{n}"),
    }
}

impl Tx {
    pub fn tx_start(&self) -> u32 {
        self.exons.iter().map(|e| e.0).min().expect("an exon")
    }

    pub fn tx_end(&self) -> u32 {
        self.exons.iter().map(|e| e.1).max().expect("an exon")
    }

    /// The lower and upper edge of each gap, touching exons left out.
    pub fn gaps(&self) -> Vec<(u32, u32)> {
        self.exons
            .windows(2)
            .map(|pair| {
                if self.minus {
                    (pair[1].1, pair[0].0)
                } else {
                    (pair[0].1, pair[1].0)
                }
            })
            .filter(|gap| gap.0 < gap.1)
            .collect()
    }

    pub fn model(&self) -> TranscriptModel {
        let exons = self.exons.iter().enumerate().map(|(i, e)| Exon {
            exon_number: i as u16 + 1,
            genomic_start: u64::from(e.0),
            genomic_end: u64::from(e.1),
        });
        let strand = if self.minus {
            Strand::Minus
        } else {
            Strand::Plus
        };
        let name = self.id.to_string();
        let mut model =
            TranscriptModel::new(name, "", chrom_name(self.chrom), strand, exons.collect());
        model.cds_genomic_start = self.cds.map(|c| u64::from(c.0));
        model.cds_genomic_end = self.cds.map(|c| u64::from(c.1));
        model.cds_start_complete = self.start_complete;
        model.cds_segments = self
            .segments
            .iter()
            .map(|s| CdsSegment {
                exon_index: s.exon,
                genomic_start: u64::from(s.start),
                genomic_end: u64::from(s.end),
                phase: s.phase,
            })
            .collect();
        // Set as listed; the setter would sort them.
        model.selenocysteine_codons = self.sec.iter().map(|&b| u64::from(b)).collect();
        model
    }

    pub fn encode(&self) -> Vec<u8> {
        let mut out = Vec::new();
        let cds = self.cds.unwrap_or((0, 0));
        put32(&mut out, self.id);
        put16(&mut out, self.chrom);
        out.push(u8::from(self.minus));
        out.push(u8::from(self.start_complete) + 2 * u8::from(self.cds.is_some()));
        put16(&mut out, self.exons.len() as u16);
        put16(&mut out, self.exons.len() as u16);
        put16(&mut out, self.segments.len() as u16);
        put16(&mut out, self.sec.len() as u16);
        for number in [self.tx_start(), self.tx_end(), cds.0, cds.1] {
            put32(&mut out, number);
        }
        for exon in &self.exons {
            put32(&mut out, exon.0);
            put32(&mut out, exon.1);
        }
        for segment in &self.segments {
            out.push(segment.phase);
            out.push(0);
            put16(&mut out, segment.exon);
            put32(&mut out, segment.start);
            put32(&mut out, segment.end);
        }
        for &base in &self.sec {
            put32(&mut out, base);
        }
        out
    }
}

pub fn put16(out: &mut Vec<u8>, number: u16) {
    out.extend_from_slice(&number.to_le_bytes());
}

pub fn put32(out: &mut Vec<u8>, number: u32) {
    out.extend_from_slice(&number.to_le_bytes());
}

/// The most bytes of a block behind its kind: with kind and length 65,536.
const ROOM: usize = 65_531;

/// Appends one block: the length of what follows, the kind, the rest.
pub fn put_block(out: &mut Vec<u8>, kind: Kind, rest: &[u8]) {
    assert!(rest.len() <= ROOM, "the block is too long");
    put32(out, rest.len() as u32 + 1);
    out.push(kind as u8);
    out.extend_from_slice(rest);
}

/// Appends blocks of `head`, a count, and that many answers of equal length,
/// as many blocks as the answers need.
pub fn put_answers(out: &mut Vec<u8>, kind: Kind, head: &[u8], answers: &[Vec<u8>]) {
    let Some(first) = answers.first() else {
        return;
    };
    let room = (ROOM - head.len() - 4) / first.len();
    for part in answers.chunks(room) {
        let mut rest = head.to_vec();
        put32(&mut rest, part.len() as u32);
        for answer in part {
            assert_eq!(answer.len(), first.len());
            rest.extend_from_slice(answer);
        }
        put_block(out, kind, &rest);
    }
}
