//! The deck of document 01, step 9: records of 16 bytes, little-endian. Judges
//! refusals 22, 23, 25 and 24 in this order and takes the transcripts out in
//! chain order.

use super::deck_record::{BOUNDS, EXON, Record, SEGMENT, SELENOCYSTEINE, TRANSCRIPT};
use super::record::{Segment, Tx};

/// A deck refusal: the record that is named, and the number.
#[derive(Debug, PartialEq)]
pub struct Refused {
    pub record: usize,
    pub number: u8,
}

/// A transcript and the record that it stands in.
pub struct Entry {
    pub record: usize,
    pub tx: Tx,
}

/// Links are followed once each; a bad one names the record it stands in.
struct Walk<'a> {
    records: Vec<Record<'a>>,
    reached: Vec<bool>,
}

impl Walk<'_> {
    fn follow(&mut self, from: usize, link: u16, kind: u8) -> Result<usize, Refused> {
        let to = usize::from(link);
        match self.records.get(to) {
            Some(record) if record.kind() == kind && !self.reached[to] => {
                self.reached[to] = true;
                Ok(to)
            }
            _ => Err(Refused {
                record: from,
                number: 24,
            }),
        }
    }

    /// The records of a chain that begins with `link`, which stands in `from`.
    fn chain(&mut self, from: usize, link: u16, kind: u8) -> Result<Vec<usize>, Refused> {
        let (mut at, mut link, mut found) = (from, link, Vec::new());
        while link != 0 {
            at = self.follow(at, link, kind)?;
            found.push(at);
            link = self.records[at].next();
        }
        Ok(found)
    }

    fn transcript(&mut self, at: usize) -> Result<Tx, Refused> {
        let (first_exon, bounds) = (self.records[at].short(10), self.records[at].short(12));
        let exons = self.chain(at, first_exon, EXON)?;
        let (mut cds, mut segments, mut sec) = (None, Vec::new(), Vec::new());
        if bounds != 0 {
            let bounds = self.follow(at, bounds, BOUNDS)?;
            let record = &self.records[bounds];
            let (first_segment, first_sec) = (record.short(12), record.short(14));
            cds = Some(record.span());
            segments = self.chain(bounds, first_segment, SEGMENT)?;
            sec = self.chain(bounds, first_sec, SELENOCYSTEINE)?;
        }
        let record = &self.records[at];
        let segment = |&s: &usize| Segment {
            phase: self.records[s].mark(),
            exon: self.records[s].short(12),
            start: self.records[s].long(4),
            end: self.records[s].long(8),
        };
        Ok(Tx {
            id: record.long(4),
            chrom: record.short(8),
            minus: record.mark() & 1 != 0,
            start_complete: record.mark() & 2 != 0,
            exons: exons.iter().map(|&e| self.records[e].span()).collect(),
            cds,
            segments: segments.iter().map(segment).collect(),
            sec: sec.iter().map(|&s| self.records[s].long(4)).collect(),
        })
    }
}

/// The transcripts in chain order, or the first refusal.
pub fn read(deck: &[u8]) -> Result<Vec<Entry>, Refused> {
    let refused = |record, number| Err(Refused { record, number });
    if deck.is_empty() || deck.len() % 16 != 0 || deck.len() > 65_536 {
        return refused(0, 22);
    }
    let records: Vec<Record> = deck.chunks(16).map(Record).collect();
    if let Some(at) = (0..records.len()).find(|&at| !records[at].well_made(at)) {
        return refused(at, 23);
    }
    let mut link = records[0].next();
    if link == 0 {
        return refused(0, 25);
    }
    let mut reached = vec![false; records.len()];
    reached[0] = true;
    let mut walk = Walk { records, reached };
    let (mut at, mut entries) = (0, Vec::new());
    while link != 0 {
        at = walk.follow(at, link, TRANSCRIPT)?;
        let tx = walk.transcript(at)?;
        entries.push(Entry { record: at, tx });
        link = walk.records[at].next();
    }
    match walk.reached.iter().position(|&reached| !reached) {
        Some(record) => refused(record, 24),
        None => Ok(entries),
    }
}
