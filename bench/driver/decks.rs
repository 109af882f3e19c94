//! Decks, whole and with bytes changed.

use super::lent::Lent;
use crate::driver::admission;
use crate::driver::answer::Subject;
use crate::driver::deck;
use crate::driver::record::{Tx, put16, put32};
use crate::driver::rng::Rng;
use vareffect_proved::Deck;

/// Chains of records: `next` links all but the last to the record behind it.
fn chain(deck: &mut Vec<u8>, kind: u8, count: usize, mut rest: impl FnMut(usize) -> (u8, Vec<u8>)) {
    for i in 0..count {
        let (mark, mut rest) = rest(i);
        let next = if i + 1 < count {
            deck.len() / 16 + 1
        } else {
            0
        };
        deck.extend_from_slice(&[kind, mark]);
        put16(deck, next as u16);
        rest.resize(12, 0);
        deck.extend_from_slice(&rest);
    }
}

fn span(start: u32, end: u32) -> Vec<u8> {
    let mut out = Vec::new();
    put32(&mut out, start);
    put32(&mut out, end);
    out
}

/// The deck of these transcripts.
pub fn encode(all: &[Tx]) -> Vec<u8> {
    let mut deck = vec![0; 16];
    deck[2] = u8::from(!all.is_empty());
    for (i, tx) in all.iter().enumerate() {
        let at = deck.len() / 16;
        let bounds = at + 1 + tx.exons.len();
        let past = bounds + usize::from(tx.cds.is_some()) + tx.segments.len() + tx.sec.len();
        deck.extend_from_slice(&[1, u8::from(tx.minus) + 2 * u8::from(tx.start_complete)]);
        put16(&mut deck, if i + 1 < all.len() { past as u16 } else { 0 });
        put32(&mut deck, tx.id);
        put16(&mut deck, tx.chrom);
        put16(
            &mut deck,
            if tx.exons.is_empty() {
                0
            } else {
                at as u16 + 1
            },
        );
        put16(&mut deck, if tx.cds.is_some() { bounds as u16 } else { 0 });
        put16(&mut deck, 0);
        chain(&mut deck, 3, tx.exons.len(), |i| {
            (0, span(tx.exons[i].0, tx.exons[i].1))
        });
        let Some(cds) = tx.cds else { continue };
        let segments = bounds + 1;
        let sec = segments + tx.segments.len();
        deck.extend_from_slice(&[2, 0, 0, 0]);
        deck.extend(span(cds.0, cds.1));
        put16(
            &mut deck,
            if tx.segments.is_empty() {
                0
            } else {
                segments as u16
            },
        );
        put16(&mut deck, if tx.sec.is_empty() { 0 } else { sec as u16 });
        chain(&mut deck, 4, tx.segments.len(), |i| {
            let s = &tx.segments[i];
            let mut rest = span(s.start, s.end);
            put16(&mut rest, s.exon);
            (s.phase, rest)
        });
        chain(&mut deck, 5, tx.sec.len(), |i| {
            (0, tx.sec[i].to_le_bytes().to_vec())
        });
    }
    deck
}

/// Some bytes changed, often links, or the length.
pub fn spoil(rng: &mut Rng, deck: &mut Vec<u8>) {
    for _ in 0..rng.between(1, 3) {
        let at = rng.below(deck.len().max(1) as u32) as usize;
        match rng.below(8) {
            0 => deck.truncate(at),
            1 => deck.extend(vec![0; rng.pick(&[1, 16, 32])]),
            _ if at >= deck.len() => {}
            2 => deck[at] = rng.below(256) as u8,
            3 => deck[at - at % 16] = rng.below(7) as u8,
            4 => deck[at] = deck[at].wrapping_add(1),
            _ => {
                let link = at - at % 16 + rng.pick(&[2, 2, 10, 12, 14]);
                if let Some(byte) = deck.get_mut(link) {
                    *byte = rng.below(24) as u8;
                }
            }
        }
    }
}

/// The transcripts in the deck's order, or number and record of the refusal.
pub fn judge(bytes: &[u8]) -> Result<Vec<Subject>, (u8, usize)> {
    let entries = deck::read(bytes).map_err(|refused| (refused.number, refused.record))?;
    let admit = |entry: deck::Entry| {
        let record = entry.record;
        admission::admit(entry.tx).map_err(|number| (number, record))
    };
    entries.into_iter().map(admit).collect()
}

/// Whether a deck gives these transcripts, in every field.
pub fn same_transcripts<'a>(deck: &Deck, due: impl ExactSizeIterator<Item = &'a Tx>) -> bool {
    deck.transcripts().len() == due.len()
        && deck
            .transcripts()
            .zip(due)
            .all(|(got, tx)| got == Lent::new(tx).transcript())
}
