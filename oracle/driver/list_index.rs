//! Index: `LocateIndex::build` and its refusals.

use super::answer::put_index;
use super::record::{COORDINATE_LIMIT, Kind, Segment, Tx, put_block};
use super::rng::Rng;
use super::shape::{
    add_sec, coding_bases, intersections, plain, random_cds, random_plain, set_cds,
};
use crate::locate::LocateIndex;

pub fn list() -> Vec<u8> {
    let mut rng = Rng::new(1);
    let mut all: Vec<Tx> = Vec::new();
    each_gap(&mut all);
    for _ in 0..1_900 {
        let count = match rng.below(20) {
            0..=3 => 1,
            4..=16 => rng.between(2, 8),
            17 | 18 => rng.between(9, 24),
            _ => rng.between(25, 64),
        };
        let tx = random_admitted(&mut rng, all.len() as u32, count);
        all.push(tx);
    }
    for count in [512, 511, 300, 257, 256, 128] {
        for _ in 0..4 {
            let tx = random_admitted(&mut rng, all.len() as u32, count);
            all.push(tx);
        }
    }
    for number in [6, 7, 8, 9, 10, 11, 13] {
        let mut made = 0;
        while made < 150 {
            if let Some(tx) = refused(&mut rng, all.len() as u32, number) {
                all.push(tx);
                made += 1;
            }
        }
    }
    let mut made = 0;
    while made < 150 {
        if let Some(tx) = twice_refused(&mut rng, all.len() as u32) {
            all.push(tx);
            made += 1;
        }
    }
    let mut out = Vec::new();
    for tx in &all {
        let mut rest = tx.encode();
        put_index(&mut rest, &LocateIndex::build(&tx.model()));
        put_block(&mut out, Kind::Index, &rest);
    }
    out
}

/// Two exons with each gap from 0 to 20, both strands, every first phase.
fn each_gap(all: &mut Vec<Tx>) {
    for gap in 0..=20 {
        for minus in [false, true] {
            for (phase, complete) in [(0, true), (0, false), (1, false), (2, false)] {
                let mut tx = plain(all.len() as u32, 1, minus, 6_000, &[12, 9], &[gap]);
                set_cds(&mut tx, 4, 17, phase, complete);
                all.push(tx);
            }
            all.push(plain(all.len() as u32, 2, minus, 6_000, &[12, 9], &[gap]));
        }
    }
}

fn random_admitted(rng: &mut Rng, id: u32, count: u32) -> Tx {
    let mut tx = random_plain(rng, id, count);
    if rng.chance(85) {
        random_cds(rng, &mut tx);
        let bases = match rng.below(10) {
            0..=4 => 0,
            5..=8 => rng.between(1, 5),
            _ => rng.between(6, 64),
        };
        add_sec(rng, &mut tx, bases);
    }
    tx
}

fn random_coding(rng: &mut Rng, id: u32) -> Tx {
    let count = rng.between(1, 8);
    let mut tx = random_plain(rng, id, count);
    random_cds(rng, &mut tx);
    tx
}

/// A transcript with this cause of refusal, and no other from 1 to 13 save
/// what it brings with it (a second segment in one exon is also a 12).
fn refused(rng: &mut Rng, id: u32, number: u8) -> Option<Tx> {
    let mut tx = random_coding(rng, id);
    match number {
        6 => bad_phase(rng, &mut tx),
        7 => {
            let cds = tx.cds?;
            let phase = rng.between(1, 2) as u8;
            tx.segments = intersections(&tx, cds, phase);
            tx.start_complete = true;
        }
        8 => missing_exon(rng, &mut tx),
        9 => second_segment(rng, &mut tx)?,
        10 => bound_outside(rng, &mut tx, true)?,
        11 => bound_outside(rng, &mut tx, false)?,
        13 => sec_outside(rng, &mut tx),
        _ => unreachable!("the Rust has no such refusal"),
    }
    Some(tx)
}

/// Two causes, of which the Rust and document 01 name the same one: both go
/// from 6 to 11, and 8 and 9 by the first segment at fault.
fn twice_refused(rng: &mut Rng, id: u32) -> Option<Tx> {
    let mut tx = random_coding(rng, id);
    match rng.below(8) {
        0 => {
            bad_phase(rng, &mut tx);
            missing_exon(rng, &mut tx);
        }
        1 => {
            tx.segments[0].phase = rng.between(1, 2) as u8;
            tx.start_complete = true;
            missing_exon(rng, &mut tx);
        }
        2 | 3 => {
            second_segment(rng, &mut tx)?;
            missing_exon(rng, &mut tx);
        }
        4 => {
            bound_outside(rng, &mut tx, true)?;
            second_segment(rng, &mut tx)?;
        }
        5 => {
            bound_outside(rng, &mut tx, true)?;
            bound_outside(rng, &mut tx, false)?;
        }
        6 => {
            bound_outside(rng, &mut tx, false)?;
            sec_outside(rng, &mut tx);
        }
        _ => {
            missing_exon(rng, &mut tx);
            sec_outside(rng, &mut tx);
        }
    }
    Some(tx)
}

fn some_segment<'a>(rng: &mut Rng, tx: &'a mut Tx) -> &'a mut Segment {
    let at = rng.below(tx.segments.len() as u32) as usize;
    &mut tx.segments[at]
}

fn bad_phase(rng: &mut Rng, tx: &mut Tx) {
    let phase = rng.pick(&[3, 4, 5, 6, 255, 128]);
    some_segment(rng, tx).phase = phase;
}

fn missing_exon(rng: &mut Rng, tx: &mut Tx) {
    let count = tx.exons.len() as u32;
    let exon = rng.pick(&[count, count + 1, 512, 65_535]).max(count) as u16;
    some_segment(rng, tx).exon = exon;
}

/// Cuts a segment in two, or gives one the exon of another. There are never
/// more segments than exons.
fn second_segment(rng: &mut Rng, tx: &mut Tx) -> Option<()> {
    let at = rng.below(tx.segments.len() as u32) as usize;
    let segment = tx.segments[at].clone();
    if tx.segments.len() < tx.exons.len() && segment.end - segment.start > 1 {
        let cut = rng.between(segment.start + 1, segment.end - 1);
        let (mut a, mut b) = (segment.clone(), segment);
        (a.end, b.start) = (cut, cut);
        let pair = if tx.minus { [b, a] } else { [a, b] };
        tx.segments.splice(at..at + 1, pair);
        return Some(());
    }
    let from = rng.below(tx.segments.len() as u32) as usize;
    if from == at {
        return None;
    }
    tx.segments[at].exon = tx.segments[from].exon;
    Some(())
}

/// Moves the 5' or 3' CDS bound into a gap or outside the transcript, and
/// keeps the segments the intersections.
fn bound_outside(rng: &mut Rng, tx: &mut Tx, five_prime: bool) -> Option<()> {
    let cds = tx.cds?;
    let low_side = five_prime != tx.minus;
    let moved = if rng.chance(70) && !tx.gaps().is_empty() {
        let gaps = tx.gaps();
        let gap = rng.pick(&gaps);
        let base = rng.between(gap.0, gap.1 - 1);
        if low_side {
            (base, cds.1)
        } else {
            (cds.0, base + 1)
        }
    } else if low_side {
        (tx.tx_start().checked_sub(rng.between(1, 9))?, cds.1)
    } else {
        (cds.0, tx.tx_end() + rng.between(1, 9))
    };
    if moved.0 >= moved.1 || moved.1 > COORDINATE_LIMIT {
        return None;
    }
    let phase = tx.segments[0].phase;
    let segments = intersections(tx, moved, phase);
    if segments.is_empty() {
        return None;
    }
    tx.cds = Some(moved);
    tx.segments = segments;
    Some(())
}

/// One selenocysteine base in a UTR, a gap, outside the transcript or on a
/// transcript without CDS, among others that are in segments.
fn sec_outside(rng: &mut Rng, tx: &mut Tx) {
    let good = rng.below(6);
    add_sec(rng, tx, good);
    let coding = coding_bases(tx);
    let base = loop {
        let base = match rng.below(4) {
            0 => rng.below(tx.tx_end() + 1),
            1 => tx.segments[0].end,
            2 => COORDINATE_LIMIT - rng.below(2),
            _ => rng.between(tx.tx_start(), tx.tx_end()),
        };
        if !coding.contains(&base) {
            break base;
        }
    };
    if rng.chance(20) {
        (tx.cds, tx.segments) = (None, Vec::new());
    }
    let at = rng.below(tx.sec.len() as u32 + 1) as usize;
    tx.sec.insert(at, base);
}
