//! The Rust's answers, with the refusals that it does not have.

use crate::consequence::ConsequenceResult;
use crate::driver::answer::Subject;
use crate::driver::call_line::Call;
pub use crate::driver::listing_line::Window;
use crate::driver::listing_line::{columns, judged};
use crate::driver::record::{QUERY_LIMIT, chrom_name};
use crate::locate::helpers::{exonic_splice_spill, frameshift_intron_endpoint};
use crate::locate::{Flank, VariantLocation, classify_flank, locate_variant};
use vareffect_proved as proved;

/// The window as it is lent to the proved library.
pub fn lent(window: &Window) -> proved::Window<'_> {
    proved::Window {
        chromosome: window.chromosome,
        first: window.fasta.first,
        bases: &window.fasta.bytes,
    }
}

/// 15 and 14 are document 01's.
pub fn place(s: &Subject, chromosome: u16, start: u64, end: u64) -> Result<VariantLocation, u8> {
    if start >= end || end > u64::from(QUERY_LIMIT) {
        return Err(15);
    }
    let name = if chromosome == s.tx.chrom {
        s.model.chrom.clone()
    } else {
        chrom_name(chromosome)
    };
    locate_variant(&name, start, end, &s.model, &s.index).map_err(|_| 14)
}

/// The three answers about an interval; 15 and 14 are document 01's.
pub fn interval(
    s: &Subject,
    chromosome: u16,
    start: u64,
    end: u64,
) -> Result<proved::Interval, u8> {
    if start > end || end > u64::from(QUERY_LIMIT) {
        return Err(15);
    }
    if chromosome != s.tx.chrom {
        return Err(14);
    }
    let spill = exonic_splice_spill(start, end, &s.model, &s.index);
    Ok(proved::Interval {
        flank: match classify_flank(start, end, &s.model) {
            Flank::Overlaps => proved::Flank::Overlaps,
            Flank::Upstream(distance) => proved::Flank::Upstream(distance),
            Flank::Downstream(distance) => proved::Flank::Downstream(distance),
            Flank::Far => proved::Flank::Far,
        },
        frameshift_intron: frameshift_intron_endpoint(start, end, &s.model, &s.index),
        spill: spill.map(|s| proved::SpliceSpill {
            donor: s.donor,
            acceptor: s.acceptor,
        }),
    })
}

pub fn call(s: &Subject, window: &Window, call: &proved::Call) -> Result<ConsequenceResult, u8> {
    let call = Call {
        chromosome: call.chromosome,
        position: call.position,
        reference: call.ref_base,
        alt: call.alt_base,
    };
    judged(s, window, &call)
}

/// The lister's line; `place` is that of the call.
pub fn line(
    number: u64,
    id: u32,
    place: &Result<VariantLocation, u8>,
    answer: &Result<ConsequenceResult, u8>,
) -> Vec<u8> {
    let mut line = format!("{number} {id} ").into_bytes();
    match (place, answer) {
        (Ok(place), Ok(answer)) => {
            let place = format!("{place:?}");
            let name = place.split(' ').next().unwrap_or_default();
            line.extend_from_slice(b"0 ");
            line.extend(columns(name, answer));
        }
        (_, refused) => {
            let number = refused.as_ref().err().map_or(0, |number| *number);
            line.extend(number.to_string().bytes());
        }
    }
    line.push(b'\n');
    line
}

/// Whether the two places agree in case and every field.
pub fn same_place(theirs: &VariantLocation, ours: &proved::VariantLocation) -> bool {
    use VariantLocation as R;
    use proved::VariantLocation as P;
    match (theirs, ours) {
        (R::Upstream { distance: a }, P::Upstream { distance: b }) => a == b,
        (R::Downstream { distance: a }, P::Downstream { distance: b }) => a == b,
        (R::Distal, P::Distal) => true,
        (theirs, ours) => format!("{theirs:?}") == format!("{ours:?}"),
    }
}

/// Whether a call's answer agrees in every column; `place` is the Rust's.
pub fn same_answer(
    place: &VariantLocation,
    theirs: &ConsequenceResult,
    ours: &proved::ConsequenceResult,
) -> bool {
    let of = |n: proved::Numbered| format!("{}/{}", n.number, n.total);
    let text = |bytes: Vec<u8>| bytes.into_iter().map(char::from).collect::<String>();
    same_place(place, &ours.location)
        && theirs.exon == ours.exon.map(of)
        && theirs.intron == ours.intron.map(of)
        && theirs.cds_position == ours.cds_position
        && theirs.cdna_position == ours.cdna_position
        && theirs.protein_start == ours.protein_start
        && theirs.codons == ours.codons.map(|c| text(c.shown()))
        && theirs.amino_acids == ours.amino_acids.map(|a| text(a.shown()))
        && theirs
            .consequences
            .iter()
            .map(|c| c.as_str())
            .eq(ours.consequences.names())
}
