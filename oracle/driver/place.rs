//! The bytes of a place.

use super::record::{put16, put32};
use crate::locate::{SpliceSide, VariantLocation};

/// The 16 bytes of a place.
pub fn put_place(out: &mut Vec<u8>, place: &VariantLocation) {
    use VariantLocation::*;
    // kind, flag, exon or intron, segment, place in the codon, number, codon
    let (kind, flag, index, segment, in_codon, number, codon) = match *place {
        Upstream { distance } => (0, false, 0, 0, 0, distance as i64, 0),
        Downstream { distance } => (1, false, 0, 0, 0, distance as i64, 0),
        Distal => (2, false, 0, 0, 0, 0, 0),
        FivePrimeUtr {
            exon_index,
            offset_from_cds_start,
            is_splice_region,
        } => (
            3,
            is_splice_region,
            exon_index,
            0,
            0,
            offset_from_cds_start,
            0,
        ),
        CdsExon {
            exon_index,
            cds_segment_index,
            cds_offset,
            codon_number,
            codon_position,
            is_splice_region,
        } => (
            4,
            is_splice_region,
            exon_index,
            cds_segment_index,
            codon_position,
            i64::from(cds_offset),
            codon_number,
        ),
        ThreePrimeUtr {
            exon_index,
            offset_from_cds_end,
            is_splice_region,
        } => (
            5,
            is_splice_region,
            exon_index,
            0,
            0,
            offset_from_cds_end,
            0,
        ),
        SpliceDonor {
            intron_index,
            offset,
        } => (6, false, intron_index, 0, 0, i64::from(offset), 0),
        SpliceAcceptor {
            intron_index,
            offset,
        } => (7, false, intron_index, 0, 0, i64::from(offset), 0),
        SpliceRegion {
            intron_index,
            side,
            distance,
        } => (
            8,
            side == SpliceSide::Acceptor,
            intron_index,
            0,
            0,
            distance,
            0,
        ),
        Intron {
            intron_index,
            distance_to_nearest_exon,
        } => (9, false, intron_index, 0, 0, distance_to_nearest_exon, 0),
        FrameshiftIntron {
            intron_index,
            distance_to_nearest_exon,
        } => (10, false, intron_index, 0, 0, distance_to_nearest_exon, 0),
        NonCodingExon {
            exon_index,
            is_splice_region,
        } => (11, is_splice_region, exon_index, 0, 0, 0, 0),
        NonCodingIntron {
            intron_index,
            distance_to_nearest_exon,
        } => (12, false, intron_index, 0, 0, distance_to_nearest_exon, 0),
    };
    out.push(kind);
    out.push(u8::from(flag));
    put16(out, index);
    put16(out, segment);
    out.push(in_codon);
    out.push(0);
    out.extend_from_slice(
        &i32::try_from(number)
            .expect("a short distance")
            .to_le_bytes(),
    );
    put32(out, codon);
}
