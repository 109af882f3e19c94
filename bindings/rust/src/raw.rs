//! The functions of `libinterface.a` as they are. A slice is a pointer and a
//! length; the C header `vareffect.h` says what each number is.

use crate::{Call, Model};

/// A number, 0 or a refusal, and a value.
#[repr(C)]
pub struct Outcome {
    pub number: u64,
    pub value: u64,
}

#[repr(C)]
pub struct Window {
    pub chromosome: u16,
    pub first: u64,
}

#[rustfmt::skip]
unsafe extern "C" {
    pub fn vareffect_abi() -> u64;
    pub fn vareffect_admit(
        model: Model,
        exon_starts: *const u64, exon_starts_len: usize, exon_ends: *const u64, exon_ends_len: usize,
        seg_phases: *const u8, seg_phases_len: usize, seg_exons: *const u16, seg_exons_len: usize,
        seg_starts: *const u64, seg_starts_len: usize, seg_ends: *const u64, seg_ends_len: usize,
        selenocysteine: *const u64, selenocysteine_len: usize,
    ) -> u8;
    pub fn vareffect_place(
        chromosome: u16, start: u64, end: u64, model: Model,
        exon_starts: *const u64, exon_starts_len: usize, exon_ends: *const u64, exon_ends_len: usize,
        seg_phases: *const u8, seg_phases_len: usize, seg_exons: *const u16, seg_exons_len: usize,
        seg_starts: *const u64, seg_starts_len: usize, seg_ends: *const u64, seg_ends_len: usize,
        selenocysteine: *const u64, selenocysteine_len: usize,
        out: *mut [i64; 8],
    ) -> u8;
    pub fn vareffect_places(
        chromosome: u16, positions: *const u64, positions_len: usize, model: Model,
        exon_starts: *const u64, exon_starts_len: usize, exon_ends: *const u64, exon_ends_len: usize,
        seg_phases: *const u8, seg_phases_len: usize, seg_exons: *const u16, seg_exons_len: usize,
        seg_starts: *const u64, seg_starts_len: usize, seg_ends: *const u64, seg_ends_len: usize,
        selenocysteine: *const u64, selenocysteine_len: usize,
        out: *mut i64, out_len: usize,
    ) -> u8;
    pub fn vareffect_call(
        window: Window, bases: *const u8, bases_len: usize, call: Call, model: Model,
        exon_starts: *const u64, exon_starts_len: usize, exon_ends: *const u64, exon_ends_len: usize,
        seg_phases: *const u8, seg_phases_len: usize, seg_exons: *const u16, seg_exons_len: usize,
        seg_starts: *const u64, seg_starts_len: usize, seg_ends: *const u64, seg_ends_len: usize,
        selenocysteine: *const u64, selenocysteine_len: usize,
        out: *mut [i64; 20],
    ) -> u8;
    pub fn vareffect_calls(
        window: Window, bases: *const u8, bases_len: usize,
        chromosomes: *const u16, chromosomes_len: usize, positions: *const u64, positions_len: usize,
        refs: *const u8, refs_len: usize, alts: *const u8, alts_len: usize, model: Model,
        exon_starts: *const u64, exon_starts_len: usize, exon_ends: *const u64, exon_ends_len: usize,
        seg_phases: *const u8, seg_phases_len: usize, seg_exons: *const u16, seg_exons_len: usize,
        seg_starts: *const u64, seg_starts_len: usize, seg_ends: *const u64, seg_ends_len: usize,
        selenocysteine: *const u64, selenocysteine_len: usize,
        out: *mut i64, out_len: usize,
    ) -> u8;
    pub fn vareffect_interval(
        chromosome: u16, start: u64, end: u64, model: Model,
        exon_starts: *const u64, exon_starts_len: usize, exon_ends: *const u64, exon_ends_len: usize,
        seg_phases: *const u8, seg_phases_len: usize, seg_exons: *const u16, seg_exons_len: usize,
        seg_starts: *const u64, seg_starts_len: usize, seg_ends: *const u64, seg_ends_len: usize,
        selenocysteine: *const u64, selenocysteine_len: usize,
        out: *mut [i64; 7],
    ) -> u8;
    pub fn vareffect_line(
        number: u64, window: Window, bases: *const u8, bases_len: usize, call: Call, model: Model,
        exon_starts: *const u64, exon_starts_len: usize, exon_ends: *const u64, exon_ends_len: usize,
        seg_phases: *const u8, seg_phases_len: usize, seg_exons: *const u16, seg_exons_len: usize,
        seg_starts: *const u64, seg_starts_len: usize, seg_ends: *const u64, seg_ends_len: usize,
        selenocysteine: *const u64, selenocysteine_len: usize,
        out: *mut u8, out_len: usize,
    ) -> Outcome;
    pub fn vareffect_check_deck(bytes: *const u8, bytes_len: usize) -> Outcome;
    pub fn vareffect_deck_ids(bytes: *const u8, bytes_len: usize, ids: *mut u32, ids_len: usize) -> Outcome;
    pub fn vareffect_deck_transcript(
        bytes: *const u8, bytes_len: usize, place: u64,
        scalars: *mut [u64; 12], exon_starts: *mut [u64; 512], exon_ends: *mut [u64; 512],
        seg_phases: *mut [u8; 512], seg_exons: *mut [u16; 512],
        seg_starts: *mut [u64; 512], seg_ends: *mut [u64; 512], selenocysteine: *mut [u64; 64],
    ) -> Outcome;
    pub fn vareffect_list(
        deck: *const u8, deck_len: usize, window: *const u8, window_len: usize,
        calls: *const u8, calls_len: usize, cursor: *mut [u64; 3], out: *mut u8, out_len: usize,
    ) -> Outcome;
}
