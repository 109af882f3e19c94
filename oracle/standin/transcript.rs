//! The transcript store. consequence/mod.rs names it; the oracle has none.

use crate::locate::LocateIndex;
use crate::types::TranscriptModel;

pub struct TranscriptStore;

impl TranscriptStore {
    pub fn query_overlap(
        &self,
        _chrom: &str,
        _start: u64,
        _end: u64,
    ) -> Vec<(&TranscriptModel, &LocateIndex)> {
        unreachable!("the oracle has no store")
    }
}
