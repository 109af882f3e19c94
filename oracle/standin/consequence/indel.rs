//! What `annotate` of consequence/mod.rs calls for insertions and deletions.
//! Never called: the oracle enters at `annotate_snv_verified`.

use super::ConsequenceResult;
use crate::error::VarEffectError;
use crate::fasta::FastaReader;
use crate::locate::LocateIndex;
use crate::types::TranscriptModel;

pub fn annotate_insertion(
    _chrom: &str,
    _pos: u64,
    _inserted: &[u8],
    _transcript: &TranscriptModel,
    _index: &LocateIndex,
    _fasta: &FastaReader,
) -> Result<ConsequenceResult, VarEffectError> {
    unreachable!("the oracle answers single bases only")
}

pub fn annotate_deletion(
    _chrom: &str,
    _start: u64,
    _end: u64,
    _deleted: &[u8],
    _transcript: &TranscriptModel,
    _index: &LocateIndex,
    _fasta: &FastaReader,
) -> Result<ConsequenceResult, VarEffectError> {
    unreachable!("the oracle answers single bases only")
}
