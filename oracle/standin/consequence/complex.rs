//! What `annotate` of consequence/mod.rs calls for longer substitutions.
//! Never called: the oracle enters at `annotate_snv_verified`.

use super::ConsequenceResult;
use crate::error::VarEffectError;
use crate::fasta::FastaReader;
use crate::locate::LocateIndex;
use crate::types::TranscriptModel;

pub(super) fn annotate_mnv(
    _chrom: &str,
    _pos: u64,
    _reference: &[u8],
    _alternate: &[u8],
    _transcript: &TranscriptModel,
    _index: &LocateIndex,
    _fasta: &FastaReader,
) -> Result<ConsequenceResult, VarEffectError> {
    unreachable!("the oracle answers single bases only")
}

pub(super) use annotate_mnv as annotate_complex_delins;
