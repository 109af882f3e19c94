//! `FastaReader` as a window: one chromosome, the coordinate of its first
//! base, and bytes taken as they stand. A read outside it is an error.

use crate::error::VarEffectError;

pub struct FastaReader {
    pub chrom: String,
    pub first: u64,
    pub bytes: Vec<u8>,
}

impl FastaReader {
    pub fn fetch_sequence(
        &self,
        chrom: &str,
        start: u64,
        end: u64,
    ) -> Result<Vec<u8>, VarEffectError> {
        if chrom != self.chrom {
            return Err(VarEffectError::ChromNotFound {
                chrom: chrom.to_string(),
            });
        }
        let past = self.first + self.bytes.len() as u64;
        if start >= end || start < self.first || end > past {
            return Err(VarEffectError::CoordinateOutOfRange {
                chrom: chrom.to_string(),
                start,
                end,
                chrom_len: past,
            });
        }
        let from = (start - self.first) as usize;
        let to = (end - self.first) as usize;
        Ok(self.bytes[from..to].to_vec())
    }

    pub fn fetch_base(&self, chrom: &str, pos: u64) -> Result<u8, VarEffectError> {
        Ok(self.fetch_sequence(chrom, pos, pos + 1)?[0])
    }

    pub fn verify_ref(&self, chrom: &str, pos: u64, bases: &[u8]) -> Result<bool, VarEffectError> {
        Ok(self.fetch_sequence(chrom, pos, pos + bases.len() as u64)? == bases)
    }
}
