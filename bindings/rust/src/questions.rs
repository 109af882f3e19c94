//! The questions about a transcript.

use crate::{Call, ConsequenceResult, Interval, Refusal, Transcript, VariantLocation, Window};

/// Each question judges the transcript first; lists judge it once.
impl Transcript<'_> {
    /// `Ok` where the transcript is admitted, else the first of refusals 1 to 13.
    ///
    /// ```
    /// assert!(vareffect_proved::example::TRANSCRIPT.admit().is_ok());
    /// ```
    #[inline]
    pub fn admit(&self) -> Result<(), Refusal> {
        Refusal::judged(self.admit_number())
    }

    /// The place of the base at `start`; `[start, end)` must not be empty.
    ///
    /// ```
    /// use vareffect_proved::{VariantLocation, example};
    ///
    /// let donor = VariantLocation::SpliceDonor { intron_index: 0, offset: 1 };
    /// assert_eq!(example::TRANSCRIPT.place(1, 130, 131), Ok(donor));
    /// ```
    pub fn place(&self, chromosome: u16, start: u64, end: u64) -> Result<VariantLocation, Refusal> {
        let mut out = [0; 8];
        self.place_into(chromosome, start, end, &mut out)?;
        answered(&out, VariantLocation::from_words)
    }

    /// The place of each position.
    ///
    /// ```
    /// let places = vareffect_proved::example::TRANSCRIPT.places(1, &[111, 130])?;
    /// assert_eq!(places[0]?.name(), "CdsExon");
    /// assert_eq!(places[1]?.name(), "SpliceDonor");
    /// # Ok::<(), vareffect_proved::Refusal>(())
    /// ```
    pub fn places(
        &self,
        chromosome: u16,
        positions: &[u64],
    ) -> Result<Vec<Result<VariantLocation, Refusal>>, Refusal> {
        let mut out = vec![0; 8 * positions.len()];
        self.places_into(chromosome, positions, &mut out)?;
        let one = |words| answered(words, VariantLocation::from_words);
        Ok(out.chunks_exact(8).map(one).collect())
    }

    /// What a call does.
    ///
    /// ```
    /// use vareffect_proved::{Call, example};
    ///
    /// let call = Call { chromosome: 1, position: 111, ref_base: b'T', alt_base: b'C' };
    /// let answer = example::TRANSCRIPT.call(example::WINDOW, call)?;
    /// assert!(answer.consequences.names().eq(["start_lost"]));
    /// # Ok::<(), vareffect_proved::Refusal>(())
    /// ```
    pub fn call(&self, window: Window, call: Call) -> Result<ConsequenceResult, Refusal> {
        let mut out = [0; 20];
        self.call_into(window, call, &mut out)?;
        answered(&out, ConsequenceResult::from_words)
    }

    /// What each call does.
    ///
    /// ```
    /// use vareffect_proved::{Call, Refusal, example};
    ///
    /// let one = Call { chromosome: 1, position: 111, ref_base: b'T', alt_base: b'C' };
    /// let other = Call { ref_base: b'G', ..one };
    /// let answers = example::TRANSCRIPT.calls(example::WINDOW, &[one, other])?;
    /// assert_eq!(answers[0]?.protein_start, Some(1));
    /// assert_eq!(answers[1], Err(Refusal::new(18)));
    /// # Ok::<(), Refusal>(())
    /// ```
    pub fn calls(
        &self,
        window: Window,
        calls: &[Call],
    ) -> Result<Vec<Result<ConsequenceResult, Refusal>>, Refusal> {
        let chromosomes: Vec<u16> = calls.iter().map(|c| c.chromosome).collect();
        let positions: Vec<u64> = calls.iter().map(|c| c.position).collect();
        let refs: Vec<u8> = calls.iter().map(|c| c.ref_base).collect();
        let alts: Vec<u8> = calls.iter().map(|c| c.alt_base).collect();
        let mut out = vec![0; 20 * calls.len()];
        self.calls_into(window, &chromosomes, &positions, &refs, &alts, &mut out)?;
        let one = |words| answered(words, ConsequenceResult::from_words);
        Ok(out.chunks_exact(20).map(one).collect())
    }

    /// About `[start, end)`; start equal to end is an insertion before `start`.
    ///
    /// ```
    /// use vareffect_proved::{Flank, example};
    ///
    /// let answer = example::TRANSCRIPT.interval(1, 90, 95)?;
    /// assert_eq!(answer.flank, Flank::Upstream(6));
    /// # Ok::<(), vareffect_proved::Refusal>(())
    /// ```
    pub fn interval(&self, chromosome: u16, start: u64, end: u64) -> Result<Interval, Refusal> {
        let mut out = [0; 7];
        self.interval_into(chromosome, start, end, &mut out)?;
        answered(&out, Interval::from_words)
    }

    /// The lister's line of a call under a line number, newline included; a
    /// refused call gives the line of its refusal.
    ///
    /// ```
    /// use vareffect_proved::{Call, example};
    ///
    /// let call = Call { chromosome: 1, position: 130, ref_base: b'G', alt_base: b'C' };
    /// assert_eq!(example::TRANSCRIPT.line(5, example::WINDOW, call), b"5 7 18\n");
    /// ```
    pub fn line(&self, number: u64, window: Window, call: Call) -> Vec<u8> {
        let mut out = vec![0; LONGEST];
        let length = self.line_into(number, window, call, &mut out);
        out.truncate(length);
        out
    }
}

/// No line is longer, newline included.
const LONGEST: usize = 1553;

/// The refusal, or the answer that the words behind the number 0 make.
fn answered<const N: usize, T>(words: &[i64], made: impl Fn(&[i64; N]) -> T) -> Result<T, Refusal> {
    Refusal::judged(words[0] as u8)?;
    Ok(made(
        words[1..].first_chunk().expect("the words of an answer"),
    ))
}
