//! The questions with their answers as numbers: the only place where a
//! transcript is handed to the library. `place_into` and `call_into` are inlined,
//! so that a call made for one question goes over in registers.

use crate::raw;
use crate::{Call, Refusal, Transcript, Window};

/// Calls a function of the library with what stands before the transcript, the
/// transcript, and what stands behind it.
macro_rules! ask {
    ($name:ident($($before:expr),*; $t:expr; $($after:expr),*)) => {
        // SAFETY: each pointer comes with the length of its slice, and what is
        // written is borrowed alone.
        unsafe {
            raw::$name(
                $($before,)*
                $t.model,
                $t.exon_starts.as_ptr(), $t.exon_starts.len(),
                $t.exon_ends.as_ptr(), $t.exon_ends.len(),
                $t.seg_phases.as_ptr(), $t.seg_phases.len(),
                $t.seg_exons.as_ptr(), $t.seg_exons.len(),
                $t.seg_starts.as_ptr(), $t.seg_starts.len(),
                $t.seg_ends.as_ptr(), $t.seg_ends.len(),
                $t.selenocysteine.as_ptr(), $t.selenocysteine.len(),
                $($after,)*
            )
        }
    };
}

/// Answers as the numbers that the C header `vareffect.h` names, put into a lent
/// buffer: nothing is converted and nothing allocated.
impl Transcript<'_> {
    #[inline]
    pub(crate) fn admit_number(&self) -> u8 {
        ask!(vareffect_admit(; self;))
    }

    /// The words of a place: `VareffectPlaceAnswer`.
    ///
    /// ```
    /// let mut words = [0; 8];
    /// vareffect_proved::example::TRANSCRIPT.place_into(1, 111, 112, &mut words)?;
    /// assert_eq!(words, [0, 4, 0, 0, 0, 1, 1, 1]);
    /// # Ok::<(), vareffect_proved::Refusal>(())
    /// ```
    #[inline]
    #[rustfmt::skip]
    pub fn place_into(&self, chromosome: u16, start: u64, end: u64, out: &mut [i64; 8]) -> Result<(), Refusal> {
        Refusal::judged(ask!(vareffect_place(chromosome, start, end; self; out)))
    }

    /// The words of many places, 8 for each position, the first its refusal or 0.
    ///
    /// ```
    /// let mut words = [0; 16];
    /// vareffect_proved::example::TRANSCRIPT.places_into(1, &[130, u64::MAX], &mut words)?;
    /// assert_eq!((words[1], words[8]), (6, 15));
    /// # Ok::<(), vareffect_proved::Refusal>(())
    /// ```
    #[rustfmt::skip]
    pub fn places_into(&self, chromosome: u16, positions: &[u64], out: &mut [i64]) -> Result<(), Refusal> {
        let number = ask!(vareffect_places(
            chromosome, positions.as_ptr(), positions.len(); self; out.as_mut_ptr(), out.len()));
        Refusal::judged(number)
    }

    /// The words of a call: `VareffectCallAnswer`.
    ///
    /// ```
    /// use vareffect_proved::{Call, example};
    ///
    /// let mut words = [0; 20];
    /// let call = Call { chromosome: 1, position: 111, ref_base: b'T', alt_base: b'C' };
    /// example::TRANSCRIPT.call_into(example::WINDOW, call, &mut words)?;
    /// assert_eq!(words[19], 1 << 7);
    /// # Ok::<(), vareffect_proved::Refusal>(())
    /// ```
    #[inline]
    pub fn call_into(
        &self,
        window: Window,
        call: Call,
        out: &mut [i64; 20],
    ) -> Result<(), Refusal> {
        let number = ask!(vareffect_call(
            window.raw(), window.bases.as_ptr(), window.bases.len(), call; self; out));
        Refusal::judged(number)
    }

    /// The words of many calls, given as four lists, 20 for each call, the first
    /// its refusal or 0.
    ///
    /// ```
    /// use vareffect_proved::example;
    ///
    /// let mut words = [0; 40];
    /// let (t, w) = (example::TRANSCRIPT, example::WINDOW);
    /// t.calls_into(w, &[1, 1], &[111, 130], b"TC", b"CG", &mut words)?;
    /// assert_eq!((words[0], words[20]), (0, 18));
    /// # Ok::<(), vareffect_proved::Refusal>(())
    /// ```
    #[rustfmt::skip]
    pub fn calls_into(
        &self, window: Window, chromosomes: &[u16], positions: &[u64], refs: &[u8], alts: &[u8], out: &mut [i64],
    ) -> Result<(), Refusal> {
        let number = ask!(vareffect_calls(
            window.raw(), window.bases.as_ptr(), window.bases.len(),
            chromosomes.as_ptr(), chromosomes.len(), positions.as_ptr(), positions.len(),
            refs.as_ptr(), refs.len(), alts.as_ptr(), alts.len(); self; out.as_mut_ptr(), out.len()));
        Refusal::judged(number)
    }

    #[rustfmt::skip]
    pub(crate) fn interval_into(&self, chromosome: u16, start: u64, end: u64, out: &mut [i64; 7]) -> Result<(), Refusal> {
        Refusal::judged(ask!(vareffect_interval(chromosome, start, end; self; out)))
    }

    pub(crate) fn line_into(
        &self,
        number: u64,
        window: Window,
        call: Call,
        out: &mut [u8],
    ) -> usize {
        let outcome = ask!(vareffect_line(
            number, window.raw(), window.bases.as_ptr(), window.bases.len(), call;
            self; out.as_mut_ptr(), out.len()));
        outcome.value as usize
    }
}
