//! Why something was not answered.

use crate::words::{ADVICE, CAUSES, UNKNOWN_ADVICE, UNKNOWN_CAUSE};
use std::fmt;

/// A refusal: a number from 1 to 28 and, of a deck, the record at fault.
///
/// ```
/// use vareffect_proved::{Deck, Refusal, example};
///
/// let mut deck = example::DECK;
/// deck[32] = 9;
/// let refusal = Deck::read(&deck).unwrap_err();
/// assert_eq!(refusal, Refusal { number: 23, record: Some(2) });
/// assert!(refusal.to_string().starts_with("refused, number 23 at record 2: the record has an unknown kind"));
/// ```
#[derive(Debug, Clone, Copy, PartialEq, Eq, Hash)]
pub struct Refusal {
    pub number: u8,
    pub record: Option<u16>,
}

impl Refusal {
    /// A refusal without a record.
    ///
    /// ```
    /// use vareffect_proved::{Refusal, example};
    ///
    /// assert_eq!(example::TRANSCRIPT.place(2, 111, 112), Err(Refusal::new(14)));
    /// ```
    pub const fn new(number: u8) -> Self {
        Self {
            number,
            record: None,
        }
    }

    /// What is wrong.
    ///
    /// ```
    /// let refusal = vareffect_proved::Refusal::new(17);
    /// assert_eq!(refusal.cause(), "the called position lies outside the window");
    /// ```
    pub fn cause(&self) -> &'static str {
        CAUSES
            .get(usize::from(self.number))
            .unwrap_or(&UNKNOWN_CAUSE)
    }

    /// What to do about it.
    ///
    /// ```
    /// let refusal = vareffect_proved::Refusal::new(28);
    /// assert_eq!(refusal.advice(), "lend at least 1,553 bytes: no line is longer");
    /// ```
    pub fn advice(&self) -> &'static str {
        ADVICE
            .get(usize::from(self.number))
            .unwrap_or(&UNKNOWN_ADVICE)
    }

    /// `Ok` for 0.
    pub(crate) fn judged(number: u8) -> Result<(), Self> {
        match number {
            0 => Ok(()),
            number => Err(Self::new(number)),
        }
    }
}

impl fmt::Display for Refusal {
    fn fmt(&self, f: &mut fmt::Formatter) -> fmt::Result {
        write!(f, "refused, number {}", self.number)?;
        if let Some(record) = self.record {
            write!(f, " at record {record}")?;
        }
        write!(f, ": {}; what to do: {}", self.cause(), self.advice())
    }
}

impl std::error::Error for Refusal {}
