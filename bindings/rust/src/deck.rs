//! Decks: the transcripts of a deck file, in its order.

use crate::held::{Held, counted};
use crate::raw;
use crate::{Listing, Refusal, Transcript};

/// An accepted deck: its bytes and the transcripts that the library takes out of
/// them. The manual describes the file's format under "deck.bin".
///
/// ```
/// use vareffect_proved::{Deck, Refusal, example};
///
/// let deck = Deck::read(&example::DECK)?;
/// assert_eq!(deck.transcripts().len(), 1);
/// assert_eq!(Deck::read(b"").unwrap_err().number, 22);
/// # Ok::<(), Refusal>(())
/// ```
#[derive(Debug, Clone)]
pub struct Deck {
    bytes: Vec<u8>,
    held: Vec<Held>,
}

impl Deck {
    /// Reads a deck file. Refused by 1 to 13 and 22 to 25, with the record at fault.
    /// The library reads the file once for each transcript: a quarter of a second
    /// for a deck of 2,047, the most that there can be.
    ///
    /// ```
    /// use vareffect_proved::{Deck, Refusal};
    ///
    /// let head_alone = [0; 16];
    /// assert_eq!(Deck::read(&head_alone).unwrap_err(), Refusal { number: 25, record: Some(0) });
    /// ```
    pub fn read(bytes: &[u8]) -> Result<Self, Refusal> {
        let (first, count) = Held::read(bytes, 0)?;
        let mut held = vec![first];
        for place in 1..count {
            held.push(Held::read(bytes, place)?.0);
        }
        let bytes = bytes.to_vec();
        Ok(Self { bytes, held })
    }

    /// Whether a deck file is accepted; nothing is taken out of it.
    ///
    /// ```
    /// use vareffect_proved::{Deck, example};
    ///
    /// assert_eq!(Deck::check(&example::DECK), Ok(()));
    /// ```
    pub fn check(bytes: &[u8]) -> Result<(), Refusal> {
        // SAFETY: the pointer comes with the length of its slice.
        counted(unsafe { raw::vareffect_check_deck(bytes.as_ptr(), bytes.len()) }).map(|_| ())
    }

    /// The ids of a deck file's transcripts; nothing else is taken out of it.
    ///
    /// ```
    /// use vareffect_proved::{Deck, example};
    ///
    /// assert_eq!(Deck::ids(&example::DECK), Ok(vec![7]));
    /// ```
    pub fn ids(bytes: &[u8]) -> Result<Vec<u32>, Refusal> {
        // A transcript has two records at least.
        let mut ids = vec![0; bytes.len() / 32];
        // SAFETY: each pointer comes with the length of its slice, `ids` is borrowed alone.
        let outcome = unsafe {
            raw::vareffect_deck_ids(bytes.as_ptr(), bytes.len(), ids.as_mut_ptr(), ids.len())
        };
        ids.truncate(counted(outcome)? as usize);
        Ok(ids)
    }

    /// The transcripts in the deck's order.
    ///
    /// ```
    /// use vareffect_proved::{Deck, example};
    ///
    /// let deck = Deck::read(&example::DECK)?;
    /// let exons: Vec<u16> = deck.transcripts().map(|t| t.model.exon_count).collect();
    /// assert_eq!(exons, [2]);
    /// # Ok::<(), vareffect_proved::Refusal>(())
    /// ```
    pub fn transcripts(&self) -> impl ExactSizeIterator<Item = Transcript<'_>> {
        self.held.iter().map(Held::lent)
    }

    /// What the lister prints for this deck, the bytes of a window file and those
    /// of a call file.
    ///
    /// ```
    /// use vareffect_proved::{Deck, example};
    ///
    /// let deck = Deck::read(&example::DECK)?;
    /// assert_eq!(deck.list(&example::WINDOW_FILE, b"1 0 A C\n").whole(), b"1 7 17\n");
    /// # Ok::<(), vareffect_proved::Refusal>(())
    /// ```
    pub fn list<'a>(&'a self, window: &'a [u8], calls: &'a [u8]) -> Listing<'a> {
        Listing::of_files(&self.bytes, window, calls)
    }
}
