//! What the lister prints.

use crate::Refusal;
use crate::raw;

/// The lister's output for a deck file, a window file and a call file, piece by
/// piece: a listing may have 16 million lines. As an iterator it gives pieces of
/// whole lines, each of up to 1 MiB.
///
/// Refused files are a line of the output, `0 record number`, as the lister
/// prints it.
///
/// ```
/// use vareffect_proved::{Deck, example};
///
/// let deck = Deck::read(&example::DECK)?;
/// for piece in deck.list(&example::WINDOW_FILE, b"1 111 T C\n1 112\n") {
///     assert!(piece.ends_with(b"start_lost\n2 0 26\n"));
/// }
/// # Ok::<(), vareffect_proved::Refusal>(())
/// ```
#[derive(Debug, Clone)]
pub struct Listing<'a> {
    deck: &'a [u8],
    window: &'a [u8],
    calls: &'a [u8],
    cursor: [u64; 3],
}

/// The length of an iterator's pieces: each reads the deck anew.
const PIECE: usize = 1 << 20;

impl<'a> Listing<'a> {
    /// The listing of three files as they are; a refused deck is one line.
    ///
    /// ```
    /// assert_eq!(vareffect_proved::Listing::of_files(b"", b"", b"").whole(), b"0 0 22\n");
    /// ```
    pub fn of_files(deck: &'a [u8], window: &'a [u8], calls: &'a [u8]) -> Self {
        Self {
            deck,
            window,
            calls,
            cursor: [0; 3],
        }
    }

    /// As many of the next lines as fit into a lent buffer, none behind the last.
    /// Refused by 28 where not even the next line fits; 1,553 bytes hold any.
    ///
    /// ```
    /// use vareffect_proved::{Listing, Refusal, example};
    ///
    /// let mut listing = Listing::of_files(&example::DECK, &example::WINDOW_FILE, b"1 0 A C\n9\n");
    /// assert_eq!(listing.next_into(&mut [0; 5]), Err(Refusal::new(28)));
    /// assert_eq!(listing.next_into(&mut [0; 8])?, b"1 7 17\n");
    /// assert_eq!(listing.next_into(&mut [0; 8])?, b"2 0 26\n");
    /// assert_eq!(listing.next_into(&mut [0; 8])?, b"");
    /// # Ok::<(), Refusal>(())
    /// ```
    pub fn next_into<'b>(&mut self, out: &'b mut [u8]) -> Result<&'b [u8], Refusal> {
        // SAFETY: each pointer comes with the length of its slice, and what is
        // written is borrowed alone.
        let outcome = unsafe {
            raw::vareffect_list(
                self.deck.as_ptr(),
                self.deck.len(),
                self.window.as_ptr(),
                self.window.len(),
                self.calls.as_ptr(),
                self.calls.len(),
                &mut self.cursor,
                out.as_mut_ptr(),
                out.len(),
            )
        };
        Refusal::judged(outcome.number as u8)?;
        Ok(&out[..outcome.value as usize])
    }

    /// The lines that are left, all of them.
    ///
    /// ```
    /// use vareffect_proved::{Listing, example};
    ///
    /// let listing = Listing::of_files(&example::DECK, &example::WINDOW_FILE, b"1 130 A G\n");
    /// assert_eq!(listing.whole(), b"1 7 0 SpliceDonor - 1/1 - - - - - splice_donor_variant\n");
    /// ```
    pub fn whole(self) -> Vec<u8> {
        self.flatten().collect()
    }
}

impl Iterator for Listing<'_> {
    type Item = Vec<u8>;

    fn next(&mut self) -> Option<Vec<u8>> {
        let mut piece = vec![0; PIECE];
        let length = self.next_into(&mut piece).expect("a line fits").len();
        piece.truncate(length);
        (length > 0).then_some(piece)
    }
}
