//! A call, and the window that it is read through.

use crate::Refusal;
use crate::raw;

/// Bases of the plus strand, one byte each, from coordinate `first` on.
///
/// ```
/// let window = vareffect_proved::Window { chromosome: 7, first: 20_000, bases: b"GCTAAAG" };
/// assert_eq!(window.bases[20_001 - window.first as usize], b'C');
/// ```
#[derive(Debug, Clone, Copy, PartialEq, Eq)]
pub struct Window<'a> {
    pub chromosome: u16,
    pub first: u64,
    pub bases: &'a [u8],
}

impl<'a> Window<'a> {
    /// The window of a window file: chromosome (2 bytes), coordinate of the
    /// first base (8 bytes), both little-endian, and the bases. Refused by 27
    /// where the file is shorter than 10 or longer than 65,536 bytes.
    ///
    /// ```
    /// use vareffect_proved::{Refusal, Window};
    ///
    /// let window = Window::read(b"\x07\0\x20\x4e\0\0\0\0\0\0GCTA")?;
    /// assert_eq!((window.chromosome, window.first, window.bases), (7, 20_000, &b"GCTA"[..]));
    /// assert_eq!(Window::read(b""), Err(Refusal::new(27)));
    /// # Ok::<(), Refusal>(())
    /// ```
    pub fn read(file: &'a [u8]) -> Result<Self, Refusal> {
        match file {
            [a, b, rest @ ..] if rest.len() >= 8 && file.len() <= 65_536 => {
                let (first, bases) = rest.split_first_chunk().expect("8 bytes");
                Ok(Self {
                    chromosome: u16::from_le_bytes([*a, *b]),
                    first: u64::from_le_bytes(*first),
                    bases,
                })
            }
            _ => Err(Refusal::new(27)),
        }
    }

    pub(crate) fn raw(&self) -> raw::Window {
        raw::Window {
            chromosome: self.chromosome,
            first: self.first,
        }
    }
}

/// A change of one base, as on the plus strand, laid out as the library takes it
/// (`VareffectCall` of the C header).
///
/// ```
/// let call = vareffect_proved::Call { chromosome: 7, position: 20_318, ref_base: b'A', alt_base: b'G' };
/// assert_ne!(call.ref_base, call.alt_base);
/// ```
#[repr(C)]
#[derive(Debug, Clone, Copy, PartialEq, Eq, Hash)]
pub struct Call {
    pub chromosome: u16,
    pub ref_base: u8,
    pub alt_base: u8,
    pub position: u64,
}
