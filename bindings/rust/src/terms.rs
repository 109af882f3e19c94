//! Sequence Ontology terms.

use crate::words::TERM_NAMES;

/// A set of terms: bit (severity rank - 1) for each.
///
/// ```
/// let terms = vareffect_proved::Terms(1 << 10 | 1 << 12);
/// assert!(terms.names().eq(["missense_variant", "splice_region_variant"]));
/// ```
#[derive(Debug, Clone, Copy, PartialEq, Eq, Hash)]
pub struct Terms(pub u32);

impl Terms {
    /// The names of the set, most severe first.
    ///
    /// ```
    /// let names: Vec<&str> = vareffect_proved::Terms(0b1000).names().collect();
    /// assert_eq!(names.join(","), "splice_donor_variant");
    /// ```
    pub fn names(self) -> impl Iterator<Item = &'static str> {
        let held = move |(i, name)| (self.0 >> i & 1 == 1).then_some(name);
        TERM_NAMES.into_iter().enumerate().filter_map(held)
    }
}
