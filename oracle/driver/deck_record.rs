//! One record of a deck: 16 bytes, little-endian, and what refusal 23 names.

pub const HEAD: u8 = 0;
pub const TRANSCRIPT: u8 = 1;
pub const BOUNDS: u8 = 2;
pub const EXON: u8 = 3;
pub const SEGMENT: u8 = 4;
pub const SELENOCYSTEINE: u8 = 5;

pub struct Record<'a>(pub &'a [u8]);

impl Record<'_> {
    pub fn kind(&self) -> u8 {
        self.0[0]
    }

    pub fn mark(&self) -> u8 {
        self.0[1]
    }

    pub fn short(&self, at: usize) -> u16 {
        u16::from_le_bytes([self.0[at], self.0[at + 1]])
    }

    pub fn long(&self, at: usize) -> u32 {
        u32::from(self.short(at)) | u32::from(self.short(at + 2)) << 16
    }

    pub fn span(&self) -> (u32, u32) {
        (self.long(4), self.long(8))
    }

    pub fn next(&self) -> u16 {
        self.short(2)
    }

    /// Nothing that refusal 23 names: `at` is the record's own number.
    pub fn well_made(&self, at: usize) -> bool {
        let zero = |from: usize, to: usize| self.0[from..to].iter().all(|&byte| byte == 0);
        let unused = match self.kind() {
            HEAD => zero(1, 2) && zero(4, 16),
            TRANSCRIPT => self.mark() <= 3 && zero(14, 16),
            BOUNDS => zero(1, 4),
            EXON => zero(1, 2) && zero(12, 16),
            SEGMENT => zero(14, 16),
            SELENOCYSTEINE => zero(1, 2) && zero(8, 16),
            _ => false,
        };
        unused && (self.kind() == HEAD) == (at == 0)
    }
}
