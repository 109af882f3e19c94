//! Names that locate/mod.rs re-exports from its absent module. Never called.

pub struct IndelLocation;
pub struct IndelRegion;
pub struct SpliceOverlapDetail;

pub fn locate_indel() {
    unreachable!("the oracle answers no indel")
}
