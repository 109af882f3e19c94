//! Names that consequence/mod.rs re-exports from its absent module.

pub struct Breakend;
pub struct BreakendMate;
pub struct BreakendOrientation;
