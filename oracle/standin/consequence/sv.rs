//! Names that consequence/mod.rs re-exports from its absent module. Never called.

pub struct SvConsequenceResult;
pub struct SvKind;

pub(crate) fn annotate_breakend() {
    unreachable!("the oracle answers single bases only")
}

pub(crate) fn annotate_interval() {
    unreachable!("the oracle answers single bases only")
}

pub(crate) fn annotate_sv_insertion() {
    unreachable!("the oracle answers single bases only")
}
