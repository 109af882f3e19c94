//! Nothing: the calls of this module are among the lines removed.
