//! Jobs that are written: the format, the lines, and what the generator meets.

mod answers;
mod coverage;
pub mod format;
mod wrong;
