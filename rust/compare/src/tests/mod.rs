//! The format, the digest, and what the generator meets.

mod answers;
mod coverage;
mod either;
mod format;
mod halves;
mod ids;
mod programs;
mod written;
