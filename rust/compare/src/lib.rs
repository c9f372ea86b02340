//! Draws jobs, to be listed or to be written, and holds the answers of another
//! program against what `second` says of them.

pub mod answer;
pub mod block;
pub mod digest;
pub mod draw;
pub mod either;
pub mod files;
pub mod generator;
mod input;
pub mod long;
pub mod runs;
pub mod subject;
pub mod tally;
pub mod written;

#[cfg(test)]
mod tests;
