//! The scripts at the root of the repository: `reference`, `compose`, `cellstate` and `run`. What they start is a fake, so that no
//! Rattle toolchain is needed.

mod cellstate;
mod compose;
mod reference;
mod room;
mod run;
