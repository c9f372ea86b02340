//! Jobs that are written (W-202): from parts and from text.

pub mod answer;
pub mod block;
pub mod cases;
mod damage;
pub mod generator;
mod parts;
pub mod tally;
mod text;

pub use block::{Block, Given, Parts};

use std::io::{self, Write};

use crate::subject::{Scope, Subject};
use answer::said;
use tally::Tally;

impl Subject for Block {
    type Tally = Tally;

    fn drawn(seed: u64, number: u64, scope: Scope) -> Block {
        generator::block(seed, number, scope)
    }

    fn kind(seed: u64, number: u64) -> String {
        format!("{:?}", generator::kind_of(seed, number))
    }

    fn write(&self, to: &mut impl Write) -> io::Result<()> {
        Block::write(self, to)
    }

    fn line(&self, tally: &mut Tally) -> String {
        let (line, composed) = said(self);
        tally.count(self, composed);
        line
    }

    fn shown(&self) -> Vec<(&'static str, Vec<u8>)> {
        let names: &[&str] = match self.given {
            Given::Parts(_) => &["settings", "records", "rows"],
            Given::Text(_) => &["text"],
        };
        let parts = self.given.bytes().into_iter().map(<[u8]>::to_vec);
        let mut shown = vec![("head", self.head_bytes().to_vec())];
        shown.extend(names.iter().copied().zip(parts));
        shown
    }
}
