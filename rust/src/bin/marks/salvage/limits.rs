//! How much of one file is written unless all is asked for: a stranger who sets headers close to each other, or into each other's data, could
//! fill the disk.

use super::{spans::Span, text::Text};
use crate::{names, trouble::Trouble};

/// The most rides of a file.
const RIDES: u64 = 1_000;

/// The most bytes of its rides together, for each byte that it has.
const BYTES_FOR_A_BYTE: u64 = 2;

const ADVICE: &str = "nothing of it is written: list it without --extract, or write all the same with --all";

/// What the rides of a file come to so far.
#[derive(Default)]
pub struct Limits {
    rides: u64,
    bytes: u64,
}

impl Limits {
    /// Counts a ride of a text, unless that is too much.
    pub fn take(&mut self, span: &Span, text: &Text) -> Result<(), Trouble> {
        self.rides += 1;
        self.bytes = self.bytes.saturating_add(span.there());
        let what = match (self.rides > RIDES, self.bytes > text.length.saturating_mul(BYTES_FOR_A_BYTE)) {
            (true, _) => "it lists more than 1,000 rides",
            (_, true) => "its rides are more than twice its bytes together",
            _ => return Ok(()),
        };
        Err(Trouble::new(names::shown(text.name), what, ADVICE))
    }
}
