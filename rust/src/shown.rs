//! A word as it is shown to who looks for a fault.

use std::fmt;

/// So many letters of a word are shown.
const SHOWN: usize = 16;

/// A word in quotes, its first letters where it is long, and how many more there are.
pub(crate) struct Shown<'a>(pub &'a [u8]);

impl fmt::Display for Shown<'_> {
    fn fmt(&self, f: &mut fmt::Formatter<'_>) -> fmt::Result {
        let (shown, rest) = self.0.split_at(self.0.len().min(SHOWN));
        write!(f, "\"{}\"", shown.escape_ascii())?;
        if rest.is_empty() {
            return Ok(());
        }
        write!(f, " and {} more", rest.len())
    }
}
