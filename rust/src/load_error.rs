//! Why a file was refused, and where in it.

use crate::Refusal;
use std::{error::Error, fmt};

/// Why a file was refused, and where in it that shows.
///
/// ```
/// use marks::{Mark, Refusal};
///
/// // the file of `abbbaab`, but that its second arrow, 01 03 at 12, has become 01 04
/// let damaged = b"\x01\x07abbbaab\x04\0\0\x01\x04\x01\x01\x01\0";
/// let error = Mark::from_file(damaged).unwrap_err();
/// assert_eq!(error.refusal, Refusal::WrongArrow);
/// assert_eq!(error.refusal.number(), 10);
/// assert_eq!(error.offset, Some(12));
/// assert_eq!(error.to_string(), "an arrow in the file is not its word's own at that place, or arrows are missing (10), at offset 12");
/// ```
///
/// In a function whose error is a [`Refusal`], `?` keeps only that.
#[derive(Clone, Copy, Debug, PartialEq, Eq, Hash)]
pub struct LoadError {
    /// Why.
    pub refusal: Refusal,
    /// Where, counted from 0: the first byte of the faulty field, an arrow's two numbers being one field, and so the two bytes of the
    /// check. For [`CutFile`](Refusal::CutFile) it is the file's length, for [`BadNumber`](Refusal::BadNumber) the byte that is refused,
    /// for missing arrows the first byte behind those that are there, for [`Leftovers`](Refusal::Leftovers) the first byte too many. The
    /// refusals 5 to 11 and 13 have one; [`ShortRoom`](Refusal::ShortRoom) and [`LongText`](Refusal::LongText) show nowhere in a file.
    pub offset: Option<usize>,
}

impl LoadError {
    /// The error of an entry that refused. It wrote `offset` where the refusal has one, and only there.
    pub(crate) fn of(refusal: Refusal, offset: u64) -> LoadError {
        let offset = refusal.has_offset().then(|| usize::try_from(offset).expect("an offset is at most the file's length"));
        LoadError { refusal, offset }
    }
}

impl fmt::Display for LoadError {
    fn fmt(&self, f: &mut fmt::Formatter<'_>) -> fmt::Result {
        match self.offset {
            Some(offset) => write!(f, "{}, at offset {offset}", self.refusal),
            None => self.refusal.fmt(f),
        }
    }
}

/// It has no source: its own text has the refusal's, which would be told twice.
impl Error for LoadError {}

impl From<LoadError> for Refusal {
    fn from(error: LoadError) -> Refusal {
        error.refusal
    }
}
