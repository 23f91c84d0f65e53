//! The rides in a text, however long it is.

use crate::{
    headers::{Headers, COMMON},
    Ride,
};
use std::{fmt, iter::FusedIterator};

/// The longest part, in bytes: what it has in common with another, and 256 KiB more.
const PART: usize = COMMON + (1 << 18);

/// Every ride in a text of any length by its FIT header, whole or cut, in the order in which they begin. See [`Rides`].
///
/// ```
/// use marks::rides;
///
/// let ride = b"\x0c\x10\0\0\x03\0\0\0.FITabc##";
/// let upload = [&ride[..], ride, &ride[..13]].concat(); // the last one is cut
/// let found: Vec<_> = rides(&upload).map(|ride| (ride.start, ride.is_whole())).collect();
/// assert_eq!(found, [(0, true), (17, true), (34, false)]);
/// assert_eq!(rides(b"no ride").next(), None);
/// ```
pub fn rides(text: &[u8]) -> Rides<'_> {
    Rides { text, from: 0, end: 0, headers: Headers::new(text.len().min(PART)) }
}

/// The rides in a text, rising. Made by [`rides`].
///
/// Each header that is wholly inside the text is listed once, also one in the data of another ride, and nothing else is. A header is 12 or 14 bytes: its first
/// byte is that size, bytes 4 to 7 are the size of the data, and bytes 8 to 11 are `.FIT`.
///
/// The text is gone over once, in parts of 256 KiB, when a ride in them is asked for. So the time is linear and memory is flat, some 330 KiB at most, also
/// where a stranger made the text of headers alone.
#[must_use = "nothing is searched before a ride is asked for"]
pub struct Rides<'a> {
    text: &'a [u8],
    /// Where the part at hand begins and ends.
    from: usize,
    end: usize,
    headers: Headers,
}

impl Rides<'_> {
    /// Goes on to the next part. Whether there is one.
    fn next_part(&mut self) -> bool {
        if self.end == self.text.len() {
            return false;
        }
        let known = self.end.min(COMMON);
        self.from = self.end - known;
        self.end = self.text.len().min(self.from + PART);
        self.headers.list(&self.text[self.from..self.end], known);
        true
    }
}

impl fmt::Debug for Rides<'_> {
    fn fmt(&self, f: &mut fmt::Formatter<'_>) -> fmt::Result {
        f.debug_struct("Rides").field("searched", &self.end).field("length", &self.text.len()).finish_non_exhaustive()
    }
}

impl Iterator for Rides<'_> {
    type Item = Ride;

    #[inline]
    fn next(&mut self) -> Option<Ride> {
        while !self.headers.is_ready() {
            if !self.next_part() {
                return None;
            }
        }
        let start = self.from + self.headers.next()?;
        Some(Ride::of(&self.text[start..], start as u64, self.text.len() as u64))
    }
}

impl FusedIterator for Rides<'_> {}
