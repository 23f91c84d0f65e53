//! The finds that end in one piece of a stream, however many.

use crate::Stream;

/// The starts of the finds that end in a piece of a [`Stream`], rising, counted from the stream's first byte. Made by [`Stream::take`]. When it is dropped the
/// whole piece is taken.
#[derive(Debug)]
pub struct Taken<'a> {
    stream: &'a mut Stream,
    /// What has not been taken of the piece.
    rest: &'a [u8],
    /// How many finds the stream lists, and how many of those were handed out.
    listed: usize,
    next: usize,
}

impl<'a> Taken<'a> {
    pub(crate) fn new(stream: &'a mut Stream, piece: &'a [u8]) -> Taken<'a> {
        Taken { stream, rest: piece, listed: 0, next: 0 }
    }
}

impl Iterator for Taken<'_> {
    type Item = u64;

    #[inline]
    fn next(&mut self) -> Option<u64> {
        while self.next == self.listed {
            if self.rest.is_empty() {
                return None;
            }
            let (bytes, finds) = self.stream.take_listed(self.rest);
            self.rest = &self.rest[bytes..];
            (self.listed, self.next) = (finds, 0);
        }
        self.next += 1;
        Some(self.stream.listed(self.next - 1))
    }
}

impl std::iter::FusedIterator for Taken<'_> {}

impl Drop for Taken<'_> {
    fn drop(&mut self) {
        self.stream.pass(self.rest);
    }
}
