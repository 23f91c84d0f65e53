//! The rides in what a source gives, however much that is.

use crate::{
    headers::{Headers, COMMON},
    parts::{self, Parts},
    Ride,
};
use std::{
    fmt,
    io::{self, ErrorKind, Read},
    iter::FusedIterator,
};

/// Every ride in the first `length` bytes of what a source gives, whole or cut, in the order in which they begin. See [`RidesIn`].
///
/// ```
/// use marks::rides_in;
///
/// let upload = b"\x0c\x10\0\0\x03\0\0\0.FITabc##\x0c\x10\0\0\x03\0\0\0.FITa"; // or a file, and its length
/// for ride in rides_in(&upload[..], upload.len() as u64) {
///     let ride = ride?;
///     println!("at {}: {}", ride.start, if ride.is_whole() { "whole" } else { "cut" });
/// }
/// # Ok::<(), std::io::Error>(())
/// ```
pub fn rides_in<R: Read>(source: R, length: u64) -> RidesIn<R> {
    let parts = Parts::new(Limited { source, left: length }, COMMON + 1);
    let headers = Headers::new(parts.longest());
    RidesIn { parts, length, headers, over: false }
}

/// The rides in what a source gives, rising, their starts counted from its first byte. Made by [`rides_in`].
///
/// They are those that [`rides`](crate::rides()) lists in a text of the same bytes. The length has to be known before, as it decides which of them are whole;
/// what the source has behind it is not read. What one read gives is searched at once, unless it is a single byte, so that a ride is told when its header is
/// there, or a byte behind it.
///
/// Memory is flat, some 600 KiB, and the time is linear, whatever is read. Where a read fails, the rides before it come first, then the error, and then nothing
/// more. It is an error, too, where the source ends before the length: [`ErrorKind::UnexpectedEof`], as kinds were told that are not those of what is there.
#[must_use = "nothing is read before a ride is asked for"]
pub struct RidesIn<R> {
    parts: Parts<Limited<R>>,
    length: u64,
    headers: Headers,
    /// Whether the last part was handed out, or an error was told.
    over: bool,
}

impl<R: Read> RidesIn<R> {
    /// How many bytes have been read so far.
    #[must_use]
    pub fn read(&self) -> u64 {
        self.parts.read()
    }

    /// Whether the next ride is at hand, so that asking for it reads nothing.
    #[must_use]
    pub fn is_ready(&self) -> bool {
        self.headers.is_ready()
    }

    /// Whether there is another part.
    fn next_part(&mut self) -> io::Result<bool> {
        if self.over {
            return Ok(false);
        }
        let more = self.parts.next_part();
        self.over = !matches!(more, Ok(true));
        if self.over {
            return more.and_then(|_| self.ended());
        }
        self.headers.list(self.parts.at_hand(), self.parts.kept());
        Ok(true)
    }

    /// That there is no other part, where the source gave as much as was said.
    fn ended(&self) -> io::Result<bool> {
        if self.read() == self.length {
            return Ok(false);
        }
        Err(io::Error::new(ErrorKind::UnexpectedEof, format!("the source ended before its length, {} bytes", self.length)))
    }
}

impl<R> fmt::Debug for RidesIn<R> {
    fn fmt(&self, f: &mut fmt::Formatter<'_>) -> fmt::Result {
        f.debug_struct("RidesIn").field("length", &self.length).field("over", &self.over).finish_non_exhaustive()
    }
}

impl<R: Read> Iterator for RidesIn<R> {
    type Item = io::Result<Ride>;

    #[inline]
    fn next(&mut self) -> Option<io::Result<Ride>> {
        while !self.headers.is_ready() {
            match self.next_part() {
                Ok(true) => {}
                Ok(false) => return None,
                Err(error) => return Some(Err(error)),
            }
        }
        let at = self.headers.next()?;
        Some(Ok(Ride::of(&self.parts.at_hand()[at..], self.parts.start() + at as u64, self.length)))
    }
}

impl<R: Read> FusedIterator for RidesIn<R> {}

/// So many bytes of a source. Unlike [`io::Take`] it does not panic where the source says that it read more than it was asked for.
struct Limited<R> {
    source: R,
    left: u64,
}

impl<R: Read> Read for Limited<R> {
    fn read(&mut self, room: &mut [u8]) -> io::Result<usize> {
        let most = usize::try_from(self.left).unwrap_or(usize::MAX).min(room.len());
        if most == 0 {
            return Ok(0);
        }
        let read = parts::read(&mut self.source, &mut room[..most])?;
        self.left -= read as u64;
        Ok(read)
    }
}
