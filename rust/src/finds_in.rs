//! The places where a mark stands in what a source gives, however much that is.

use crate::{parts::Parts, search::Search, Engine, Mark, Tally};
use std::{
    fmt,
    io::{self, Read},
    iter::FusedIterator,
};

/// The finds of a [`Mark`] in what a source gives, rising, counted from its first byte. Made by [`Mark::find_in`].
///
/// What one read gives is searched at once, so that finds are known as soon as they are there, also where a source is slow; a mark of more than 8 letters
/// waits for an eighth as many bytes as it has letters. So even one that gives a byte at a time, to do harm, makes [`Engine::Turbo`] read 18 letters for each
/// byte at most; in reads of some length it is two, and those that two reads have in common again. [`Engine::Failure`] makes its
/// table again for each of these reads.
///
/// Memory is flat: some 320 KiB for a short word, 2.3 MiB for the longest, 2.5 with [`Engine::Compact`], however much is read and found. Where a read fails,
/// the finds before it come first, then the error, and then nothing more.
///
/// ```
/// use marks::Mark;
///
/// let mark = Mark::new("RIDE")?;
/// let upload: &[u8] = b"..RIDE..RIDE";
/// for place in mark.find_in(upload) {
///     println!("found at {}", place?);
/// }
/// assert_eq!(mark.find_in(upload).tally()?.count, 2);
/// # Ok::<(), Box<dyn std::error::Error>>(())
/// ```
#[must_use = "nothing is read before a find is asked for"]
pub struct FindsIn<'a, R> {
    mark: &'a Mark,
    parts: Parts<R>,
    search: Search,
}

impl<'a, R: Read> FindsIn<'a, R> {
    pub(crate) fn new(mark: &'a Mark, source: R) -> FindsIn<'a, R> {
        FindsIn { mark, parts: Parts::new(source, mark.word().len()), search: Search::new(mark) }
    }

    /// How many bytes have been read so far.
    #[must_use]
    pub fn read(&self) -> u64 {
        self.parts.read()
    }

    /// How many letters have been read so far: of the bytes that came, a letter that was read again counting again.
    #[must_use]
    pub fn letters(&self) -> u64 {
        self.search.letters()
    }

    /// How many failure arrows have been taken so far, as [`Finds::failures`](crate::Finds::failures) has it.
    #[must_use]
    pub fn failures(&self) -> u64 {
        self.search.failures()
    }

    /// The engine for what has not been searched yet, as [`Finds::engine`](crate::Finds::engine) has it.
    #[must_use]
    pub fn engine(&self) -> Engine {
        self.search.engine()
    }

    /// Whether the next find is at hand, so that asking for it reads nothing. Who prints finds as they come flushes where it is not.
    #[must_use]
    pub fn is_ready(&self) -> bool {
        self.search.is_ready()
    }

    /// Reads to the end and counts the finds that have not been handed out, without listing them.
    ///
    /// # Errors
    ///
    /// The first of the source's that is not an interruption. Nothing is read after it.
    pub fn tally(&mut self) -> io::Result<Tally> {
        let mut count = self.search.count(self.mark.word(), self.parts.at_hand());
        while self.next_part()? {
            count += self.search.count(self.mark.word(), self.parts.at_hand());
        }
        Ok(Tally { count, letters: self.letters() })
    }

    /// Whether there is another part.
    fn next_part(&mut self) -> io::Result<bool> {
        let more = self.parts.next_part();
        self.search.begin();
        more
    }
}

impl<R> fmt::Debug for FindsIn<'_, R> {
    fn fmt(&self, f: &mut fmt::Formatter<'_>) -> fmt::Result {
        f.debug_struct("FindsIn").field("mark", self.mark).field("search", &self.search).finish_non_exhaustive()
    }
}

impl<R: Read> Iterator for FindsIn<'_, R> {
    type Item = io::Result<u64>;

    #[inline]
    fn next(&mut self) -> Option<io::Result<u64>> {
        loop {
            if let Some(at) = self.search.next(self.mark.word(), self.parts.at_hand()) {
                return Some(Ok(self.parts.start() + at as u64));
            }
            match self.next_part() {
                Ok(true) => {}
                Ok(false) => return None,
                Err(error) => return Some(Err(error)),
            }
        }
    }
}

impl<R: Read> FusedIterator for FindsIn<'_, R> {}
