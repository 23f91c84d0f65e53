//! The places where a mark stands in a text, however many.

use crate::{search::Search, Engine, Mark, Tally};
use std::{fmt, iter::FusedIterator};

/// The finds of a [`Mark`] in a text, rising. Made by [`Mark::find_iter`].
///
/// The text is searched in parts of up to 16 MiB, as long as their finds fit a list; the first has 4,096 places for a word of up to 64 letters and
/// [`Engine::Auto`], else 16,384 for each letter of the word. So a text with few finds is searched once, and one with many at most three times over, and 16
/// MiB more. Whoever wants the first find alone asks [`Mark::find`], which begins with a short part whatever the word.
#[must_use = "nothing is searched before a find is asked for"]
pub struct Finds<'a> {
    mark: &'a Mark,
    text: &'a [u8],
    search: Search,
}

impl<'a> Finds<'a> {
    pub(crate) fn new(mark: &'a Mark, text: &'a [u8]) -> Finds<'a> {
        Finds { mark, text, search: Search::new(mark) }
    }

    /// For one who asks for the first find only.
    pub(crate) fn of_the_first(mark: &'a Mark, text: &'a [u8]) -> Finds<'a> {
        Finds { mark, text, search: Search::of_the_first(mark) }
    }

    /// How many letters have been read so far. A letter that was read again counts again.
    ///
    /// ```
    /// # use marks::{Engine, Mark};
    /// let mark = Mark::new("aba")?.engine(Engine::Turbo);
    /// let mut finds = mark.find_iter(b"ababa");
    /// assert_eq!(finds.by_ref().collect::<Vec<_>>(), [0, 2]);
    /// assert_eq!(finds.letters(), 10);
    /// # Ok::<(), marks::Refusal>(())
    /// ```
    #[must_use]
    pub fn letters(&self) -> u64 {
        self.search.letters()
    }

    /// How many failure arrows have been taken so far, by [`Engine::Failure`]; with the other engines there are none.
    ///
    /// ```
    /// # use marks::{Engine, Mark};
    /// let mark = Mark::new("ab")?.engine(Engine::Failure);
    /// let mut finds = mark.find_iter(b"ac");
    /// assert_eq!((finds.next(), finds.letters(), finds.failures()), (None, 1, 1));
    /// # Ok::<(), marks::Refusal>(())
    /// ```
    #[must_use]
    pub fn failures(&self) -> u64 {
        self.search.failures()
    }

    /// The engine for what has not been searched yet: that of the mark, but that it is turbo once [`Engine::Auto`] has gone over to it.
    ///
    /// ```
    /// # use marks::{Engine, Mark};
    /// let mark = Mark::new("aaaa")?;
    /// let mut finds = mark.find_iter(b"aaaaaaaaa");
    /// assert_eq!(finds.engine(), Engine::Auto);
    /// assert_eq!(finds.by_ref().count(), 6);
    /// assert_eq!(finds.engine(), Engine::Turbo);
    /// # Ok::<(), marks::Refusal>(())
    /// ```
    #[must_use]
    pub fn engine(&self) -> Engine {
        self.search.engine()
    }

    /// Counts the finds that have not been handed out, without listing them, and leaves none. The letters are those of [`letters`](Finds::letters).
    pub fn tally(&mut self) -> Tally {
        Tally { count: self.search.count(self.mark.word(), self.text), letters: self.search.letters() }
    }
}

impl fmt::Debug for Finds<'_> {
    fn fmt(&self, f: &mut fmt::Formatter<'_>) -> fmt::Result {
        f.debug_struct("Finds").field("mark", self.mark).field("search", &self.search).finish_non_exhaustive()
    }
}

impl Iterator for Finds<'_> {
    type Item = usize;

    #[inline]
    fn next(&mut self) -> Option<usize> {
        self.search.next(self.mark.word(), self.text)
    }
}

impl FusedIterator for Finds<'_> {}
