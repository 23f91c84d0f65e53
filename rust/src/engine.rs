//! Which search goes over a text, and for how long.

use crate::{compact_sets_room, compact_targets_room, failure_table_room, table_room, LONGEST_TEXT};

/// The longest word that [`Engine::Auto`] searches for backward. With a longer one a hostile part would cost too much before it is noticed, and parts short
/// enough would spend their time on the word's table, which is made again for each part.
const LONGEST_TRIED: usize = 64;

/// The most letters that [`Engine::Auto`] may read of a part that it searches backward: as many as the word has for each place.
const MOST_TRIED: usize = 4_194_304;

/// How many places the first part of a text has for [`Engine::Auto`]: it tells whether the text is hostile, and how many finds the rest may have. For the
/// other engines, and so for words that are not tried backward, so many for each letter of the word: then the table of a long word, which is made for each
/// part, does not show, but for that of the failure oracle.
const FIRST_TRIED: usize = 4_096;
const FIRST_FOR_A_LETTER: usize = 16_384;

/// So many letters may be read for each letter of a part.
const FAIR: u64 = 2;

/// How a mark is looked for. The finds are the same with each engine; what differs is how many letters are read, and so the time on hostile texts: those that
/// repeat themselves as the word does, like zeros where the word is 4,096 zeros.
///
/// Stay with [`Auto`](Engine::Auto), and nobody has to know. [`Turbo`](Engine::Turbo) is for strangers' texts and marks where each text has to be linear by
/// itself, however short; [`Backward`](Engine::Backward) is for texts and marks that you know. [`Compact`](Engine::Compact) is that search for threads with
/// little stack. [`Failure`](Engine::Failure) is there for its fewer arrows and for comparing.
///
/// ```
/// use marks::{Engine, Mark};
///
/// let (word, text) = ([b'a'; 64], vec![b'a'; 1_000_000]);
/// let letters = |engine| Mark::new(&word).unwrap().engine(engine).tally(&text).letters;
/// assert_eq!(letters(Engine::Backward), 64 * (1_000_000 - 63));
/// assert!(letters(Engine::Turbo) <= 2 * 1_000_000);
/// assert!(letters(Engine::Auto) < 2_500_000);
/// ```
#[derive(Clone, Copy, Debug, Default, PartialEq, Eq, Hash)]
#[non_exhaustive]
pub enum Engine {
    /// Backward as long as that is fair, then turbo. A word of up to 64 bytes is searched for backward, in parts of which no more than 4,194,304 letters can be
    /// read. Once more than two letters were read for each letter of a part, turbo takes the rest of the text. For a longer word it takes all of it.
    ///
    /// So at most two letters are read for each letter searched, where the few that two parts have in common are searched with both; and at most 4,194,304
    /// letters more, once in a text, however long it is.
    #[default]
    Auto,
    /// It reads backward in windows as long as the word, and most letters of most texts not at all; of a hostile one it may read each letter as often as the
    /// word has letters.
    Backward,
    /// The same windows, but that what was read is remembered: at most two letters are read for each letter searched, whatever the word and the text. On
    /// most texts the backward search is quicker, where letters are many up to five and a half times.
    Turbo,
    /// Backward too, with the failure oracle of the word's mirror: in it a state may have one failure arrow, taken only where no arrow on the letter leaves the
    /// state, and consuming no letter. It is there for its fewer arrows and for comparing, and not for texts or marks of strangers.
    ///
    /// To make its table, up to m*m/2 letters are walked of a word of m letters that repeats itself, 8.4 million for 4,096 letters, and it is made again for
    /// each part of a text. Of a hostile text it may read m letters for each place, as the backward search. Failure arrows are counted apart from the letters:
    ///
    /// ```
    /// use marks::{Engine, Mark};
    ///
    /// let mark = Mark::new("ab")?.engine(Engine::Failure);
    /// let mut finds = mark.find_iter(b"aab");
    /// assert_eq!(finds.by_ref().collect::<Vec<_>>(), [1]);
    /// assert_eq!((finds.letters(), finds.failures()), (4, 1));
    /// # Ok::<(), marks::Refusal>(())
    /// ```
    Failure,
    /// The backward search with compact rows, for threads with little stack: finds and letters are those of [`Backward`](Engine::Backward). In a long text it
    /// prepares some 3 KiB of stack, where that prepares some 42. Its rooms take 52 bytes for each letter of the word, and 52 more, where those of the
    /// backward search take 12. Of a hostile text it may read m letters for each place.
    ///
    /// A board with so little memory that the lists of a [`Mark`](crate::Mark) are too long lends rooms of its own to
    /// [`compact_search`](crate::entries::compact_search).
    ///
    /// ```
    /// use marks::{Engine, Mark, Tally};
    ///
    /// let mark = Mark::new("aba")?.engine(Engine::Compact);
    /// assert_eq!(mark.find_iter(b"ababa").collect::<Vec<_>>(), [0, 2]);
    /// assert_eq!(mark.tally(b"ababa"), Tally { count: 2, letters: 6 });
    /// # Ok::<(), marks::Refusal>(())
    /// ```
    Compact,
}

impl Engine {
    /// How many entries its table takes, for a word of so many letters; of compact rows it is the targets.
    pub(crate) fn table_room(self, letters: usize) -> usize {
        match self {
            Engine::Failure => failure_table_room(letters),
            Engine::Compact => compact_targets_room(letters),
            _ => table_room(letters),
        }
    }

    /// How many words its sets take, for a word of so many letters; only compact rows have any.
    pub(crate) fn sets_room(self, letters: usize) -> usize {
        match self {
            Engine::Compact => compact_sets_room(letters),
            _ => 0,
        }
    }

    /// The engine with which a text is begun, for a word of so many letters.
    pub(crate) fn at_first(self, letters: usize) -> Engine {
        match self {
            Engine::Auto if letters > LONGEST_TRIED => Engine::Turbo,
            _ => self,
        }
    }

    /// How many places the first part of a text has, for a word of so many letters.
    pub(crate) fn first_places(self, letters: usize) -> usize {
        match self {
            Engine::Auto => FIRST_TRIED,
            _ => FIRST_FOR_A_LETTER * letters,
        }
    }

    /// The engine for what follows a part of so many bytes in which so many letters were read.
    pub(crate) fn after(self, bytes: usize, letters: u64) -> Engine {
        match self {
            Engine::Auto if letters > FAIR * bytes as u64 => Engine::Turbo,
            _ => self,
        }
    }

    /// The most places that one part may have, for a word of so many letters.
    pub(crate) fn most_places(self, letters: usize) -> usize {
        match self {
            Engine::Auto => MOST_TRIED / letters,
            _ => LONGEST_TEXT - (letters - 1),
        }
    }
}
