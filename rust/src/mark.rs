//! A word to be found.

use crate::{entries, shown::Shown, table_room, Engine, Finds, FindsIn, LoadError, Refusal, Tally, LONGEST_FILE, LONGEST_WORD};
use std::{fmt, io::Read};

/// A word of 1 to 4,096 bytes, to be found in any number of texts of any length.
///
/// It is only read while it is looked for, and each search has rooms of its own: one mark serves any number of threads at a time, and may be a `static`.
///
/// ```
/// use marks::Mark;
/// use std::{sync::LazyLock, thread};
///
/// static FIT: LazyLock<Mark> = LazyLock::new(|| Mark::new(".FIT").unwrap());
///
/// let uploads = ["..FIT", ".FIT.FIT", "no"];
/// let counts = thread::scope(|scope| {
///     let searches = uploads.map(|upload| scope.spawn(move || FIT.count(upload.as_bytes())));
///     searches.map(|search| search.join().unwrap())
/// });
/// assert_eq!(counts, [1, 2, 0]);
/// ```
#[derive(Clone, PartialEq, Eq, Hash)]
pub struct Mark {
    word: Box<[u8]>,
    engine: Engine,
}

/// An entry that saves a word, in the edition that is its own.
type SaveEntry = fn(&[u8], &mut [u16], &mut [u8]) -> Result<usize, Refusal>;

impl Mark {
    /// The mark of a word.
    ///
    /// ```
    /// use marks::{Mark, Refusal, LONGEST_WORD};
    ///
    /// assert_eq!(Mark::new("").unwrap_err(), Refusal::EmptyWord);
    /// assert_eq!(Mark::new([0; LONGEST_WORD + 1]).unwrap_err(), Refusal::LongWord);
    /// assert!(Mark::new([0; LONGEST_WORD]).is_ok());
    /// ```
    ///
    /// # Errors
    ///
    /// [`Refusal::EmptyWord`] and [`Refusal::LongWord`], where there are fewer than 1 or more than 4,096 bytes.
    pub fn new(word: impl AsRef<[u8]>) -> Result<Mark, Refusal> {
        let word = word.as_ref();
        let mut tables = vec![0; table_room(word.len().min(LONGEST_WORD))];
        entries::build(word, &mut tables)?;
        Ok(Mark::of(word.into()))
    }

    /// The mark of a saved file, of either edition. Searching with a file looks for the mirror of the file's word, so that the file holds
    /// the oracle that the search walks. Any bytes may be handed over.
    ///
    /// ```
    /// use marks::{LoadError, Mark, Refusal};
    ///
    /// // the file of `ab` finds `ba`
    /// let mark = Mark::from_file([0x01, 0x02, 0x61, 0x62, 0x01, 0x00, 0x00])?;
    /// assert_eq!(mark.word(), b"ba");
    ///
    /// let cut = Mark::from_file([0x01, 0x02, 0x61, 0x62]).unwrap_err();
    /// assert_eq!((cut.refusal, cut.offset), (Refusal::CutFile, Some(4)));
    /// # Ok::<(), LoadError>(())
    /// ```
    ///
    /// # Errors
    ///
    /// Where the bytes are no mark's file: the refusal, 5 to 11 or 13, says why, and the offset where that shows.
    pub fn from_file(file: impl AsRef<[u8]>) -> Result<Mark, LoadError> {
        let (mut word, mut tables) = (vec![0; LONGEST_WORD], vec![0; table_room(LONGEST_WORD)]);
        let m = entries::load(file.as_ref(), &mut word, &mut tables)?;
        Ok(Mark::of(word.into_iter().take(m).rev().collect()))
    }

    fn of(word: Box<[u8]>) -> Mark {
        Mark { word, engine: Engine::Auto }
    }

    /// The same mark, looked for by this engine. [`Engine`] says when to choose one; the finds are the same with each.
    ///
    /// ```
    /// use marks::{Engine, Mark};
    ///
    /// let mark = Mark::new("aba")?.engine(Engine::Turbo);
    /// assert_eq!(mark.find_iter(b"ababa").collect::<Vec<_>>(), [0, 2]);
    /// # Ok::<(), marks::Refusal>(())
    /// ```
    #[must_use]
    pub fn engine(self, engine: Engine) -> Mark {
        Mark { engine, ..self }
    }

    /// The word that is looked for.
    #[must_use]
    pub fn word(&self) -> &[u8] {
        &self.word
    }

    /// The engine that looks for it.
    pub(crate) fn engine_asked_for(&self) -> Engine {
        self.engine
    }

    /// The file from which [`from_file`](Mark::from_file) makes the mark of this word again, in edition 1. It is the only file of this
    /// edition that does; the engine is not in it. A mark of one letter has none, as whoever searched with it would drown in finds.
    ///
    /// It stays edition 1, because whoever calls this may hand the file to a service that has no library with edition 2 yet, and that would
    /// refuse edition 2 with 7. Where all readers know it, [`to_checked_file`](Mark::to_checked_file) is the better one.
    ///
    /// ```
    /// use marks::{Mark, Refusal};
    ///
    /// assert_eq!(Mark::new("aa")?.to_file()?, [0x01, 0x02, 0x61, 0x61, 0x00]);
    ///
    /// let letter = Mark::new("a")?;
    /// assert_eq!(letter.to_file(), Err(Refusal::ShortWord));
    /// assert_eq!(letter.count(b"aba"), 2); // it is looked for directly
    /// # Ok::<(), Refusal>(())
    /// ```
    ///
    /// # Errors
    ///
    /// [`Refusal::ShortWord`], where the mark has one letter. There is no other here.
    pub fn to_file(&self) -> Result<Vec<u8>, Refusal> {
        self.file_by(entries::save)
    }

    /// The same as [`to_file`](Mark::to_file) in edition 2, which ends with a check of all bytes before it, so that bits which were lost on
    /// the way are noticed. It has two bytes more, and only a library that knows edition 2 takes it.
    ///
    /// ```
    /// use marks::{Mark, Refusal};
    ///
    /// let mark = Mark::new("ab")?;
    /// let mut file = mark.to_checked_file()?;
    /// assert_eq!(file, [0x02, 0x02, 0x62, 0x61, 0x01, 0x00, 0x00, 0x95, 0xD6]);
    /// assert_eq!(Mark::from_file(&file)?, mark);
    ///
    /// // one bit of a letter is lost, so that all before the check is as in another word's file
    /// file[2] ^= 1;
    /// let error = Mark::from_file(&file).unwrap_err();
    /// assert_eq!((error.refusal, error.offset), (Refusal::BadCheck, Some(7)));
    /// # Ok::<(), Refusal>(())
    /// ```
    ///
    /// # Errors
    ///
    /// [`Refusal::ShortWord`], where the mark has one letter. There is no other here.
    pub fn to_checked_file(&self) -> Result<Vec<u8>, Refusal> {
        self.file_by(entries::save_checked)
    }

    /// The file of the mark's mirror.
    fn file_by(&self, save: SaveEntry) -> Result<Vec<u8>, Refusal> {
        let mirror: Vec<u8> = self.word.iter().rev().copied().collect();
        let (mut tables, mut out) = (vec![0; table_room(mirror.len())], vec![0; LONGEST_FILE]);
        let length = save(&mirror, &mut tables, &mut out)?;
        out.truncate(length);
        Ok(out)
    }

    /// Every place where the word stands in the text, overlaps included, rising. However many there are, and however long the text, none is missed.
    ///
    /// ```
    /// # use marks::Mark;
    /// let mark = Mark::new("aa")?;
    /// assert_eq!(mark.find_iter(b"aaaa").collect::<Vec<_>>(), [0, 1, 2]);
    /// assert_eq!(mark.find_iter(b"").next(), None);
    /// # Ok::<(), marks::Refusal>(())
    /// ```
    pub fn find_iter<'a>(&'a self, text: &'a [u8]) -> Finds<'a> {
        Finds::new(self, text)
    }

    /// The first place where the word stands in the text.
    #[must_use]
    pub fn find(&self, text: &[u8]) -> Option<usize> {
        Finds::of_the_first(self, text).next()
    }

    /// The first place where the word stands in the text that is not before `start`, counted from the text's first byte.
    ///
    /// ```
    /// # use marks::Mark;
    /// let mark = Mark::new("aba")?;
    /// assert_eq!(mark.find_at(b"ababa", 1), Some(2));
    /// assert_eq!(mark.find_at(b"ababa", 3), None);
    /// assert_eq!(mark.find_at(b"ababa", 99), None);
    /// # Ok::<(), marks::Refusal>(())
    /// ```
    #[must_use]
    pub fn find_at(&self, text: &[u8], start: usize) -> Option<usize> {
        self.find(text.get(start..)?).map(|at| start + at)
    }

    /// Every place where the word stands in what a source gives, of any length, in flat memory. See [`FindsIn`].
    ///
    /// ```
    /// # use marks::Mark;
    /// let upload: &[u8] = b"..RIDE..RIDE"; // or a file, a socket, standard input
    /// let places: Result<Vec<u64>, _> = Mark::new("RIDE")?.find_in(upload).collect();
    /// assert_eq!(places?, [2, 8]);
    /// # Ok::<(), Box<dyn std::error::Error>>(())
    /// ```
    pub fn find_in<R: Read>(&self, source: R) -> FindsIn<'_, R> {
        FindsIn::new(self, source)
    }

    /// How often the word stands in the text.
    #[must_use]
    pub fn count(&self, text: &[u8]) -> u64 {
        self.tally(text).count
    }

    /// How often the word stands in the text, and how many letters were read to find out. A letter that was read again counts again. The failure arrows that
    /// [`Engine::Failure`] takes are told by [`Finds::failures`].
    ///
    /// ```
    /// use marks::{Engine, Mark, Tally};
    ///
    /// let mark = Mark::new("aba")?;
    /// assert_eq!(mark.tally(b"ababa"), Tally { count: 2, letters: 6 });
    /// assert_eq!(mark.engine(Engine::Turbo).tally(b"ababa"), Tally { count: 2, letters: 10 });
    /// # Ok::<(), marks::Refusal>(())
    /// ```
    #[must_use]
    pub fn tally(&self, text: &[u8]) -> Tally {
        self.find_iter(text).tally()
    }
}

impl fmt::Debug for Mark {
    fn fmt(&self, f: &mut fmt::Formatter<'_>) -> fmt::Result {
        write!(f, "Mark({}, {:?})", Shown(&self.word), self.engine)
    }
}
