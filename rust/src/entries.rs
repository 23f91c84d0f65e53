//! The exported entries over lent slices, as they are. Every one may be handed any slices: it answers, or refuses with its number of the table, and with the
//! offset where a file is at fault, and leaves what its promise says. Nothing is allocated. [`Mark`](crate::Mark), [`Stream`](crate::Stream) and
//! [`rides`](crate::rides()) are easier to use.

#![allow(unsafe_code)]

use crate::{LoadError, Refusal};

extern "C" {
    fn marks_build(word: *const u8, word_len: usize, tables: *mut u16, tables_len: usize, m: *mut u64) -> u32;
    fn marks_save(
        word: *const u8,
        word_len: usize,
        tables: *mut u16,
        tables_len: usize,
        out: *mut u8,
        out_len: usize,
        length: *mut u64,
    ) -> u32;
    fn marks_save_checked(
        word: *const u8,
        word_len: usize,
        tables: *mut u16,
        tables_len: usize,
        out: *mut u8,
        out_len: usize,
        length: *mut u64,
    ) -> u32;
    fn marks_load(
        file: *const u8,
        file_len: usize,
        room: *mut u8,
        room_len: usize,
        tables: *mut u16,
        tables_len: usize,
        m: *mut u64,
        offset: *mut u64,
    ) -> u32;
    fn marks_search(
        word: *const u8,
        word_len: usize,
        text: *const u8,
        text_len: usize,
        tables: *mut u16,
        tables_len: usize,
        finds: *mut u32,
        finds_len: usize,
        count: *mut u64,
        letters: *mut u64,
    ) -> u32;
    fn marks_turbo(
        word: *const u8,
        word_len: usize,
        text: *const u8,
        text_len: usize,
        tables: *mut u16,
        tables_len: usize,
        finds: *mut u32,
        finds_len: usize,
        count: *mut u64,
        letters: *mut u64,
    ) -> u32;
    fn marks_search_file(
        file: *const u8,
        file_len: usize,
        text: *const u8,
        text_len: usize,
        room: *mut u8,
        room_len: usize,
        tables: *mut u16,
        tables_len: usize,
        finds: *mut u32,
        finds_len: usize,
        count: *mut u64,
        letters: *mut u64,
        offset: *mut u64,
    ) -> u32;
    fn marks_failure_build(word: *const u8, word_len: usize, tables: *mut u16, tables_len: usize, m: *mut u64) -> u32;
    fn marks_failure_search(
        word: *const u8,
        word_len: usize,
        text: *const u8,
        text_len: usize,
        tables: *mut u16,
        tables_len: usize,
        finds: *mut u32,
        finds_len: usize,
        count: *mut u64,
        letters: *mut u64,
        failures: *mut u64,
    ) -> u32;
    fn marks_storacle_build(word: *const u8, word_len: usize, tables: *mut u16, tables_len: usize, m: *mut u64) -> u32;
    fn marks_compact_build(
        word: *const u8,
        word_len: usize,
        sets: *mut u64,
        sets_len: usize,
        targets: *mut u16,
        targets_len: usize,
        m: *mut u64,
    ) -> u32;
    fn marks_compact_search(
        word: *const u8,
        word_len: usize,
        text: *const u8,
        text_len: usize,
        sets: *mut u64,
        sets_len: usize,
        targets: *mut u16,
        targets_len: usize,
        finds: *mut u32,
        finds_len: usize,
        count: *mut u64,
        letters: *mut u64,
    ) -> u32;
    fn marks_open(word: *const u8, word_len: usize, searcher: *mut u8, searcher_len: usize) -> u32;
    fn marks_take(
        searcher: *mut u8,
        searcher_len: usize,
        piece: *const u8,
        piece_len: usize,
        finds: *mut u32,
        finds_len: usize,
        count: *mut u64,
    ) -> u32;
    fn marks_salvage(
        text: *const u8,
        text_len: usize,
        tables: *mut u16,
        tables_len: usize,
        starts: *mut u32,
        starts_len: usize,
        kinds: *mut u8,
        kinds_len: usize,
        count: *mut u64,
    ) -> u32;
}

/// An answer that is no larger than a slice which was lent.
fn size(answer: u64) -> usize {
    usize::try_from(answer).expect("it is no larger than a slice")
}

/// What an entry said: 0 and its answer, or the number of a refusal.
fn told<T>(said: u32, answer: T) -> Result<T, Refusal> {
    match said {
        0 => Ok(answer),
        number => Err(Refusal::of(number)),
    }
}

/// The same of an entry that loads a file, and what it left as the offset.
fn told_of_file<T>(said: u32, answer: T, offset: u64) -> Result<T, LoadError> {
    told(said, answer).map_err(|refusal| LoadError::of(refusal, offset))
}

/// The table of a word's oracle, in the first 6(m+1) entries of `tables`; the answer is m.
///
/// # Errors
///
/// The refusals 1, 2 and 3, which change nothing.
pub fn build(word: &[u8], tables: &mut [u16]) -> Result<usize, Refusal> {
    let mut m = 0;
    // SAFETY: `word` and `tables` are slices, handed over with their lengths, and `m` is a local: all outlive the call, and what is written is borrowed here
    // alone.
    let said = unsafe { marks_build(word.as_ptr(), word.len(), tables.as_mut_ptr(), tables.len(), &raw mut m) };
    told(said, m).map(size)
}

/// What saving is for C, in either edition.
type SaveEntry = unsafe extern "C" fn(*const u8, usize, *mut u16, usize, *mut u8, usize, *mut u64) -> u32;

fn saved(entry: SaveEntry, word: &[u8], tables: &mut [u16], out: &mut [u8]) -> Result<usize, Refusal> {
    let mut length = 0;
    // SAFETY: `entry` is one of the library's two of this shape; `word`, `tables` and `out` are slices, handed over with their lengths, and
    // `length` is a local: what is written is borrowed here alone.
    let said = unsafe { entry(word.as_ptr(), word.len(), tables.as_mut_ptr(), tables.len(), out.as_mut_ptr(), out.len(), &raw mut length) };
    told(said, length).map(size)
}

/// The file of a word of at least [`LEAST_SAVED`](crate::LEAST_SAVED) bytes in edition 1, at the front of `out`; the answer is its length.
///
/// # Errors
///
/// The refusals 1, 2, 17, 3 and 12. The last leaves the first 6(m+1) entries of `tables` zero, the others change nothing.
pub fn save(word: &[u8], tables: &mut [u16], out: &mut [u8]) -> Result<usize, Refusal> {
    saved(marks_save, word, tables, out)
}

/// The same as [`save`] in edition 2: another first byte, and two bytes more, which are a check of all bytes before them. A library from
/// before edition 2 refuses the file with 7.
///
/// # Errors
///
/// The refusals 1, 2, 17, 3 and 12, as [`save`].
pub fn save_checked(word: &[u8], tables: &mut [u16], out: &mut [u8]) -> Result<usize, Refusal> {
    saved(marks_save_checked, word, tables, out)
}

/// The file's word in the first m bytes of `room`, its table in the first 6(m+1) entries of `tables`; the answer is m. The file may be of
/// either edition.
///
/// # Errors
///
/// The refusals 5 to 11 and 13, with the offset at which the file is broken, and 3. Those before the rooms were judged change nothing, the
/// others leave the word's part of `room` and `tables` zero.
pub fn load(file: &[u8], room: &mut [u8], tables: &mut [u16]) -> Result<usize, LoadError> {
    let (mut m, mut offset) = (0, 0);
    // SAFETY: `file`, `room` and `tables` are slices, handed over with their lengths, `m` and `offset` are locals: what is written is borrowed here alone.
    let said = unsafe {
        marks_load(file.as_ptr(), file.len(), room.as_mut_ptr(), room.len(), tables.as_mut_ptr(), tables.len(), &raw mut m, &raw mut offset)
    };
    told_of_file(said, m, offset).map(size)
}

/// How often a word stands in a text, and how many letters were read to find out.
#[derive(Clone, Copy, Debug, Default, PartialEq, Eq, Hash)]
pub struct Tally {
    /// How often the word stands there, overlaps included.
    pub count: u64,
    /// How many letters were read, a letter that was read again counting again.
    pub letters: u64,
}

/// What the searches with the table of the oracle are for C.
type SearchEntry = unsafe extern "C" fn(*const u8, usize, *const u8, usize, *mut u16, usize, *mut u32, usize, *mut u64, *mut u64) -> u32;

fn searched(entry: SearchEntry, word: &[u8], text: &[u8], tables: &mut [u16], finds: &mut [u32]) -> Result<Tally, Refusal> {
    let mut tally = Tally::default();
    // SAFETY: `entry` is one of the library's two of this shape; `word`, `text`, `tables` and `finds` are slices, handed over with their lengths, and the tally
    // is a local: what is written is borrowed here alone.
    let said = unsafe {
        entry(
            word.as_ptr(),
            word.len(),
            text.as_ptr(),
            text.len(),
            tables.as_mut_ptr(),
            tables.len(),
            finds.as_mut_ptr(),
            finds.len(),
            &raw mut tally.count,
            &raw mut tally.letters,
        )
    };
    told(said, tally)
}

/// Every place where the word stands in the text: the first of them in `finds`, as many as fit, the count exact.
///
/// # Errors
///
/// The refusals 1, 2, 4 and 3, which change nothing.
pub fn search(word: &[u8], text: &[u8], tables: &mut [u16], finds: &mut [u32]) -> Result<Tally, Refusal> {
    searched(marks_search, word, text, tables, finds)
}

/// The same as [`search`], but that at most two letters are read for each letter of the text, whatever the word and the text.
///
/// # Errors
///
/// The refusals 1, 2, 4 and 3, which change nothing.
pub fn turbo(word: &[u8], text: &[u8], tables: &mut [u16], finds: &mut [u32]) -> Result<Tally, Refusal> {
    searched(marks_turbo, word, text, tables, finds)
}

/// Every place where the mirror of the file's word stands in the text; `room` and `tables` are left as `load` leaves them.
///
/// # Errors
///
/// The refusal 4, which changes nothing, then those of [`load`] with what they leave. None changes `finds`.
pub fn search_file(file: &[u8], text: &[u8], room: &mut [u8], tables: &mut [u16], finds: &mut [u32]) -> Result<Tally, LoadError> {
    let (mut tally, mut offset) = (Tally::default(), 0);
    // SAFETY: `file`, `text`, `room`, `tables` and `finds` are slices, handed over with their lengths, the tally and `offset` are locals: what is written is
    // borrowed here alone.
    let said = unsafe {
        marks_search_file(
            file.as_ptr(),
            file.len(),
            text.as_ptr(),
            text.len(),
            room.as_mut_ptr(),
            room.len(),
            tables.as_mut_ptr(),
            tables.len(),
            finds.as_mut_ptr(),
            finds.len(),
            &raw mut tally.count,
            &raw mut tally.letters,
            &raw mut offset,
        )
    };
    told_of_file(said, tally, offset)
}

/// The table of a word's failure oracle, in the first 10(m+1) entries of `tables`; the answer is m. To make it, up to m*m/2 letters are walked
/// of a word that repeats itself, 8.4 million for 4,096 letters.
///
/// ```
/// use marks::{entries, failure_table_room};
///
/// let word = b"abcacdace";
/// let mut tables = [0; failure_table_room(9)];
/// assert_eq!(entries::failure_build(word, &mut tables), Ok(9));
/// // row 1 has where the failure arrow of each state leads, 0 for none; row 2 has no symbol arrow beside the spine
/// assert_eq!(tables[10..20], [1, 2, 5, 5, 0, 8, 0, 0, 0, 0]);
/// assert_eq!(tables[20..30], [0; 10]);
/// ```
///
/// # Errors
///
/// The refusals 1, 2 and 3, the last where there are fewer entries; they change nothing.
pub fn failure_build(word: &[u8], tables: &mut [u16]) -> Result<usize, Refusal> {
    let mut m = 0;
    // SAFETY: `word` and `tables` are slices, handed over with their lengths, and `m` is a local: what is written is borrowed here alone.
    let said = unsafe { marks_failure_build(word.as_ptr(), word.len(), tables.as_mut_ptr(), tables.len(), &raw mut m) };
    told(said, m).map(size)
}

/// What [`failure_search`] answers: a [`Tally`], and how many failure arrows were taken.
#[derive(Clone, Copy, Debug, Default, PartialEq, Eq, Hash)]
pub struct FailureTally {
    /// How often the word stands there, overlaps included.
    pub count: u64,
    /// How many letters were read, a letter that was read again counting again.
    pub letters: u64,
    /// How many failure arrows were taken. They consume no letter, and are in no count of letters.
    pub failures: u64,
}

/// The same as [`search`], with the failure oracle of the word's mirror, whose table takes the first 10(m+1) entries of `tables`, and is made in each call, as
/// by [`failure_build`]. Of a hostile text m letters may be read for each place. The failure arrows are counted apart.
///
/// ```
/// use marks::entries::{failure_search, FailureTally};
/// use marks::failure_table_room;
///
/// let (mut tables, mut finds) = ([0; failure_table_room(3)], [0; 2]);
/// let told = failure_search(b"aba", b"ababa", &mut tables, &mut finds)?;
/// assert_eq!(told, FailureTally { count: 2, letters: 6, failures: 0 });
/// assert_eq!(finds, [0, 2]);
/// # Ok::<(), marks::Refusal>(())
/// ```
///
/// # Errors
///
/// The refusals 1, 2, 4 and 3, which change nothing.
pub fn failure_search(word: &[u8], text: &[u8], tables: &mut [u16], finds: &mut [u32]) -> Result<FailureTally, Refusal> {
    let mut tally = FailureTally::default();
    // SAFETY: `word`, `text`, `tables` and `finds` are slices, handed over with their lengths, and the tally is a local: what is written is borrowed here
    // alone.
    let said = unsafe {
        marks_failure_search(
            word.as_ptr(),
            word.len(),
            text.as_ptr(),
            text.len(),
            tables.as_mut_ptr(),
            tables.len(),
            finds.as_mut_ptr(),
            finds.len(),
            &raw mut tally.count,
            &raw mut tally.letters,
            &raw mut tally.failures,
        )
    };
    told(said, tally)
}

/// The table of the storacle of a word of up to [`LONGEST_STORACLE`](crate::LONGEST_STORACLE) letters, in the first (m+1)(m+6) entries of `tables`; the answer
/// is m. Each arrow of this automaton leads to the first later state that has its letter. It has m to m(m+1)/2 arrows, seldom fewer than the oracle has: it is
/// there for comparing.
///
/// ```
/// use marks::{entries, storacle_table_room};
///
/// let mut tables = [0; storacle_table_room(9)];
/// assert_eq!(entries::storacle_build(b"abcacdace", &mut tables), Ok(9));
///
/// // row 1 has the column of each state's letter, the first state that has it; rows 2 to 11 have where the arrows of states 0 to 9 lead, 0 for none
/// let row = |number: usize| &tables[10 * number..10 * (number + 1)];
/// assert_eq!(row(1), [0, 1, 2, 3, 1, 3, 6, 1, 3, 9]);
/// // from state 0 on `a`, `b`, `c`, `d` and `e`; from state 3 on `a`, `d` and `e`
/// assert_eq!(row(2), [0, 1, 2, 3, 0, 0, 6, 0, 0, 9]);
/// assert_eq!(row(2 + 3), [0, 4, 0, 0, 0, 0, 6, 0, 0, 9]);
/// assert_eq!((2..=11).flat_map(row).filter(|target| **target != 0).count(), 16);
/// ```
///
/// # Errors
///
/// The refusals 1, 2 and 3: 2 where there are more than [`LONGEST_STORACLE`](crate::LONGEST_STORACLE) letters, 3 where there are fewer entries. They change
/// nothing.
pub fn storacle_build(word: &[u8], tables: &mut [u16]) -> Result<usize, Refusal> {
    let mut m = 0;
    // SAFETY: `word` and `tables` are slices, handed over with their lengths, and `m` is a local: what is written is borrowed here alone.
    let said = unsafe { marks_storacle_build(word.as_ptr(), word.len(), tables.as_mut_ptr(), tables.len(), &raw mut m) };
    told(said, m).map(size)
}

/// The oracle of a word as compact rows, a second form of what [`build`] makes, with the same arrows. The first 4(m+1) words of `sets` have for each state a
/// set of 256 bits, the letters on which an arrow leaves it; the first 10(m+1) entries of `targets` have where they lead, all in one row: the target's place
/// is found by counting the letters of the set that are below. The answer is m.
///
/// ```
/// use marks::{compact_sets_room, compact_targets_room, entries};
///
/// let (mut sets, mut targets) = ([0; compact_sets_room(9)], [0; compact_targets_room(9)]);
/// assert_eq!(entries::compact_build(b"abcacdace", &mut sets, &mut targets), Ok(9));
///
/// // the arrows from state 3 are on `a`, `d` and `e`, and eight leave the states before it
/// let (n, x) = (10, 3);
/// assert_eq!(sets[4 * x..4 * x + 4], [0, 1 << (b'a' - 64) | 1 << (b'd' - 64) | 1 << (b'e' - 64), 0, 0]);
/// assert_eq!(targets[4 * n + 4 * x], 8);
/// // one letter of the set is below `d`, so that of `d` is the second of its targets, which are 4, 6 and 9
/// assert_eq!(targets[8 * n + 8 + 1], 6);
/// ```
///
/// # Errors
///
/// The refusals 1, 2 and 3, the last where there are fewer words or fewer entries; they change nothing.
pub fn compact_build(word: &[u8], sets: &mut [u64], targets: &mut [u16]) -> Result<usize, Refusal> {
    let mut m = 0;
    // SAFETY: `word`, `sets` and `targets` are slices, handed over with their lengths, and `m` is a local: what is written is borrowed here alone.
    let said = unsafe {
        marks_compact_build(word.as_ptr(), word.len(), sets.as_mut_ptr(), sets.len(), targets.as_mut_ptr(), targets.len(), &raw mut m)
    };
    told(said, m).map(size)
}

/// The same as [`search`], with the compact rows of the word's mirror, which take the first 4(m+1) words of `sets` and the first 10(m+1) entries of `targets`:
/// finds, count and letters are those of [`search`]. It is for little stack: in a long text it prepares some 3 KiB there, where [`search`] prepares some 42.
///
/// ```
/// use marks::entries::{compact_search, Tally};
/// use marks::{compact_sets_room, compact_targets_room};
///
/// let (mut sets, mut targets, mut finds) = ([0; compact_sets_room(3)], [0; compact_targets_room(3)], [0; 2]);
/// let told = compact_search(b"aba", b"ababa", &mut sets, &mut targets, &mut finds)?;
/// assert_eq!(told, Tally { count: 2, letters: 6 });
/// assert_eq!(finds, [0, 2]);
/// # Ok::<(), marks::Refusal>(())
/// ```
///
/// # Errors
///
/// The refusals 1, 2, 4 and 3, which change nothing.
pub fn compact_search(word: &[u8], text: &[u8], sets: &mut [u64], targets: &mut [u16], finds: &mut [u32]) -> Result<Tally, Refusal> {
    let mut tally = Tally::default();
    // SAFETY: `word`, `text`, `sets`, `targets` and `finds` are slices, handed over with their lengths, and the tally is a local: what is written is borrowed
    // here alone.
    let said = unsafe {
        marks_compact_search(
            word.as_ptr(),
            word.len(),
            text.as_ptr(),
            text.len(),
            sets.as_mut_ptr(),
            sets.len(),
            targets.as_mut_ptr(),
            targets.len(),
            finds.as_mut_ptr(),
            finds.len(),
            &raw mut tally.count,
            &raw mut tally.letters,
        )
    };
    told(said, tally)
}

/// A searcher for a word of 1 to 64 bytes that has taken nothing, in the first [`SEARCHER`](crate::SEARCHER) bytes of `searcher`.
///
/// # Errors
///
/// The refusals 1, 2 and 3, which change nothing.
pub fn open(word: &[u8], searcher: &mut [u8]) -> Result<(), Refusal> {
    // SAFETY: `word` and `searcher` are slices, handed over with their lengths; what is written is borrowed here alone.
    let said = unsafe { marks_open(word.as_ptr(), word.len(), searcher.as_mut_ptr(), searcher.len()) };
    told(said, ())
}

/// Takes the next piece of a stream: the first [`SEARCHER`](crate::SEARCHER) bytes of `searcher` become the searcher after it. `finds` gets the starts of the
/// finds that end in the piece, counted from the stream's first byte, the first of them, as many as fit; the answer is how many there are, one for each byte
/// of the piece at most.
///
/// # Errors
///
/// The refusals 16 and 4, which change nothing.
pub fn take(searcher: &mut [u8], piece: &[u8], finds: &mut [u32]) -> Result<usize, Refusal> {
    let mut count = 0;
    // SAFETY: `searcher`, `piece` and `finds` are slices, handed over with their lengths, and `count` is a local: what is written is borrowed here alone.
    let said = unsafe {
        marks_take(searcher.as_mut_ptr(), searcher.len(), piece.as_ptr(), piece.len(), finds.as_mut_ptr(), finds.len(), &raw mut count)
    };
    told(said, count).map(size)
}

/// The rides in a text by their FIT headers: where each begins in `starts`, and in `kinds` whether header, data and check end within the text, as the number
/// of its [`RideKind`](crate::RideKind). Both get the first of them, rising, as many as fit the shorter one; what is behind them stays as it was. The first
/// [`RIDE_TABLES`](crate::RIDE_TABLES) entries of `tables` are left as by [`search`] for `.FIT`. The answer is how many are listed, fitting or not.
///
/// A header is 12 or 14 bytes that are wholly inside the text: its first byte is that size, bytes 4 to 7 say how many bytes of data follow it, low byte first,
/// and bytes 8 to 11 are `.FIT`; behind the data is a check of two bytes. What it declares decides its kind and nothing else, and the check is not tested.
///
/// ```
/// use marks::{entries::salvage, RideKind, RIDE_TABLES};
///
/// // a ride of three bytes, and one that declares four billion of them
/// let text = b"\x0c\x10\0\0\x03\0\0\0.FITabc##\x0c\x10\0\0\xff\xff\xff\xff.FITab";
/// let (mut tables, mut starts, mut kinds) = ([0; RIDE_TABLES], [9; 3], [9; 3]);
/// assert_eq!(salvage(text, &mut tables, &mut starts, &mut kinds)?, 2);
/// assert_eq!(starts, [0, 17, 9]);
/// assert_eq!(kinds, [RideKind::Whole as u8, RideKind::Cut as u8, 9]);
/// # Ok::<(), marks::Refusal>(())
/// ```
///
/// # Errors
///
/// The refusals 4 and 3, the latter where there are fewer entries than [`RIDE_TABLES`](crate::RIDE_TABLES); they change nothing.
pub fn salvage(text: &[u8], tables: &mut [u16], starts: &mut [u32], kinds: &mut [u8]) -> Result<usize, Refusal> {
    let mut count = 0;
    // SAFETY: `text`, `tables`, `starts` and `kinds` are slices, handed over with their lengths, and `count` is a local: what is written is borrowed here
    // alone.
    let said = unsafe {
        marks_salvage(
            text.as_ptr(),
            text.len(),
            tables.as_mut_ptr(),
            tables.len(),
            starts.as_mut_ptr(),
            starts.len(),
            kinds.as_mut_ptr(),
            kinds.len(),
            &raw mut count,
        )
    };
    told(said, count).map(size)
}
