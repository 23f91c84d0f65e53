//! A word to be found in a text that comes in pieces.

use crate::{entries, shown::Shown, Refusal, Taken, LONGEST_TEXT, SEARCHER};
use std::{
    fmt,
    io::{self, Write},
};

/// How many finds are listed at a time.
const LIST: usize = 256;

/// The most that is given to the entry at a time, so that its test of the searcher does not show.
const LONGEST_PART: usize = 1 << 16;

/// Where in a searcher the length of its word stands, and that of the word's beginning which ends with the last byte taken.
const LENGTH: usize = 128;
const KEPT: usize = 129;

/// A word of 1 to 64 bytes, looked for in a text of any length that comes in pieces of any length.
///
/// However the text is cut, each find is told once, with the piece in which it ends, by its start counted from the first byte of all. A stream keeps nothing of
/// the text, owns what it does keep, little more than a kilobyte, and has no heap. A clone goes on by itself from the same place.
///
/// ```
/// use marks::Stream;
///
/// let mut stream = Stream::new(b"RIDE")?;
/// assert_eq!(stream.take(b"..RIDE..R").collect::<Vec<_>>(), [2]);
/// assert_eq!(stream.take(b"").next(), None);
/// assert_eq!(stream.take(b"IDE").collect::<Vec<_>>(), [8]);
/// assert_eq!((stream.count(), stream.taken()), (2, 12));
/// # Ok::<(), marks::Refusal>(())
/// ```
#[derive(Clone)]
pub struct Stream {
    searcher: [u8; SEARCHER],
    /// Where in the stream the first byte stands that the searcher has taken.
    base: u64,
    count: u64,
    list: [u32; LIST],
    /// How many bytes the next part has at most whose finds are listed.
    part: usize,
}

impl Stream {
    /// A stream that has taken nothing, for a word.
    ///
    /// ```
    /// use marks::{Refusal, Stream, LONGEST_STREAMED};
    ///
    /// assert_eq!(Stream::new("").unwrap_err(), Refusal::EmptyWord);
    /// assert_eq!(Stream::new([0; LONGEST_STREAMED + 1]).unwrap_err(), Refusal::LongWord);
    /// assert!(Stream::new([0; LONGEST_STREAMED]).is_ok());
    /// ```
    ///
    /// # Errors
    ///
    /// [`Refusal::EmptyWord`] and [`Refusal::LongWord`], where there are fewer than 1 or more than 64 bytes.
    pub fn new(word: impl AsRef<[u8]>) -> Result<Stream, Refusal> {
        let mut searcher = [0; SEARCHER];
        entries::open(word.as_ref(), &mut searcher)?;
        Ok(Stream { searcher, base: 0, count: 0, list: [0; LIST], part: LONGEST_PART })
    }

    /// Takes the next piece: the starts of the finds that end in it, rising, overlaps included. However many there are, none is missed. Where not all of them
    /// are asked for, the whole piece is taken all the same.
    ///
    /// ```
    /// # use marks::Stream;
    /// let mut stream = Stream::new(b"aa")?;
    /// assert_eq!(stream.take(b"aaaa").next(), Some(0));
    /// assert_eq!(stream.take(b"aa").collect::<Vec<_>>(), [3, 4]);
    /// # Ok::<(), marks::Refusal>(())
    /// ```
    pub fn take<'a>(&'a mut self, piece: &'a [u8]) -> Taken<'a> {
        Taken::new(self, piece)
    }

    /// The stream as something to write to that tells of each find.
    ///
    /// ```
    /// # use marks::Stream;
    /// let mut body: &[u8] = b"..RIDE..RIDE";
    /// let mut stream = Stream::new(b"RIDE")?;
    /// let mut places = Vec::new();
    /// std::io::copy(&mut body, &mut stream.each(|at| places.push(at)))?;
    /// assert_eq!(places, [2, 8]);
    /// # Ok::<(), Box<dyn std::error::Error>>(())
    /// ```
    pub fn each<F: FnMut(u64)>(&mut self, tell: F) -> Each<'_, F> {
        Each { stream: self, tell }
    }

    /// The word that is looked for.
    #[must_use]
    pub fn word(&self) -> &[u8] {
        &self.searcher[..usize::from(self.searcher[LENGTH])]
    }

    /// How many finds there were so far.
    #[must_use]
    pub fn count(&self) -> u64 {
        self.count
    }

    /// How many bytes were taken so far.
    #[must_use]
    pub fn taken(&self) -> u64 {
        self.base + self.searched() as u64
    }

    /// Takes bytes without listing their finds.
    pub(crate) fn pass(&mut self, bytes: &[u8]) {
        for part in bytes.chunks(LONGEST_PART) {
            self.make_room(part.len());
            self.count += self.take_part(part, 0) as u64;
        }
    }

    /// Takes so much of the front that all finds which end there fit the list. How many bytes, and how many finds.
    ///
    /// Where there are too many finds, it goes back to before the part and takes one that is no longer than the list, for each byte ends one find at most.
    /// Parts grow again while they fill a quarter of the list at most. So no more bytes are taken again than were taken, but for the first part.
    pub(crate) fn take_listed(&mut self, bytes: &[u8]) -> (usize, usize) {
        let mut part = &bytes[..bytes.len().min(self.part)];
        self.make_room(part.len());
        let before = (part.len() > LIST).then_some(self.searcher);
        let mut found = self.take_part(part, LIST);
        if let Some(before) = before.filter(|_| found > LIST) {
            (self.searcher, self.part) = (before, LIST);
            part = &part[..LIST];
            found = self.take_part(part, LIST);
        } else if part.len() == self.part && found <= LIST / 4 {
            self.part = LONGEST_PART.min(2 * self.part);
        }
        self.count += found as u64;
        (part.len(), found)
    }

    /// The start of a find that is listed.
    #[inline]
    pub(crate) fn listed(&self, place: usize) -> u64 {
        self.base + u64::from(self.list[place])
    }

    /// Takes a part that the searcher has room for, the first finds in the list, up to `most` of them. How many end in it.
    fn take_part(&mut self, part: &[u8], most: usize) -> usize {
        entries::take(&mut self.searcher, part, &mut self.list[..most])
            .expect("a stream's searcher was made by opening and taking, and has room")
    }

    /// Where the searcher has no room for so many bytes more: opens another one, and feeds it the word's beginning that this one keeps, with which the bytes
    /// taken end. Nothing else of them matters, so it goes on as this one would.
    fn make_room(&mut self, bytes: usize) {
        if bytes <= LONGEST_TEXT - self.searched() {
            return;
        }
        let kept = usize::from(self.searcher[KEPT]);
        let mut other = Stream::new(self.word()).expect("a stream's word is within the limit");
        other.pass(&self.word()[..kept]);
        self.base = self.taken() - kept as u64;
        self.searcher = other.searcher;
    }

    /// How many bytes the searcher has taken.
    fn searched(&self) -> usize {
        let [.., a, b, c, d] = self.searcher;
        u32::from_le_bytes([a, b, c, d]) as usize
    }
}

impl fmt::Debug for Stream {
    fn fmt(&self, f: &mut fmt::Formatter<'_>) -> fmt::Result {
        write!(f, "Stream({}, {} taken, {} found)", Shown(self.word()), self.taken(), self.count)
    }
}

/// A stream as bytes, for one whose pieces come to several machines.
impl Stream {
    /// How many bytes a stream is kept in.
    pub const BYTES: usize = SEARCHER + 16;

    /// The searcher's bytes as the entries have them; then, eight bytes each, low byte first, the place in the stream where that searcher began, and how many
    /// finds there were so far.
    #[must_use]
    pub fn to_bytes(&self) -> [u8; Stream::BYTES] {
        let mut bytes = [0; Stream::BYTES];
        bytes[..SEARCHER].copy_from_slice(&self.searcher);
        bytes[SEARCHER..SEARCHER + 8].copy_from_slice(&self.base.to_le_bytes());
        bytes[SEARCHER + 8..].copy_from_slice(&self.count.to_le_bytes());
        bytes
    }

    /// The stream that was kept in these bytes. Any bytes may be handed over: they are refused where there are not [`BYTES`](Stream::BYTES) of them, and where
    /// no opening and taking can have made the searcher. The two numbers behind it are believed, but for more finds than bytes and for more than 2^63 bytes.
    ///
    /// ```
    /// use marks::{Refusal, Stream};
    ///
    /// let mut stream = Stream::new(b"RIDE")?;
    /// stream.take(b"..RIDE..R");
    /// let mut kept = stream.to_bytes();
    /// assert_eq!(Stream::from_bytes(&kept)?.take(b"IDE").collect::<Vec<_>>(), [8]);
    /// kept[128] = 65; // a word of 65 bytes
    /// assert_eq!(Stream::from_bytes(&kept).unwrap_err(), Refusal::Unmade);
    /// # Ok::<(), Refusal>(())
    /// ```
    ///
    /// # Errors
    ///
    /// [`Refusal::Unmade`], where the bytes are no stream's.
    pub fn from_bytes(bytes: &[u8]) -> Result<Stream, Refusal> {
        let (searcher, numbers) = bytes.split_first_chunk().ok_or(Refusal::Unmade)?;
        let (base, count) = numbers.split_first_chunk().ok_or(Refusal::Unmade)?;
        let (base, count) = (u64::from_le_bytes(*base), u64::from_le_bytes(count.try_into().map_err(|_| Refusal::Unmade)?));
        let mut stream = Stream { searcher: *searcher, base, count, list: [0; LIST], part: LONGEST_PART };
        entries::take(&mut stream.searcher, &[], &mut [])?;
        match base.checked_add(stream.searched() as u64) {
            Some(taken) if taken <= 1 << 63 && count <= taken => Ok(stream),
            _ => Err(Refusal::Unmade),
        }
    }
}

/// Takes what is written and counts its finds. It never fails.
///
/// ```
/// # use marks::Stream;
/// let mut body: &[u8] = b"..RIDE..RIDE";
/// let mut stream = Stream::new(b"RIDE")?;
/// std::io::copy(&mut body, &mut stream)?;
/// assert_eq!((stream.count(), stream.taken()), (2, 12));
/// # Ok::<(), Box<dyn std::error::Error>>(())
/// ```
impl Write for Stream {
    fn write(&mut self, piece: &[u8]) -> io::Result<usize> {
        self.pass(piece);
        Ok(piece.len())
    }

    fn flush(&mut self) -> io::Result<()> {
        Ok(())
    }
}

/// Takes what is written, and tells of each find by its start. It never fails. Made by [`Stream::each`].
#[derive(Debug)]
pub struct Each<'a, F> {
    stream: &'a mut Stream,
    tell: F,
}

impl<F: FnMut(u64)> Write for Each<'_, F> {
    fn write(&mut self, piece: &[u8]) -> io::Result<usize> {
        self.stream.take(piece).for_each(&mut self.tell);
        Ok(piece.len())
    }

    fn flush(&mut self) -> io::Result<()> {
        Ok(())
    }
}
