//! A text of any length in parts. A part begins with the end of the one before it, one letter less than the mark has: so a mark across a seam is whole in the
//! later part, and none is whole in both. A part is what one read gives, so that what comes slowly is searched as it comes, and memory stays flat; but it has
//! an eighth as many new letters as the mark has at least, so that a source cannot make the search go over those letters again for every letter that it
//! gives.

use std::io::{self, ErrorKind, Read};

/// The most that is read at a time; where that is more, so much for each letter of the mark, as the table of a long mark takes its time and is made for each
/// part.
const LEAST_PART: usize = 1 << 18;
const PART_FOR_A_LETTER: usize = 1 << 9;

/// The least that a part has new: the mark's letters divided by this.
const NEW_OF_LETTERS: usize = 8;

pub(crate) struct Parts<R> {
    source: R,
    room: Vec<u8>,
    /// How many letters a part has in common with the next.
    common: usize,
    /// How many letters of a part are new at least, but for the last.
    least: usize,
    start: u64,
    filled: usize,
    /// How many letters of the part at hand were in the one before it too.
    kept: usize,
    /// Whether the source has ended, and by which error, until that was told.
    ended: bool,
    failed: Option<io::Error>,
}

impl<R: Read> Parts<R> {
    /// The parts for a mark of so many letters, at least one; or for headers of rides, where the longest has so many.
    pub fn new(source: R, letters: usize) -> Parts<R> {
        let (common, part) = (letters - 1, LEAST_PART.max(PART_FOR_A_LETTER * letters));
        let least = letters.div_ceil(NEW_OF_LETTERS);
        Parts { source, room: vec![0; common + part], common, least, start: 0, filled: 0, kept: 0, ended: false, failed: None }
    }

    /// Goes on to the next part. Whether there is one; else nothing is at hand in which a mark could stand. What came before an error is a part, too.
    pub fn next_part(&mut self) -> io::Result<bool> {
        let kept = self.filled.min(self.common);
        self.room.copy_within(self.filled - kept..self.filled, 0);
        self.start += (self.filled - kept) as u64;
        (self.filled, self.kept) = (kept, kept);
        while !self.ended && self.filled - kept < self.least {
            match read(&mut self.source, &mut self.room[self.filled..]) {
                Ok(more) => (self.filled, self.ended) = (self.filled + more, more == 0),
                Err(error) => (self.failed, self.ended) = (Some(error), true),
            }
        }
        match self.failed.take_if(|_| self.filled == kept) {
            Some(error) => Err(error),
            None => Ok(self.filled > kept),
        }
    }

    /// How many letters a part has at most.
    pub fn longest(&self) -> usize {
        self.room.len()
    }

    /// The part at hand. There is none before the first.
    pub fn at_hand(&self) -> &[u8] {
        &self.room[..self.filled]
    }

    /// How many of its first letters were in the part before it too.
    pub fn kept(&self) -> usize {
        self.kept
    }

    /// The place of its first letter.
    pub fn start(&self) -> u64 {
        self.start
    }

    /// How many letters have been read.
    pub fn read(&self) -> u64 {
        self.start + self.filled as u64
    }
}

/// Reads once, however often that is interrupted.
pub(crate) fn read(source: &mut impl Read, room: &mut [u8]) -> io::Result<usize> {
    loop {
        match source.read(room) {
            Err(error) if error.kind() == ErrorKind::Interrupted => {}
            Ok(more) if more > room.len() => return Err(io::Error::other("the source says that it read more than there was room for")),
            other => return other,
        }
    }
}

#[cfg(test)]
mod tests {
    use crate::Mark;
    use std::io::{self, ErrorKind, Read};

    /// Gives so many letters at a time, and is interrupted before each.
    struct Slow<'a>(&'a [u8], usize, bool);

    impl Read for Slow<'_> {
        fn read(&mut self, room: &mut [u8]) -> io::Result<usize> {
            self.2 = !self.2;
            if self.2 {
                return Err(ErrorKind::Interrupted.into());
            }
            let n = self.1.min(room.len());
            (&mut self.0).take(n as u64).read(room)
        }
    }

    #[test]
    fn no_find_is_lost_or_doubled_wherever_the_seams_are() {
        let text: Vec<u8> = (0..3_000u32).map(|i| (i * i / 5 % 2) as u8).collect();
        for letters in [1, 2, 5, 17, 200] {
            let word = &text[700..700 + letters];
            let plain: Vec<u64> = (0..).zip(text.windows(letters)).filter(|(_, part)| *part == word).map(|(at, _)| at).collect();
            for piece in [1, 2, 3, 16, 17, 199, 200, 201, 5_000] {
                let mark = Mark::new(word).unwrap();
                let mut finds = mark.find_in(Slow(&text, piece, false));
                let found: Vec<u64> = finds.by_ref().map(Result::unwrap).collect();
                assert_eq!(found, plain, "{letters} letters, {piece} at a time");
                assert_eq!(finds.read(), text.len() as u64);
                assert_eq!(mark.find_in(Slow(&text, piece, false)).tally().unwrap().count, plain.len() as u64);
            }
        }
    }
}
