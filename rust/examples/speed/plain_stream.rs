//! A search of a text in pieces in plain safe Rust, along the borders of the word, one byte after the other: what a careful engineer would write. It tests
//! nothing.

use marks::LONGEST_STREAMED;

pub struct PlainStream {
    word: [u8; LONGEST_STREAMED],
    m: usize,
    /// For each number of letters short of the whole word, the longest border of so many.
    borders: [u8; LONGEST_STREAMED],
    /// That of the whole word.
    border: u8,
    /// How many letters of the word the text so far ends with.
    kept: usize,
    taken: u64,
}

impl PlainStream {
    pub fn new(letters: &[u8]) -> Self {
        let m = letters.len();
        let (mut word, mut borders) = ([0; LONGEST_STREAMED], [0; LONGEST_STREAMED]);
        word[..m].copy_from_slice(letters);
        let mut border = 0u8;
        for i in 1..m {
            borders[i] = border;
            while border > 0 && word[usize::from(border)] != word[i] {
                border = borders[usize::from(border)];
            }
            border += u8::from(word[usize::from(border)] == word[i]);
        }
        PlainStream { word, m, borders, border, kept: 0, taken: 0 }
    }

    /// Takes a piece and tells of each find that ends in it by its start in the text.
    #[inline(never)]
    pub fn each(&mut self, piece: &[u8], mut tell: impl FnMut(u64)) {
        let (word, borders, m) = (&self.word, &self.borders, self.m);
        let (mut kept, first_end) = (self.kept, self.taken + 1);
        'bytes: for (i, &byte) in piece.iter().enumerate() {
            // the remainders are no work, and spare the test whether the place is in the array
            while word[kept % LONGEST_STREAMED] != byte {
                if kept == 0 {
                    continue 'bytes;
                }
                kept = usize::from(borders[kept % LONGEST_STREAMED]);
            }
            kept += 1;
            if kept == m {
                tell(first_end + i as u64 - m as u64);
                kept = usize::from(self.border);
            }
        }
        self.kept = kept;
        self.taken += piece.len() as u64;
    }

    /// Takes a piece, the first finds that end in it into the list, as many as fit. How many there are.
    pub fn take(&mut self, piece: &[u8], list: &mut [u32]) -> u64 {
        let mut count = 0;
        self.each(piece, |at| {
            if let Some(entry) = list.get_mut(count) {
                *entry = at as u32;
            }
            count += 1;
        });
        count as u64
    }
}
