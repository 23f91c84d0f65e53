//! The backward search in plain safe Rust, over the oracle of the mirrored word with a full table of 256 columns: what a careful engineer would write.

use crate::plain_forward::borders;

pub struct Plain {
    table: Vec<[u16; 256]>,
    m: usize,
    /// How many places the window moves after a find.
    after_find: usize,
}

impl Plain {
    /// The search whose window moves by m less the word's longest border after a find.
    pub fn new(word: &[u8]) -> Self {
        Self::moving(word, word.len() - borders(word)[word.len() - 1])
    }

    /// The search whose window moves so many places after a find.
    pub fn moving(word: &[u8], after_find: usize) -> Self {
        let m = word.len();
        let mut table = vec![[0u16; 256]; m + 1];
        let mut supply = vec![usize::MAX; m + 1];
        for t in 0..m {
            let c = word[m - 1 - t] as usize;
            let mut k = supply[t];
            table[t][c] = (t + 1) as u16;
            while k != usize::MAX && table[k][c] == 0 {
                table[k][c] = (t + 1) as u16;
                k = supply[k];
            }
            supply[t + 1] = if k == usize::MAX { 0 } else { table[k][c] as usize };
        }
        Plain { table, m, after_find }
    }

    /// How often the word stands in the text, and the letters read.
    pub fn count(&self, text: &[u8]) -> (u64, u64) {
        let (m, n) = (self.m, text.len());
        let (mut s, mut count, mut letters) = (0, 0, 0);
        while s + m <= n {
            let window = &text[s..s + m];
            let mut state = 0usize;
            let mut left = m;
            let next = loop {
                if left == 0 {
                    count += 1;
                    letters += m as u64;
                    break s + self.after_find;
                }
                left -= 1;
                state = self.table[state][window[left] as usize] as usize;
                if state == 0 {
                    letters += (m - left) as u64;
                    break s + left + 1;
                }
            };
            s = next;
        }
        (count, letters)
    }
}
