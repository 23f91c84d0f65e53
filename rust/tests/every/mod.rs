//! Every word of a kind.

/// Of so many letters, over so many from `a` on.
pub fn words_of(length: usize, letters: usize) -> impl Iterator<Item = Vec<u8>> {
    (0..letters.pow(length as u32))
        .map(move |number| (0..length as u32).map(|i| b'a' + (number / letters.pow(i) % letters) as u8).collect())
}
