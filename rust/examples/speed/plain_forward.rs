//! The forward search along the word's borders in plain safe Rust, after Knuth, Morris and Pratt: what a careful engineer would write.

/// For each beginning of the word, the length of its longest border: the longest word, shorter than it, that it begins and ends with.
pub fn borders(word: &[u8]) -> Vec<usize> {
    let mut borders = vec![0; word.len()];
    let mut kept = 0;
    for i in 1..word.len() {
        while kept > 0 && word[kept] != word[i] {
            kept = borders[kept - 1];
        }
        if word[kept] == word[i] {
            kept += 1;
        }
        borders[i] = kept;
    }
    borders
}

/// How often the word stands in the text. The list gets the first places, as many as fit.
pub fn count(word: &[u8], text: &[u8], list: &mut [u32]) -> u64 {
    let borders = borders(word);
    let (mut kept, mut count) = (0, 0);
    'letters: for (i, &letter) in text.iter().enumerate() {
        while word[kept] != letter {
            if kept == 0 {
                continue 'letters;
            }
            kept = borders[kept - 1];
        }
        kept += 1;
        if kept == word.len() {
            if let Some(entry) = list.get_mut(count) {
                *entry = (i + 1 - word.len()) as u32;
            }
            count += 1;
            kept = borders[kept - 1];
        }
    }
    count as u64
}
