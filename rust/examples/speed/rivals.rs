//! The searches of others: the C library's memmem and, where the system's packages have it, the memchr crate. Both are asked for every find, overlaps included.

extern "C" {
    fn memmem(hay: *const u8, hay_len: usize, needle: *const u8, needle_len: usize) -> *const u8;
}

/// Every find counted, with a function that finds the first one from a place on.
fn count(mut first_from: impl FnMut(usize) -> Option<usize>) -> u64 {
    let (mut at, mut count) = (0, 0);
    while let Some(found) = first_from(at) {
        count += 1;
        at = found + 1;
    }
    count
}

/// The first find of memmem from a place on, which is not behind the text.
pub fn memmem_from(word: &[u8], text: &[u8], at: usize) -> Option<usize> {
    // SAFETY: the rest of the text and the word are whole slices.
    let found = unsafe { memmem(text[at..].as_ptr(), text.len() - at, word.as_ptr(), word.len()) };
    (!found.is_null()).then(|| found as usize - text.as_ptr() as usize)
}

pub fn memmem_count(word: &[u8], text: &[u8]) -> u64 {
    count(|at| memmem_from(word, text, at))
}

#[cfg(with_memchr)]
pub fn memchr_count(word: &[u8], text: &[u8]) -> Option<u64> {
    let finder = memchr::memmem::Finder::new(word);
    Some(count(|at| finder.find(&text[at..]).map(|found| at + found)))
}

#[cfg(not(with_memchr))]
pub fn memchr_count(_: &[u8], _: &[u8]) -> Option<u64> {
    None
}
