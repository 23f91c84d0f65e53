//! The listing of rides in plain safe Rust: byte by byte, as one would first write it; and from find to find of another's search.

/// What rides are listed in, the first of them.
pub struct Lists {
    pub starts: Vec<u32>,
    pub kinds: Vec<u8>,
}

impl Lists {
    pub fn new(most: usize) -> Lists {
        Lists { starts: vec![0; most], kinds: vec![0; most] }
    }
}

/// Lists each ride of a text. How many there are.
pub fn list(text: &[u8], lists: &mut Lists) -> u64 {
    let mut count = 0;
    for q in 8..text.len() {
        if text[q..].starts_with(b".FIT") {
            note(text, q, lists, &mut count);
        }
    }
    count as u64
}

/// The same with a search that finds the first `.FIT` from a place on.
pub fn list_by(mut first_from: impl FnMut(usize) -> Option<usize>, text: &[u8], lists: &mut Lists) -> u64 {
    let (mut count, mut at) = (0, 8);
    while let Some(q) = first_from(at) {
        note(text, q, lists, &mut count);
        at = q + 1;
    }
    count as u64
}

/// Lists the ride of a `.FIT`, where that is in a header which is wholly there.
fn note(text: &[u8], q: usize, lists: &mut Lists, count: &mut usize) {
    let (start, header) = (q - 8, usize::from(text[q - 8]));
    if header != 12 && header != 14 || start + header > text.len() {
        return;
    }
    let size = u32::from_le_bytes([text[q - 4], text[q - 3], text[q - 2], text[q - 1]]);
    if *count < lists.starts.len().min(lists.kinds.len()) {
        lists.starts[*count] = start as u32;
        lists.kinds[*count] = u8::from((start + header + 2) as u64 + u64::from(size) <= text.len() as u64);
    }
    *count += 1;
}
