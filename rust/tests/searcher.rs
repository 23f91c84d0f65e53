//! Opening and taking through the entries as Rust sees them: which bytes change, what is refused and in which order, and that exactly those searchers are taken
//! that opening and taking can make.
use marks::entries::{open, take};
use marks::{Refusal, LONGEST_STREAMED, LONGEST_TEXT, SEARCHER};

/// Bytes behind the searcher, and entries of the list, as they were before the call.
const BEHIND: u8 = 0xA5;
const UNWRITTEN: u32 = 0xDEAD_BEEF;

/// A searcher for a word, and bytes behind it.
type Lent = [u8; SEARCHER + 3];

fn opened(word: &[u8]) -> Lent {
    let mut lent = [BEHIND; SEARCHER + 3];
    open(word, &mut lent).unwrap();
    assert_eq!(lent[SEARCHER..], [BEHIND; 3]);
    lent
}

/// The length of the longest beginning of a word, shorter than the word, that is an end of it.
fn longest_border(word: &[u8]) -> usize {
    (0..word.len()).rev().find(|&k| word.ends_with(&word[..k])).unwrap()
}

/// The searcher of a word that has taken so many bytes and keeps so many letters.
fn searcher(word: &[u8], kept: usize, taken: usize) -> [u8; SEARCHER] {
    let mut bytes = [0; SEARCHER];
    bytes[..word.len()].copy_from_slice(word);
    for i in 1..=word.len() {
        bytes[63 + i] = longest_border(&word[..i]) as u8;
    }
    bytes[128] = word.len() as u8;
    bytes[129] = kept as u8;
    bytes[130..].copy_from_slice(&(taken as u32).to_le_bytes());
    bytes
}

/// The word, kept letters and taken bytes of a searcher, if opening and taking can make it.
fn made(bytes: &[u8]) -> Option<(&[u8], usize, usize)> {
    let (m, kept) = (usize::from(bytes[128]), usize::from(bytes[129]));
    let taken = u32::from_le_bytes(bytes[130..134].try_into().unwrap()) as usize;
    let fits = (1..=LONGEST_STREAMED).contains(&m) && kept < m && kept <= taken && taken <= LONGEST_TEXT;
    (fits && searcher(&bytes[..m], kept, taken) == bytes[..SEARCHER]).then(|| (&bytes[..m], kept, taken))
}

/// What the searcher becomes, and the starts of the finds that end in the piece.
fn after(word: &[u8], kept: usize, taken: usize, piece: &[u8]) -> ([u8; SEARCHER], Vec<u32>) {
    let (m, text) = (word.len(), [&word[..kept], piece].concat());
    let finds = text.windows(m).enumerate().filter(|(_, part)| *part == word).map(|(at, _)| (taken - kept + at) as u32).collect();
    let keeps = (0..m).rev().find(|&k| text.ends_with(&word[..k])).unwrap();
    (searcher(word, keeps, taken + piece.len()), finds)
}

/// Takes a piece and compares everything: the answer, the searcher, the bytes behind it, the list.
fn check(before: &Lent, piece: &[u8], room: usize) {
    let (mut lent, mut list) = (*before, vec![UNWRITTEN; room]);
    let said = take(&mut lent, piece, &mut list);
    let (mut next, mut listed) = (*before, vec![UNWRITTEN; room]);
    let expected = match made(before) {
        None => Err(Refusal::Unmade),
        Some((_, _, taken)) if taken + piece.len() > LONGEST_TEXT => Err(Refusal::LongText),
        Some((word, kept, taken)) => {
            let (searcher, finds) = after(word, kept, taken, piece);
            next[..SEARCHER].copy_from_slice(&searcher);
            listed.iter_mut().zip(&finds).for_each(|(entry, at)| *entry = *at);
            Ok(finds.len())
        }
    };
    assert_eq!((said, lent, list), (expected, next, listed), "{before:?} takes {piece:?}");
}

fn random(seed: &mut u64) -> u64 {
    *seed ^= *seed << 13;
    *seed ^= *seed >> 7;
    *seed ^= *seed << 17;
    *seed >> 11
}

fn random_word(seed: &mut u64) -> Vec<u8> {
    let (m, letters) = (1 + random(seed) as usize % LONGEST_STREAMED, 1 + random(seed) % 3);
    (0..m).map(|_| b'a' + (random(seed) % letters) as u8).collect()
}

/// The same as `searcher`, with bytes behind it.
fn keeping(word: &[u8], kept: usize, taken: usize) -> Lent {
    let mut lent = opened(word);
    lent[..SEARCHER].copy_from_slice(&searcher(word, kept, taken));
    lent
}

#[test]
fn a_searcher_is_what_is_written_of_it() {
    let mut seed = 88172645463325252;
    for _ in 0..300 {
        let word = random_word(&mut seed);
        assert_eq!(opened(&word)[..SEARCHER], searcher(&word, 0, 0));
    }
}

#[test]
fn refused_openings_change_nothing() {
    let mut lent = [BEHIND; SEARCHER];
    let long = [b'a'; LONGEST_STREAMED + 1];
    for (word, room, refusal) in [
        (&b""[..], SEARCHER, Refusal::EmptyWord),
        (&long, SEARCHER, Refusal::LongWord),
        (b"a", SEARCHER - 1, Refusal::ShortRoom),
        (b"a", 0, Refusal::ShortRoom),
        (b"", 0, Refusal::EmptyWord),
        (&long, 0, Refusal::LongWord),
        (&long[1..], SEARCHER - 1, Refusal::ShortRoom),
    ] {
        assert_eq!(open(word, &mut lent[..room]), Err(refusal));
        assert_eq!(lent, [BEHIND; SEARCHER]);
    }
    assert_eq!(open(&long[1..], &mut lent), Ok(()));
}

#[test]
fn a_searcher_of_too_few_bytes_is_refused_with_16() {
    let lent = opened(b"aba");
    for room in 0..SEARCHER {
        let (mut short, mut list) = (lent, [UNWRITTEN; 2]);
        assert_eq!(take(&mut short[..room], b"aba", &mut list), Err(Refusal::Unmade));
        assert_eq!((short, list), (lent, [UNWRITTEN; 2]));
    }
}

#[test]
fn what_a_piece_changes() {
    let mut seed = 362436069;
    for round in 0..3_000 {
        let word = random_word(&mut seed);
        let kept = random(&mut seed) as usize % word.len();
        let taken = [kept, LONGEST_TEXT, LONGEST_TEXT - 200, kept + 1_000][round % 4];
        let n = random(&mut seed) as usize % 200;
        let piece: Vec<u8> = match round % 3 {
            0 => word.iter().cycle().skip(kept).copied().take(n).collect(),
            1 => word.iter().cycle().skip(random(&mut seed) as usize % word.len()).copied().take(n).collect(),
            _ => (0..n).map(|_| b'a' + (random(&mut seed) % 2) as u8).collect(),
        };
        for room in [0, 1, 5, 200] {
            check(&keeping(&word, kept, taken), &piece, room);
        }
    }
}

#[test]
fn every_byte_of_a_searcher_forged() {
    for (word, kept, taken) in [(&b"a"[..], 0, 0), (b"aba", 2, 2), (b"abaab", 1, 70_000), (&[b'a'; LONGEST_STREAMED], 63, LONGEST_TEXT)] {
        let good = keeping(word, kept, taken);
        for place in 0..SEARCHER {
            for value in 0..=255 {
                let mut forged = good;
                forged[place] = value;
                check(&forged, b"", 1);
                check(&forged, b"aab", 2);
            }
        }
    }
}

#[test]
fn several_bytes_of_a_searcher_forged() {
    let mut seed = 521288629;
    for _ in 0..100_000 {
        let word = random_word(&mut seed);
        let mut forged = keeping(&word, random(&mut seed) as usize % word.len(), 100);
        for _ in 0..1 + random(&mut seed) % 3 {
            let place = match random(&mut seed) % 3 {
                0 => random(&mut seed) as usize % word.len(),
                1 => 64 + random(&mut seed) as usize % word.len(),
                _ => 128 + random(&mut seed) as usize % 6,
            };
            forged[place] = [0, 1, 2, b'a', b'b', 63, 64, random(&mut seed) as u8][random(&mut seed) as usize % 8];
        }
        check(&forged, b"abaab", 3);
    }
}

#[test]
fn exactly_16_777_216_bytes_in_all() {
    let mut text = vec![b'a'; LONGEST_TEXT];
    text[..2].copy_from_slice(b"xy");
    text[LONGEST_TEXT - 2..].copy_from_slice(b"xy");
    for pieces in [1, 2, 3, 1_000] {
        let (mut lent, mut list, mut finds) = (opened(b"xy"), [UNWRITTEN; 2], Vec::new());
        for piece in text.chunks(LONGEST_TEXT.div_ceil(pieces)) {
            let count = take(&mut lent, piece, &mut list).unwrap() as usize;
            finds.extend_from_slice(&list[..count]);
        }
        assert_eq!(finds, [0, LONGEST_TEXT as u32 - 2]);
        assert_eq!(lent[..SEARCHER], searcher(b"xy", 0, LONGEST_TEXT));
        let full = lent;
        assert_eq!(take(&mut lent, b"", &mut list), Ok(0));
        assert_eq!(lent, full);
    }
}

#[test]
fn one_byte_more_is_refused_and_16_comes_before_it() {
    let text = vec![b'a'; LONGEST_TEXT + 1];
    for (taken, more) in [(0, LONGEST_TEXT + 1), (1, LONGEST_TEXT), (LONGEST_TEXT - 1, 2), (LONGEST_TEXT, 1), (LONGEST_TEXT, LONGEST_TEXT)]
    {
        let (good, mut list) = (keeping(b"aa", taken.min(1), taken), [UNWRITTEN; 2]);
        let mut lent = good;
        assert_eq!(take(&mut lent, &text[..more], &mut list), Err(Refusal::LongText));
        assert_eq!((lent, list), (good, [UNWRITTEN; 2]));
        for (place, value) in [(0, b'b'), (2, b'a'), (65, 0), (66, 1), (128, 0), (128, 65), (129, 2), (133, 2)] {
            let mut forged = good;
            forged[place] = value;
            let mut lent = forged;
            assert_eq!(take(&mut lent, &text[..more], &mut list), Err(Refusal::Unmade));
            assert_eq!((lent, list), (forged, [UNWRITTEN; 2]));
        }
        assert_eq!(take(&mut lent[..SEARCHER - 1], &text[..more], &mut list), Err(Refusal::Unmade));
    }
}
