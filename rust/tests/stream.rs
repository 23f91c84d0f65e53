//! A stream against the search of whole texts: no find missed or doubled, however the text is cut, however many there are, and however long it is.
mod chance;

use chance::{random, random_bytes};
use marks::{Mark, Refusal, Stream, LONGEST_STREAMED, LONGEST_TEXT};
use std::{
    fmt::Debug,
    io::{self, Read, Write},
};

/// The finds in the whole text, by the other search.
fn whole(word: &[u8], text: &[u8]) -> Vec<u64> {
    Mark::new(word).unwrap().find_iter(text).map(|at| at as u64).collect()
}

/// Takes the text in pieces, each of so many bytes as the next length says, and what is left at last. Each piece must tell of the finds that end in it.
fn take_in_pieces(stream: &mut Stream, text: &[u8], expected: &[u64], mut length: impl FnMut() -> Option<usize>) {
    let (start, m) = (stream.taken(), stream.word().len() as u64);
    let (mut rest, mut told) = (text, stream.count() as usize);
    loop {
        let (piece, behind) = rest.split_at(length().unwrap_or(rest.len()).min(rest.len()));
        let finds: Vec<u64> = stream.take(piece).collect();
        let end = start + (text.len() - behind.len()) as u64;
        let now = told + expected[told..].iter().take_while(|at| *at + m <= end).count();
        assert_eq!(finds, expected[told..now], "word {:?}, up to {end}", stream.word());
        assert_eq!((stream.taken(), stream.count()), (end, now as u64));
        if behind.is_empty() {
            return assert_eq!(now, expected.len());
        }
        (rest, told) = (behind, now);
    }
}

/// The lengths of the pieces of a text that is cut behind those bytes whose bit is set, with an empty piece at each cut.
fn lengths(cuts: u32, n: usize) -> impl Iterator<Item = usize> {
    let mut start = 0;
    let ends = (1..n).filter(move |end| cuts >> (end - 1) & 1 == 1);
    ends.flat_map(move |end| [end - std::mem::replace(&mut start, end), 0])
}

#[test]
fn every_cutting_of_short_texts() {
    let texts = ["abababababab", "aaaaaaaaaaaa", "abaababaabaa", "aabaabaaabab", "bbabbbabbabb"];
    let words = (1..=4).flat_map(|m| (0..1u32 << m).map(move |bits| (0..m).map(|i| b'a' + (bits >> i & 1) as u8).collect::<Vec<_>>()));
    for word in words {
        for text in texts.map(str::as_bytes) {
            let expected = whole(&word, text);
            for cuts in 0..1 << (text.len() - 1) {
                let mut lengths = lengths(cuts, text.len());
                take_in_pieces(&mut Stream::new(&word).unwrap(), text, &expected, || lengths.next());
            }
        }
    }
}

#[test]
fn random_cuttings_of_long_texts() {
    let mut seed = 88172645463325252;
    for round in 0..300 {
        let letters = [1, 2, 3, 256][round % 4];
        let n = random(&mut seed) as usize % 150_000;
        let text = random_bytes(&mut seed, n, letters);
        let m = 1 + random(&mut seed) as usize % [1, 3, 12, LONGEST_STREAMED][round / 4 % 4];
        let word: Vec<u8> = match text.len() > m {
            true => text[text.len() / 2..].iter().chain(&text).copied().take(m).collect(),
            false => vec![0; m],
        };
        let most = [3, 70, 3_000, 150_000][round / 16 % 4];
        take_in_pieces(&mut Stream::new(&word).unwrap(), &text, &whole(&word, &text), || Some(random(&mut seed) as usize % most));
    }
}

#[test]
fn crowds_of_finds_between_long_stretches_without_any() {
    let mut text = Vec::new();
    for crowd in [255, 256, 257, 5_000, 64, 300, 100_000, 1] {
        text.extend(vec![b'x'; 200_000]);
        text.extend(vec![b'a'; crowd + 2]);
    }
    for piece in [1_000, 65_536, 1_000_000_000] {
        take_in_pieces(&mut Stream::new(b"aaa").unwrap(), &text, &whole(b"aaa", &text), || Some(piece));
    }
}

#[test]
fn pieces_of_which_every_byte_is_a_find() {
    let text = [b'a'; 1_100];
    for n in 0..=text.len() {
        let mut stream = Stream::new(b"a").unwrap();
        assert!(stream.take(&text[..n]).eq(0..n as u64));
        assert!(stream.take(&text[n..]).eq(n as u64..text.len() as u64));
    }
}

/// A stream for a word that has taken so many bytes of which none matters.
fn stream_at(word: &[u8], taken: usize) -> Stream {
    let mut bytes = Stream::new(word).unwrap().to_bytes();
    bytes[130..134].copy_from_slice(&(taken as u32).to_le_bytes());
    Stream::from_bytes(&bytes).unwrap()
}

#[test]
fn it_goes_on_past_the_limit_from_every_place_before_it() {
    let mut seed = 362436069;
    for m in [1, 2, 5, 20, LONGEST_STREAMED] {
        for period in [1, 2, 3, 7, 64] {
            let mut text: Vec<u8> = (0..300).map(|i| (i % period) as u8).collect();
            for _ in 0..6 {
                text[random(&mut seed) as usize % 300] = b'x';
            }
            let word: Vec<u8> = (0..m).map(|i| (i % period) as u8).collect();
            let finds = whole(&word, &text);
            for before in 0..=140 {
                let start = LONGEST_TEXT - before;
                let expected: Vec<u64> = finds.iter().map(|at| start as u64 + at).collect();
                for most in [2, 40, 400] {
                    take_in_pieces(&mut stream_at(&word, start), &text, &expected, || Some(random(&mut seed) as usize % most));
                }
            }
        }
    }
}

#[test]
fn finds_across_16_mib_and_across_32() {
    let word: Vec<u8> = (0..LONGEST_STREAMED as u8).collect();
    let mut text = vec![200; 2 * LONGEST_TEXT + 12_345];
    for seam in [LONGEST_TEXT, 2 * LONGEST_TEXT] {
        for at in [seam - 65_600, seam - 160, seam - 80, seam - 1, seam + 63] {
            text[at..at + word.len()].copy_from_slice(&word);
        }
    }
    let expected = whole(&word, &text);
    assert_eq!(expected.len(), 10);
    for piece in [text.len(), 65_536, 999_983] {
        take_in_pieces(&mut Stream::new(&word).unwrap(), &text, &expected, || Some(piece));
    }
}

#[test]
fn one_letter_over_and_over_past_32_mib() {
    let text = vec![b'a'; 2 * LONGEST_TEXT + 100_000];
    for m in [1, LONGEST_STREAMED] {
        for piece in [text.len(), 1_000_003] {
            let mut stream = Stream::new(&text[..m]).unwrap();
            let mut next = 0;
            for piece in text.chunks(piece) {
                stream.take(piece).for_each(|at| {
                    assert_eq!(at, next);
                    next += 1;
                });
            }
            assert_eq!(next, (text.len() - m + 1) as u64);
            assert_eq!((stream.count(), stream.taken()), (next, text.len() as u64));
        }
    }
}

#[test]
fn bytes_past_16_mib_that_no_one_asks_about() {
    // at each byte all but the word's last letter is kept
    let word = [&[b'a'; LONGEST_STREAMED - 1][..], b"b"].concat();
    let mut text = vec![b'a'; 2 * LONGEST_TEXT + 100_000];
    let last = (text.len() - word.len()) as u64;
    text[LONGEST_TEXT] = b'b';
    *text.last_mut().unwrap() = b'b';
    for piece in [text.len(), 1_000_003] {
        let (mut dropped, mut written) = (Stream::new(&word).unwrap(), Stream::new(&word).unwrap());
        let mut told = Vec::new();
        let mut listed = Stream::new(&word).unwrap();
        for piece in text.chunks(piece) {
            dropped.take(piece);
            written.write_all(piece).unwrap();
            told.extend(listed.take(piece));
        }
        assert_eq!(told, [(LONGEST_TEXT + 1 - word.len()) as u64, last]);
        for stream in [dropped, written, listed] {
            assert_eq!((stream.count(), stream.taken()), (2, text.len() as u64));
        }
    }
}

#[test]
fn a_piece_is_taken_whole_where_not_all_its_finds_are_asked_for() {
    let text = b"ab".repeat(70_000);
    let expected = whole(b"bab", &text);
    for asked in [0, 1, 2, 255, 256, 257, 40_000] {
        let mut stream = Stream::new(b"bab").unwrap();
        let (first, second) = text.split_at(100_001);
        assert!(stream.take(first).take(asked).eq(expected[..asked].iter().copied()));
        assert_eq!((stream.taken(), stream.count()), (100_001, 49_999));
        assert!(stream.take(second).eq(expected[49_999..].iter().copied()));
        stream.take(b"ab");
        assert_eq!((stream.taken(), stream.count()), (140_002, expected.len() as u64 + 1));
    }
}

/// Gives one to seven bytes at a time.
struct Slow<'a>(&'a [u8]);

impl Read for Slow<'_> {
    fn read(&mut self, room: &mut [u8]) -> io::Result<usize> {
        let most = 1 + self.0.len() % 7;
        let n = most.min(room.len());
        self.0.read(&mut room[..n])
    }
}

#[test]
fn a_body_is_copied_into_it() {
    let mut seed = 521288629;
    let text = random_bytes(&mut seed, 50_000, 2);
    let expected = whole(&text[77..85], &text);
    let mut stream = Stream::new(&text[77..85]).unwrap();
    assert_eq!(io::copy(&mut Slow(&text), &mut stream).unwrap(), 50_000);
    assert_eq!((stream.taken(), stream.count()), (50_000, expected.len() as u64));
    assert_eq!(stream.write(b"").unwrap(), 0);
    stream.flush().unwrap();

    let (mut stream, mut told) = (Stream::new(stream.word()).unwrap(), Vec::new());
    stream.each(|_| panic!("nothing stands in three bytes")).write_all(&text[..3]).unwrap();
    let mut each = stream.each(|at| told.push(at));
    io::copy(&mut Slow(&text[3..]), &mut each).unwrap();
    each.flush().unwrap();
    assert_eq!(told, expected);
    assert_eq!((stream.taken(), stream.count()), (50_000, expected.len() as u64));
}

#[test]
fn a_clone_goes_on_by_itself() {
    let mut one = Stream::new(b"abab").unwrap();
    assert_eq!(one.take(b"xababa").collect::<Vec<_>>(), [1]);
    let mut other = one.clone();
    assert_eq!(other.take(b"x").next(), None);
    assert_eq!(one.take(b"b").next(), Some(3));
    assert_eq!(other.take(b"abab").next(), Some(7));
    assert_eq!((one.count(), one.taken(), other.count(), other.taken()), (2, 7, 2, 11));
    assert_eq!((one.word(), other.word()), (&b"abab"[..], &b"abab"[..]));
}

#[test]
fn it_may_go_to_other_threads() {
    fn may<T: Send + Sync + Clone + Debug>() {}
    may::<Stream>();
    let mut stream = Stream::new(b"ba").unwrap();
    assert_eq!(stream.take(b"ab").next(), None);
    for piece in 1..4 {
        let taking = std::thread::spawn(move || {
            assert!(stream.take(b"ab").eq([2 * piece - 1]));
            stream
        });
        stream = taking.join().unwrap();
    }
    assert_eq!(stream.count(), 3);
}

#[test]
fn its_bytes_give_it_back_at_every_place() {
    let text = b"ab".repeat(100);
    let expected = whole(b"ababab", &text);
    for start in [0, LONGEST_TEXT - 100] {
        let (mut stream, mut told) = (stream_at(b"ababab", start), Vec::new());
        for piece in text.chunks(3) {
            let mut again = Stream::from_bytes(&stream.to_bytes()).unwrap();
            told.extend(again.take(piece).map(|at| at - start as u64));
            stream = again;
        }
        assert_eq!(told, expected);
        assert_eq!((stream.count(), stream.taken()), (expected.len() as u64, (start + text.len()) as u64));
    }
}

#[test]
fn bytes_that_no_stream_can_be_kept_in() {
    let mut stream = Stream::new(b"aba").unwrap();
    assert_eq!(stream.take(b"ababab").count(), 2);
    let kept = stream.to_bytes();
    let refused = |bytes: &[u8]| Stream::from_bytes(bytes).is_err_and(|refusal| refusal == Refusal::Unmade);
    for short in 0..kept.len() {
        assert!(refused(&kept[..short]));
    }
    assert!(refused(&[&kept[..], &[0]].concat()));
    let with = |place: usize, bytes: &[u8]| {
        let mut other = kept;
        other[place..place + bytes.len()].copy_from_slice(bytes);
        other
    };
    assert!(refused(&with(129, &[3])));
    assert!(refused(&with(142, &7u64.to_le_bytes())));
    assert!(!refused(&with(142, &6u64.to_le_bytes())));
    // 2^63 bytes in all at most, six of which the searcher has taken
    assert!(refused(&with(134, &u64::MAX.to_le_bytes())) && refused(&with(134, &((1u64 << 63) - 5).to_le_bytes())));
    let mut far = Stream::from_bytes(&with(134, &((1u64 << 63) - 6).to_le_bytes())).unwrap();
    assert_eq!((far.taken(), far.take(b"a").next()), (1 << 63, Some((1 << 63) - 2)));
}
