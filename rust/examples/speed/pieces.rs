//! A text in pieces, through the entry and through [`Stream`], beside the plain search on the same pieces.

use crate::{clock::by_turns, plain_stream::PlainStream, Random};
use marks::entries::{open, take};
use marks::{Stream, SEARCHER};
use std::hint::black_box;

/// The pieces that a text is cut into.
const PIECES: [usize; 4] = [1, 16, 256, 1 << 16];

/// How many finds the entry may list of each piece.
const LIST: usize = 256;

/// A way to look for a word in the pieces of a text, each of so many bytes: the number of finds, or the sum of their starts.
type Way = fn(&[u8], &[u8], usize) -> u64;

fn by_entry(word: &[u8], text: &[u8], piece: usize) -> u64 {
    let (mut searcher, mut list) = ([0; SEARCHER], [0; LIST]);
    open(word, &mut searcher).expect("a word within the limit");
    text.chunks(piece).map(|piece| take(&mut searcher, piece, black_box(&mut list)).expect("a text within the limit") as u64).sum()
}

fn by_plain_entry(word: &[u8], text: &[u8], piece: usize) -> u64 {
    let (mut plain, mut list) = (PlainStream::new(word), [0; LIST]);
    text.chunks(piece).map(|piece| plain.take(piece, black_box(&mut list))).sum()
}

fn by_stream(word: &[u8], text: &[u8], piece: usize) -> u64 {
    let mut stream = Stream::new(word).expect("a word within the limit");
    text.chunks(piece).map(|piece| stream.take(piece).sum::<u64>()).sum()
}

fn by_plain_stream(word: &[u8], text: &[u8], piece: usize) -> u64 {
    let (mut plain, mut sum) = (PlainStream::new(word), 0);
    text.chunks(piece).for_each(|piece| plain.each(piece, |at| sum += at));
    sum
}

/// Nanoseconds for each byte of the text, once both ways have said the same.
fn duel(ways: [Way; 2], word: &[u8], text: &[u8], piece: usize) -> [f64; 2] {
    assert_eq!(ways[0](word, text, piece), ways[1](word, text, piece));
    let [mut ours, mut plain] = ways.map(|way| move || way(black_box(word), black_box(text), piece));
    by_turns(0.5, [&mut ours, &mut plain]).map(|seconds| seconds * 1e9 / text.len() as f64)
}

/// The texts with the words that are looked for in them, each with what it is called.
fn searches() -> Vec<(String, Vec<u8>, Vec<u8>)> {
    let mut searches = Vec::new();
    for letters in [2, 4, 256] {
        let text = Random(362436069 + letters).bytes(1 << 20, letters);
        for m in [1, 8, 64] {
            searches.push((format!("{letters} letters | {m}"), text[500_000..500_000 + m].to_vec(), text.clone()));
        }
    }
    let (text, word) = (vec![b'a'; 1 << 20], vec![b'a'; 64]);
    searches.push(("a over and over | 64, a's".into(), word.clone(), text.clone()));
    searches.push(("a over and over | 64, a's, then b".into(), [&word[1..], b"b"].concat(), text));
    searches
}

pub fn piece_times() {
    println!("| Text | Word | By | pieces of 1 | 16 | 256 | 64 KiB |\n|{}", "---|".repeat(7));
    let ways: [(&str, [Way; 2]); 2] = [("marks_take", [by_entry, by_plain_entry]), ("Stream", [by_stream, by_plain_stream])];
    let (mut slowest, mut most) = ([0.0; 2], [0.0; 2]);
    for (name, word, text) in searches() {
        for (i, (by, ways)) in ways.iter().enumerate() {
            print!("| {name} | {by} |");
            for piece in PIECES {
                let [ours, plain] = duel(*ways, &word, &text, piece);
                print!(" {ours:.2} ({:.2}) |", ours / plain);
                if piece == 1 {
                    slowest[i] = ours.max(slowest[i]);
                } else if piece >= 256 {
                    most[i] = (ours / plain).max(most[i]);
                }
            }
            println!();
        }
    }
    println!("\nOf one byte, the slowest: {:.0} nanoseconds by marks_take, {:.0} by Stream.", slowest[0], slowest[1]);
    println!("From 256 bytes up, the most: {:.2} times plain Rust by marks_take, {:.2} by Stream.", most[0], most[1]);
}
