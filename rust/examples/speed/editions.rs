//! Loading a file of edition 2, which ends with a check, beside loading the same word's file of edition 1.

use crate::{clock::parts_by_turns, Random};
use marks::entries::load;
use marks::{table_room, Mark, LONGEST_WORD};
use std::hint::black_box;

/// The files are loaded in so many parts, each of words with as many letters together as the longest has. The same few words over and over
/// would be loaded in half the time, as the processor learns where their walks turn.
const PARTS: usize = 64;

/// The files of random words, of each edition.
fn files(m: usize, letters: u64) -> [Vec<Vec<u8>>; 2] {
    let (mut random, words) = (Random(88172645463325252), PARTS * LONGEST_WORD / m);
    let marks: Vec<Mark> = (0..words).map(|_| Mark::new(random.bytes(m, letters)).expect("a word within the limit")).collect();
    [Mark::to_file, Mark::to_checked_file].map(|save| marks.iter().map(|mark| save(mark).expect("two letters or more")).collect())
}

/// Microseconds for one file of each edition.
fn by_edition(files: &[Vec<Vec<u8>>; 2], m: usize) -> [f64; 2] {
    let [mut first, mut second] = files.each_ref().map(|files| {
        let (mut room, mut tables) = (vec![0; m], vec![0; table_room(m)]);
        let parts: Vec<&[Vec<u8>]> = files.chunks(LONGEST_WORD / m).collect();
        move |part: usize| {
            for file in parts[part] {
                assert_eq!(load(black_box(file), &mut room, &mut tables), Ok(m));
            }
        }
    });
    parts_by_turns(1.0, PARTS, [&mut first, &mut second]).map(|seconds| seconds * 1e6 / files[0].len() as f64)
}

const HEAD: &str = "| Alphabet | Word | bytes, edition 1 | edition 1, µs | edition 2 | edition 2 / edition 1 | ns more for each byte |";

pub fn load_times() {
    println!("{HEAD}\n|{}", "---|".repeat(7));
    let (mut most, mut at) = (0.0, String::new());
    for letters in [2, 4, 256] {
        for m in [16, 256, LONGEST_WORD] {
            let files = files(m, letters);
            let bytes = files[0].iter().map(Vec::len).sum::<usize>() as f64 / files[0].len() as f64;
            let [first, second] = by_edition(&files, m);
            let ratio = second / first;
            println!("| {letters} | {m} | {bytes:.0} | {first:.3} | {second:.3} | {ratio:.3} | {:.2} |", (second - first) * 1e3 / bytes);
            if ratio > most {
                (most, at) = (ratio, format!("words of {m} over {letters} letters"));
            }
        }
    }
    println!("\nAt most {most:.3} times edition 1: {at}.");
}
