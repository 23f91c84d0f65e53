//! What becomes of damaged files of both editions: with every error of one bit, and with many random errors of several bits.

use crate::Random;
use marks::entries::{load, save, save_checked};
use marks::{table_room, Refusal, LONGEST_FILE, LONGEST_WORD};
use std::ops::Range;

/// So many random words of each of these lengths over each of these alphabets are saved.
const WORDS: usize = 100;
const LENGTHS: [usize; 3] = [4, 16, 64];
const ALPHABETS: [u64; 4] = [2, 4, 26, 256];

/// So many random errors of each kind are made.
const ERRORS: usize = 1_000_000;

/// A random error changes from 2 to so many bits, and where they are neighbours all of them are among so many.
const MOST_BITS: usize = 16;

/// The refusals that a file may meet.
const NUMBERS: [usize; 8] = [5, 6, 7, 8, 9, 10, 11, 13];

/// How often each refusal was given, by its number; at 0, how often a file was accepted.
type Fates = [u64; 14];

type Save = fn(&[u8], &mut [u16], &mut [u8]) -> Result<usize, Refusal>;

struct Saved {
    word: Vec<u8>,
    file: Vec<u8>,
}

/// The files of one edition. Their words are the same for each.
fn saved_by(save: Save) -> Vec<Saved> {
    let (mut random, mut tables, mut out) = (Random(88172645463325252), vec![0; table_room(LONGEST_WORD)], vec![0; LONGEST_FILE]);
    let kinds = ALPHABETS.iter().flat_map(|letters| LENGTHS.map(|m| (m, *letters)));
    let mut saved = |(m, letters)| {
        let word = random.bytes(m, letters);
        let length = save(&word, &mut tables, &mut out).expect("a word within the limits");
        Saved { word, file: out[..length].to_vec() }
    };
    kinds.flat_map(|kind| [kind; WORDS]).map(&mut saved).collect()
}

/// Changes bits of a file, or changes them back. They are counted from the lowest of the first byte up, which is the order in which the
/// check takes them.
fn flip(file: &mut [u8], bits: &[usize]) {
    for bit in bits {
        file[bit / 8] ^= 1 << (bit % 8);
    }
}

/// Loads damaged files and counts what becomes of them.
struct Judge {
    room: Vec<u8>,
    tables: Vec<u16>,
    fates: Fates,
}

impl Judge {
    fn new() -> Judge {
        Judge { room: vec![0; LONGEST_WORD], tables: vec![0; table_room(LONGEST_WORD)], fates: [0; 14] }
    }

    /// The file with these bits changed. It may be accepted, but as another word's.
    fn judge(&mut self, saved: &mut Saved, bits: &[usize]) {
        flip(&mut saved.file, bits);
        let number = match load(&saved.file, &mut self.room, &mut self.tables) {
            Ok(m) => {
                assert_ne!(self.room[..m], saved.word);
                0
            }
            Err(error) => error.refusal.number() as usize,
        };
        self.fates[number] += 1;
        flip(&mut saved.file, bits);
    }
}

fn single_bits(all: &mut [Saved]) -> Fates {
    let mut judge = Judge::new();
    for saved in all {
        for bit in 0..8 * saved.file.len() {
            judge.judge(saved, &[bit]);
        }
    }
    judge.fates
}

/// So many different bits of these.
fn different(random: &mut Random, count: usize, bits: Range<usize>) -> Vec<usize> {
    let mut chosen = Vec::with_capacity(count);
    while chosen.len() < count {
        let bit = bits.start + below(random, bits.len());
        if !chosen.contains(&bit) {
            chosen.push(bit);
        }
    }
    chosen
}

fn below(random: &mut Random, limit: usize) -> usize {
    (random.next() >> 20) as usize % limit
}

/// Errors of 2 to 16 bits, taking the files by turns; `among` says which bits of a file with so many may be changed by one error.
fn several_bits(all: &mut [Saved], among: fn(&mut Random, usize) -> Range<usize>) -> Fates {
    let (mut judge, mut random, turns) = (Judge::new(), Random(362436069), all.len());
    for error in 0..ERRORS {
        let saved = &mut all[error % turns];
        let count = 2 + below(&mut random, MOST_BITS - 1);
        let bits = among(&mut random, 8 * saved.file.len());
        judge.judge(saved, &different(&mut random, count, bits));
    }
    judge.fates
}

fn anywhere(_: &mut Random, bits: usize) -> Range<usize> {
    0..bits
}

fn neighbours(random: &mut Random, bits: usize) -> Range<usize> {
    let start = below(random, bits - MOST_BITS + 1);
    start..start + MOST_BITS
}

/// A kind of error, and what it does to the files of an edition.
type Kind = (&'static str, fn(&mut [Saved]) -> Fates);

const KINDS: [Kind; 3] = [
    ("each bit", single_bits),
    ("2 to 16 bits anywhere", |all| several_bits(all, anywhere)),
    ("2 to 16 bits of 16 neighbours", |all| several_bits(all, neighbours)),
];

pub fn fates() {
    let refusals = NUMBERS.map(|number| number.to_string()).join(" | ");
    println!("| Error | Edition | damaged files | accepted | refused with {refusals} |\n|{}", "---|".repeat(4 + NUMBERS.len()));
    let mut editions = [save as Save, save_checked].map(saved_by);
    for (name, make) in KINDS {
        for (edition, files) in (1..).zip(&mut editions) {
            let fates = make(files);
            let (all, refused) = (fates.iter().sum::<u64>(), NUMBERS.map(|number| fates[number]));
            assert_eq!(fates[0] + refused.iter().sum::<u64>(), all);
            let refused = refused.map(|count| count.to_string()).join(" | ");
            println!("| {name} | {edition} | {all} | {} ({:.4}%) | {refused} |", fates[0], 100.0 * fates[0] as f64 / all as f64);
        }
    }
    println!("\n{}", files_told(&editions));
}

fn files_told(editions: &[Vec<Saved>; 2]) -> String {
    let [first, second] = editions.each_ref().map(|files| files.iter().map(|saved| saved.file.len()).sum::<usize>());
    let (lengths, alphabets) = (LENGTHS.map(|m| m.to_string()).join(", "), ALPHABETS.map(|letters| letters.to_string()).join(", "));
    let count = editions[0].len();
    format!(
        "{count} files of each edition, {first} bytes in all of edition 1 and {second} of edition 2: \
         {WORDS} random words of each length, {lengths}, over each alphabet, {alphabets}."
    )
}
