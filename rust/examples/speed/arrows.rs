//! How many arrows the oracle has, how many the failure oracle and how many the storacle: of random words, and of all words over some letters. Every machine
//! says the same.

use crate::Random;
use marks::entries::{build, failure_build, storacle_build};
use marks::{failure_table_room, storacle_table_room, LONGEST_STORACLE, LONGEST_WORD};
use std::collections::BTreeMap;
use std::fmt::{Display, Formatter, Result};
use std::ops::RangeInclusive;

/// So many random words of each length.
const WORDS: usize = 1_000;

/// Room for the tables of every word.
fn room() -> Vec<u16> {
    vec![0; failure_table_room(LONGEST_WORD).max(storacle_table_room(LONGEST_STORACLE))]
}

/// How many of these entries lead anywhere.
fn told(entries: &[u16]) -> usize {
    entries.iter().filter(|&&entry| entry != 0).count()
}

/// The arrows of a word's two oracles, those of the spine included, and how many failure arrows there are on the path of state 0.
struct Arrows {
    oracle: usize,
    symbol: usize,
    failure: usize,
    path: usize,
}

fn arrows(word: &[u8], tables: &mut [u16]) -> Arrows {
    let (m, n) = (word.len(), word.len() + 1);
    build(word, tables).expect("a word within the limit");
    // the last state has no extra arrows: they would start where those of all others end
    let oracle = m + usize::from(tables[2 * n + m]);
    failure_build(word, tables).expect("a word within the limit");
    let (failures, targets) = (&tables[n..2 * n], &tables[4 * n..5 * n]);
    let path = std::iter::successors(Some(0), |&state| Some(usize::from(failures[state])).filter(|&next| next != 0)).count() - 1;
    Arrows { oracle, symbol: m + told(targets), failure: told(failures), path }
}

/// The arrows of a word's storacle, those of the spine included: what stands in the rows of its states.
fn storacle_arrows(word: &[u8], tables: &mut [u16]) -> usize {
    let (m, n) = (word.len(), word.len() + 1);
    storacle_build(word, tables).expect("a word within the limit");
    told(&tables[2 * n..(m + 3) * n])
}

/// What was seen of a number in many words.
#[derive(Default)]
struct Seen {
    words: u64,
    sum: u64,
    least: Option<usize>,
    greatest: usize,
}

impl Seen {
    fn add(&mut self, number: usize, words: u64) {
        self.words += words;
        self.sum += number as u64 * words;
        self.least = Some(self.least.map_or(number, |least| least.min(number)));
        self.greatest = self.greatest.max(number);
    }

    fn average(&self) -> f64 {
        self.sum as f64 / self.words as f64
    }
}

impl Display for Seen {
    fn fmt(&self, out: &mut Formatter) -> Result {
        write!(out, "{:.2} ({} to {})", self.average(), self.least.unwrap_or(0), self.greatest)
    }
}

/// What is added up over many words of one length.
trait Sum: Default {
    /// A word that stands for so many, which differ from it in the names of their letters.
    fn add(&mut self, word: &[u8], words: u64, tables: &mut [u16]);
}

/// What was seen of many words of one length: the oracle and the failure oracle.
#[derive(Default)]
struct Sizes {
    oracle: Seen,
    symbol: Seen,
    failure: Seen,
    both: Seen,
    path: Seen,
    /// How many words have a symbol arrow beside the spine in their failure oracle.
    with_symbol: u64,
    /// In how many the failure oracle has fewer arrows than the oracle, and in how many more.
    fewer: u64,
    more: u64,
}

impl Sum for Sizes {
    fn add(&mut self, word: &[u8], words: u64, tables: &mut [u16]) {
        let Arrows { oracle, symbol, failure, path } = arrows(word, tables);
        let counted = |is: bool| if is { words } else { 0 };
        self.oracle.add(oracle, words);
        self.symbol.add(symbol, words);
        self.failure.add(failure, words);
        self.both.add(symbol + failure, words);
        self.path.add(path, words);
        self.with_symbol += counted(symbol > word.len());
        self.fewer += counted(symbol + failure < oracle);
        self.more += counted(symbol + failure > oracle);
    }
}

impl Sizes {
    /// The cells that both tables end with.
    fn cells(&self, m: usize) -> String {
        let [oracle, both] = [&self.oracle, &self.both].map(Seen::average);
        let for_each = [oracle / m as f64, both / m as f64, both / oracle].map(|ratio| format!("{ratio:.4}")).join(" | ");
        let seen = [&self.oracle, &self.both, &self.symbol, &self.failure, &self.path].map(Seen::to_string).join(" | ");
        let words = [self.with_symbol, self.fewer, self.more].map(|count| count.to_string()).join(" | ");
        format!("{for_each} | {seen} | {words} |")
    }
}

const HEAD: &str = "oracle, for each letter | failure oracle, for each letter | failure oracle / oracle | arrows of the oracle \
    | of the failure oracle | its symbol arrows | its failure arrows | on the path of state 0 \
    | words with a symbol arrow beside the spine | with fewer arrows | with more |";

/// What is seen of random words: the same words in every table.
fn random_words<S: Sum>(letters: u64, m: usize, tables: &mut [u16]) -> S {
    let (mut random, mut sum) = (Random(88172645463325252 + m as u64), S::default());
    for _ in 0..WORDS {
        sum.add(&random.bytes(m, letters), 1, tables);
    }
    sum
}

/// Hands over all words that go on as this one begins, one for all that differ in the names of their letters alone, and how many of them there are: the first
/// letter is 0, and a letter that is new is the next number. The word begins with so many letters, of so many kinds.
fn each(word: &mut [u8], given: usize, kinds: u64, letters: u64, hand_over: &mut impl FnMut(&[u8], u64)) {
    if given == word.len() {
        return hand_over(word, (letters - kinds + 1..=letters).product());
    }
    for letter in 0..letters.min(kinds + 1) {
        word[given] = letter as u8;
        each(word, given + 1, kinds.max(letter + 1), letters, hand_over);
    }
}

/// What is seen of all words of m letters.
fn all_words<S: Sum>(letters: u64, m: usize, tables: &mut [u16]) -> S {
    let (mut sum, mut seen) = (S::default(), 0);
    each(&mut vec![0; m], 0, 0, letters, &mut |word, words| {
        seen += words;
        sum.add(word, words, tables);
    });
    assert_eq!(seen, letters.pow(m as u32));
    sum
}

/// Random words.
pub fn of_random_words() {
    println!("| Alphabet | m | {HEAD}\n|{}", "---|".repeat(13));
    let mut tables = room();
    for letters in [2, 4, 256] {
        for m in [4, 16, 64, 256, 1024, LONGEST_WORD] {
            println!("| {letters} | {m} | {}", random_words::<Sizes>(letters, m, &mut tables).cells(m));
        }
    }
}

/// All words over some letters: few of them, and as many as the word is long.
pub fn of_all_words() {
    println!("| Alphabet | m | words | {HEAD}\n|{}", "---|".repeat(14));
    let over_few: [(u64, &[usize]); 3] = [(2, &[4, 8, 12, 16, 20]), (3, &[4, 8, 12]), (4, &[4, 8, 12])];
    let few = over_few.into_iter().flat_map(|(letters, lengths)| lengths.iter().map(move |&m| (letters, m)));
    let mut tables = room();
    for (letters, m) in few.chain((5..=10).map(|m| (m as u64, m))) {
        let sizes: Sizes = all_words(letters, m, &mut tables);
        println!("| {letters} | {m} | {} | {}", sizes.oracle.words, sizes.cells(m));
    }
}

/// What was seen of many words of one length: the storacle beside the two oracles.
#[derive(Default)]
struct Storacles {
    oracle: Seen,
    failure: Seen,
    storacle: Seen,
    /// In how many the storacle has fewer arrows than the oracle, in how many as many, and in how many more.
    beside_oracle: [u64; 3],
    /// In how many it has more than 2m-1 arrows, and in how many more than 3m.
    above: [u64; 2],
}

impl Sum for Storacles {
    fn add(&mut self, word: &[u8], words: u64, tables: &mut [u16]) {
        let Arrows { oracle, symbol, failure, .. } = arrows(word, tables);
        let (m, storacle) = (word.len(), storacle_arrows(word, tables));
        let counted = |is: bool| if is { words } else { 0 };
        self.oracle.add(oracle, words);
        self.failure.add(symbol + failure, words);
        self.storacle.add(storacle, words);
        for (count, is) in self.beside_oracle.iter_mut().zip([storacle < oracle, storacle == oracle, storacle > oracle]) {
            *count += counted(is);
        }
        for (count, bound) in self.above.iter_mut().zip([2 * m - 1, 3 * m]) {
            *count += counted(storacle > bound);
        }
    }
}

impl Storacles {
    /// The cells that both tables end with.
    fn cells(&self, m: usize) -> String {
        let [oracle, failure, storacle] = [&self.oracle, &self.failure, &self.storacle].map(Seen::average);
        let for_each = [oracle, failure, storacle, self.storacle.greatest as f64].map(|arrows| arrows / m as f64);
        let ratios = for_each.into_iter().chain([storacle / oracle]).map(|ratio| format!("{ratio:.4}")).collect::<Vec<_>>().join(" | ");
        let seen = [&self.oracle, &self.failure, &self.storacle].map(Seen::to_string).join(" | ");
        let words = self.beside_oracle.iter().chain(&self.above).map(u64::to_string).collect::<Vec<_>>().join(" | ");
        format!("{ratios} | {seen} | {words} |")
    }
}

const STORACLE_HEAD: &str = "oracle, for each letter | failure oracle, for each letter | storacle, for each letter | its greatest, for each letter \
    | storacle / oracle | arrows of the oracle | of the failure oracle | of the storacle | words with fewer arrows than in the oracle | with as many \
    | with more | with more than 2m-1 | with more than 3m |";

/// Random words, and their storacles.
pub fn storacles_of_random_words() {
    println!("| Alphabet | m | {STORACLE_HEAD}\n|{}", "---|".repeat(15));
    let mut tables = room();
    for letters in [2, 3, 4, 20, 256] {
        for m in [4, 8, 16, 32, 64, LONGEST_STORACLE] {
            println!("| {letters} | {m} | {}", random_words::<Storacles>(letters, m, &mut tables).cells(m));
        }
    }
}

/// All words over some letters, and their storacles: few letters, and as many as the word is long.
pub fn storacles_of_all_words() {
    println!("| Alphabet | m | words | {STORACLE_HEAD}\n|{}", "---|".repeat(16));
    let few = [(2, 16), (3, 12), (4, 12)].into_iter().flat_map(|(letters, longest)| (4..=longest).map(move |m| (letters, m)));
    let mut tables = room();
    for (letters, m) in few.chain((5..=12).map(|m| (m as u64, m))) {
        let storacles: Storacles = all_words(letters, m, &mut tables);
        println!("| {letters} | {m} | {} | {}", storacles.oracle.words, storacles.cells(m));
    }
}

/// How many words have each number of something.
type Spread = BTreeMap<isize, u64>;

/// What 003's figures 5 and 6 show of words of one length.
#[derive(Default)]
struct Spreads([Spread; 5]);

/// What they are spreads of.
const SPREADS: [&str; 5] = ["oracle - m", "failure oracle - m", "storacle - m", "storacle - oracle", "oracle - failure oracle"];

impl Sum for Spreads {
    fn add(&mut self, word: &[u8], words: u64, tables: &mut [u16]) {
        let Arrows { oracle, symbol, failure, .. } = arrows(word, tables);
        let [m, oracle, failure, storacle] =
            [word.len(), oracle, symbol + failure, storacle_arrows(word, tables)].map(|number| number as isize);
        let numbers = [oracle - m, failure - m, storacle - m, storacle - oracle, oracle - failure];
        for (spread, number) in self.0.iter_mut().zip(numbers) {
            *spread.entry(number).or_default() += words;
        }
    }
}

/// The numbers that have a column.
const COLUMNS: RangeInclusive<isize> = -1..=11;

/// In how many percent of the words it is each of these numbers; 0 alone where it is in none.
fn percents(spread: &Spread) -> String {
    assert!(spread.keys().all(|number| COLUMNS.contains(number)));
    let words: u64 = spread.values().sum();
    let percent = |&some: &u64| format!("{:.6} |", some as f64 * 100.0 / words as f64);
    COLUMNS.map(|number| spread.get(&number).map_or("0 |".to_string(), percent)).collect::<Vec<_>>().join(" ")
}

/// All words of 1 to 9 letters over as many; 003 has those of 4 to 9.
pub fn storacles_of_papers() {
    let head = COLUMNS.map(|number| format!("{number} |")).collect::<Vec<_>>().join(" ");
    println!("| m | Difference | {head}\n|{}", "---|".repeat(2 + COLUMNS.count()));
    let mut tables = room();
    for m in 1..=9 {
        let Spreads(spreads) = all_words(m as u64, m, &mut tables);
        for (what, spread) in SPREADS.iter().zip(&spreads) {
            println!("| {m} | {what} | {}", percents(spread));
        }
    }
}
