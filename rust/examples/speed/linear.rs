//! The linear search, `turbo`: on words and texts that a stranger would choose, and on random ones; beside `search` and a plain search along the word's
//! borders.

use crate::clock::{best, by_turns, ms};
use crate::rivals::{memchr_count, memmem_count};
use crate::{per_letter, plain_forward, Random};
use marks::entries::{search, turbo, Tally};
use marks::{table_room, Refusal, LONGEST_WORD};
use std::hint::black_box;

/// The lengths of the words.
const LENGTHS: [usize; 6] = [4, 16, 64, 256, 1024, LONGEST_WORD];

/// How many finds ours and the plain search list.
const LIST: usize = 1024;

/// On hostile words and texts no search is run that would read more letters than these.
const MOST_READ: usize = 1 << 30;

type Entry = fn(&[u8], &[u8], &mut [u16], &mut [u32]) -> Result<Tally, Refusal>;

/// One of the entries, with a word, a text and its rooms.
struct Ours<'a> {
    entry: Entry,
    word: &'a [u8],
    text: &'a [u8],
    tables: Vec<u16>,
    list: Vec<u32>,
}

impl<'a> Ours<'a> {
    fn new(entry: Entry, word: &'a [u8], text: &'a [u8]) -> Self {
        Ours { entry, word, text, tables: vec![0; table_room(word.len())], list: vec![0; LIST] }
    }

    fn run(&mut self) -> Tally {
        (self.entry)(self.word, self.text, &mut self.tables, &mut self.list).expect("within the limits")
    }
}

/// What the linear search says, once a plain one has said and listed the same.
fn agreed(linear: &mut Ours) -> Tally {
    let said = linear.run();
    let mut list = vec![0; LIST];
    assert_eq!(plain_forward::count(linear.word, linear.text, &mut list), said.count);
    assert_eq!(linear.list, list);
    assert!(said.letters <= 2 * linear.text.len() as u64);
    said
}

/// Seconds of the linear search and of the plain one, by turns.
fn beside_plain(linear: &mut Ours) -> [f64; 2] {
    let (word, text) = (linear.word, linear.text);
    let mut list = [0; LIST];
    by_turns(0.5, [&mut || linear.run().count, &mut || plain_forward::count(word, text, black_box(&mut list))])
}

/// Seconds of the search and the letters it reads; each of its runs must count so many.
fn searched(word: &[u8], text: &[u8], count: u64) -> (f64, u64) {
    let (mut base, mut letters) = (Ours::new(search, word, text), 0);
    let took = best(|| {
        let said = base.run();
        assert_eq!(said.count, count);
        letters = said.letters;
    });
    (took, letters)
}

const HOSTILE: &str = "turbo, ms | search | KMP | memmem | memchr | turbo / KMP | letters read by turbo | by search |";

/// The rest of a line on a word and a text, and how often the plain search's time turbo takes.
fn hostile_line(word: &[u8], text: &[u8], with_search: bool) -> (String, f64) {
    let mut linear = Ours::new(turbo, word, text);
    let said = agreed(&mut linear);
    let [ours, plain] = beside_plain(&mut linear);
    let search = with_search.then(|| searched(word, text, said.count));
    let others = word.len() * said.count as usize <= MOST_READ;
    let memmem = others.then(|| best(|| assert_eq!(memmem_count(word, text), said.count)));
    let memchr = (others && cfg!(with_memchr)).then(|| best(|| assert_eq!(memchr_count(word, text), Some(said.count))));
    let [turbo, search_ms, kmp, memmem, memchr] = [Some(ours), search.map(|s| s.0), Some(plain), memmem, memchr].map(ms);
    let by_turbo = per_letter(said.letters, text);
    let by_search = search.map_or("-".into(), |(_, letters)| format!("{:.4}", per_letter(letters, text)));
    let ratio = ours / plain;
    (format!("{turbo} | {search_ms} | {kmp} | {memmem} | {memchr} | {ratio:.2} | {by_turbo:.4} | {by_search} |"), ratio)
}

/// The first n letters of the Fibonacci words, each of which is the two before it in a row.
pub fn fibonacci(n: usize) -> Vec<u8> {
    let (mut before, mut word) = (b"b".to_vec(), b"a".to_vec());
    while word.len() < n {
        let next = [&word[..], &before].concat();
        before = std::mem::replace(&mut word, next);
    }
    word.truncate(n);
    word
}

/// What a hostile search is called, its text, and the word that is made of the text's first letters.
type Hostile<'a> = (&'static str, &'a [u8], fn(&[u8]) -> Vec<u8>);

/// Texts of n letters that hostile words are looked for in: a's, ab over and over, and Fibonacci letters.
pub fn hostile_texts(n: usize) -> [Vec<u8>; 3] {
    [vec![b'a'; n], b"ab".repeat(n / 2), fibonacci(n)]
}

pub fn hostile_searches([a, ab, fibonacci]: &[Vec<u8>; 3]) -> [Hostile<'_>; 5] {
    [
        ("a, m times", a, |start| start.to_vec()),
        ("b, then a", a, |start| [b"b", &start[1..]].concat()),
        ("a, then b", a, |start| [&start[1..], b"b"].concat()),
        ("ab over and over", ab, |start| start.to_vec()),
        ("Fibonacci", fibonacci, |start| start.to_vec()),
    ]
}

/// Words in a text of n letters. With Fibonacci words the search reads a few letters for each of the text, with the others up to m.
pub fn hostile_times(n: usize) {
    println!("| Word | m | {HOSTILE}\n|{}", "---|".repeat(10));
    let texts = hostile_texts(n);
    let (mut most, mut at) = (0.0, String::new());
    for (name, text, word_of) in hostile_searches(&texts) {
        for m in LENGTHS {
            let (line, ratio) = hostile_line(&word_of(&text[..m]), text, m * n <= MOST_READ || name == "Fibonacci");
            println!("| {name} | {m} | {line}");
            if ratio > most {
                (most, at) = (ratio, format!("{name}, {m} letters"));
            }
        }
    }
    println!("\nAt most {most:.2} times KMP: {at}.");
}

/// A word that stands nowhere, and of which the search reads nearly every letter at each place. The search is run, whatever it takes.
pub fn zeros_times() {
    println!("| Word | {HOSTILE}\n|{}", "---|".repeat(9));
    let text = vec![0; 8 << 20];
    let (line, _) = hostile_line(&[&[1], &text[..1023]].concat(), &text, true);
    println!("| 01 and 1,023 zeros | {line}");
}

/// Words that stand in a random text.
pub fn random_times() {
    println!("| Alphabet | Word | turbo, ms | search | KMP | turbo / search | letters read by turbo | by search |\n|{}", "---|".repeat(8));
    let mut most = 0f64;
    for letters in [2, 4, 256] {
        let text = Random(362436069 + letters).bytes(16 << 20, letters);
        for m in LENGTHS {
            let word = &text[5_000_000..5_000_000 + m];
            let (mut linear, mut base) = (Ours::new(turbo, word, &text), Ours::new(search, word, &text));
            let (said, base_said) = (agreed(&mut linear), base.run());
            assert_eq!((said.count, &linear.list), (base_said.count, &base.list));
            let [ours, search] = by_turns(0.5, [&mut || linear.run(), &mut || base.run()]);
            let plain = best(|| plain_forward::count(word, &text, black_box(&mut [0; LIST])));
            print!("| {letters} | {m} | {} |", [ours, search, plain].map(|took| ms(Some(took))).join(" | "));
            println!(" {:.2} | {:.4} | {:.4} |", ours / search, per_letter(said.letters, &text), per_letter(base_said.letters, &text));
            if (16..=1024).contains(&m) {
                most = most.max(ours / search);
            }
        }
    }
    println!("\nFrom 16 to 1,024 letters, at most {most:.2} times the search.");
}
