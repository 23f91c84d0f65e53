//! Compact rows: the search with them beside that with the first form, on random and on hostile texts, and the making of them beside that of the first form.

use crate::clock::by_turns;
use crate::failure::{random_words, range, us};
use crate::linear::{hostile_searches, hostile_texts};
use crate::{per_letter, Random};
use marks::entries::{build, compact_build, compact_search, search};
use marks::{compact_sets_room, compact_targets_room, table_room, LONGEST_WORD};

/// The alphabets of texts and words.
const ALPHABETS: [u64; 4] = [2, 4, 20, 256];

/// The lengths of the words that are looked for, and of those whose rows are made.
const LENGTHS: [usize; 6] = [4, 16, 64, 256, 1024, LONGEST_WORD];

/// So long is a text in which neither search prepares any arrows.
const SHORT_TEXT: usize = 8191;

/// A hostile text has so many letters, of which both searches may read m for each.
const HOSTILE_TEXT: usize = 256 << 10;

const HEAD: &str = "compact search, µs | search | compact search / search | letters read by both |";

/// How many finds both searches list.
const LIST: usize = 1024;

/// Rooms for both forms of a word's oracle.
struct Rooms {
    sets: Vec<u64>,
    targets: Vec<u16>,
    table: Vec<u16>,
}

impl Rooms {
    fn of(m: usize) -> Rooms {
        Rooms { sets: vec![0; compact_sets_room(m)], targets: vec![0; compact_targets_room(m)], table: vec![0; table_room(m)] }
    }
}

/// The rest of a line on a word and a text, once both searches have said and listed the same, and how often the first one's time that with compact rows takes.
fn line(word: &[u8], text: &[u8]) -> (String, f64) {
    let Rooms { mut sets, mut targets, mut table } = Rooms::of(word.len());
    let (mut list, mut first_list) = (vec![0; LIST], vec![0; LIST]);
    let said = compact_search(word, text, &mut sets, &mut targets, &mut list).expect("within the limits");
    assert_eq!(search(word, text, &mut table, &mut first_list), Ok(said));
    assert_eq!(list, first_list);
    let [ours, first] = by_turns(
        0.5,
        [&mut || compact_search(word, text, &mut sets, &mut targets, &mut list), &mut || search(word, text, &mut table, &mut first_list)],
    );
    let (times, ratio) = ([ours, first].map(|took| us(took * 1e6)).join(" | "), ours / first);
    (format!("{times} | {ratio:.2} | {:.4} |", per_letter(said.letters, text)), ratio)
}

/// Words that stand in a random text of n letters, from a third of it on.
fn times_in(n: usize) {
    println!("| Alphabet | Word | {HEAD}\n|{}", "---|".repeat(6));
    let ranges = ALPHABETS.map(|letters| {
        let text = Random(362436069 + letters).bytes(n, letters);
        let ratios = LENGTHS.map(|m| {
            let (line, ratio) = line(&text[n / 3..n / 3 + m], &text);
            println!("| {letters} | {m} | {line}");
            ratio
        });
        format!("{} over {letters}", range(ratios))
    });
    println!("\nSo many times the search's time, by letters: {}.", ranges.join(", "));
}

pub fn random_times() {
    times_in(16 << 20);
}

pub fn short_times() {
    times_in(SHORT_TEXT);
}

/// Words and texts as a stranger would choose them.
pub fn hostile_times() {
    println!("| Word | m | {HEAD}\n|{}", "---|".repeat(6));
    let (texts, mut ratios) = (hostile_texts(HOSTILE_TEXT), Vec::new());
    for (name, text, word_of) in hostile_searches(&texts) {
        for m in &LENGTHS[..5] {
            let (line, ratio) = line(&word_of(&text[..*m]), text);
            println!("| {name} | {m} | {line}");
            ratios.push(ratio);
        }
    }
    println!("\n{} times the search's time.", range(ratios));
}

/// Microseconds of `compact_build` and of `build` for one of the words, by turns. Short words are built more often in a run.
fn builds(words: &[Vec<u8>]) -> [f64; 2] {
    let (m, Rooms { mut sets, mut targets, mut table }) = (words[0].len(), Rooms::of(words[0].len()));
    let built = words.len() * LONGEST_WORD / m;
    let each = |run: &mut dyn FnMut(&[u8])| words.iter().cycle().take(built).for_each(|word| run(word));
    let times = by_turns(
        0.5,
        [&mut || each(&mut |word| assert_eq!(compact_build(word, &mut sets, &mut targets), Ok(m))), &mut || {
            each(&mut |word| assert_eq!(build(word, &mut table), Ok(m)));
        }],
    );
    times.map(|seconds| seconds * 1e6 / built as f64)
}

pub fn build_times() {
    println!("| Alphabet | m = {} |\n|{}", LENGTHS.map(|m| m.to_string()).join(" | "), "---|".repeat(1 + LENGTHS.len()));
    for letters in ALPHABETS {
        let times = LENGTHS.map(|m| builds(&random_words(m, letters)));
        println!("| {letters} | {} |", times.map(|[ours, first]| format!("{} ({:.1})", us(ours), ours / first)).join(" | "));
    }
    println!("\nMicroseconds of compact_build, and in brackets how many times those of build.");
}
