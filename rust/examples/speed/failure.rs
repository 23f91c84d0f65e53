//! The failure oracle: the search with it beside the backward search, on random and on hostile texts, and the making of its table beside that of the oracle's.

use crate::clock::{by_turns, ms};
use crate::linear::{fibonacci, hostile_searches, hostile_texts};
use crate::{per_letter, Random};
use marks::entries::{build, failure_build, failure_search, search};
use marks::{failure_table_room, table_room, Refusal, LONGEST_WORD};

/// How many finds both searches list.
const LIST: usize = 1024;

/// The lengths of the words that are looked for.
const LENGTHS: [usize; 5] = [4, 16, 64, 256, 1024];

/// A hostile text has so many letters, of which both searches may read m for each.
const HOSTILE_TEXT: usize = 256 << 10;

const HEAD: &str = "failure search, ms | search | failure search / search | letters read by the failure search | by search \
    | failure arrows taken | for each letter read | ns a step |";

/// What a line says of the failure search: how often the search's time it takes, and nanoseconds for each step, a letter read or a failure arrow taken.
struct Said {
    ratio: f64,
    step: f64,
}

/// The rest of a line on a word and a text, once both searches have said and listed the same.
fn line(word: &[u8], text: &[u8]) -> (String, Said) {
    let (mut tables, mut base_tables) = (vec![0; failure_table_room(word.len())], vec![0; table_room(word.len())]);
    let (mut list, mut base_list) = (vec![0; LIST], vec![0; LIST]);
    let said = failure_search(word, text, &mut tables, &mut list).expect("within the limits");
    let base_said = search(word, text, &mut base_tables, &mut base_list).expect("within the limits");
    assert_eq!((said.count, &list), (base_said.count, &base_list));
    let [ours, base] = by_turns(
        0.5,
        [&mut || failure_search(word, text, &mut tables, &mut list).map(|said| said.count), &mut || {
            search(word, text, &mut base_tables, &mut base_list).map(|said| said.count)
        }],
    );
    let read = [said.letters, base_said.letters, said.failures].map(|count| format!("{:.4}", per_letter(count, text))).join(" | ");
    let for_each = said.failures as f64 / said.letters as f64;
    let (ratio, step) = (ours / base, ours * 1e9 / (said.letters + said.failures) as f64);
    let times = [ours, base].map(|took| ms(Some(took))).join(" | ");
    (format!("{times} | {ratio:.2} | {read} | {for_each:.2} | {step:.1} |"), Said { ratio, step })
}

/// The least and the greatest of some numbers.
pub fn range(numbers: impl IntoIterator<Item = f64>) -> String {
    let (least, most) = numbers.into_iter().fold((f64::INFINITY, 0f64), |(least, most), number| (least.min(number), most.max(number)));
    format!("{least:.1} to {most:.1}")
}

/// Words that stand in a random text.
pub fn random_times() {
    println!("| Alphabet | Word | {HEAD}\n|{}", "---|".repeat(10));
    let (mut ratios, mut steps) = (Vec::new(), Vec::new());
    for letters in [2, 4, 20, 256] {
        let text = Random(362436069 + letters).bytes(16 << 20, letters);
        let said = LENGTHS.map(|m| {
            let (line, said) = line(&text[5_000_000..5_000_000 + m], &text);
            println!("| {letters} | {m} | {line}");
            said
        });
        ratios.push(format!("{} over {letters}", range(said.iter().map(|said| said.ratio))));
        steps.extend(said.map(|said| said.step));
    }
    println!("\nSo many times the search's time, by letters: {}. A step takes {} ns.", ratios.join(", "), range(steps));
}

/// Words and texts as a stranger would choose them.
pub fn hostile_times() {
    println!("| Word | m | {HEAD}\n|{}", "---|".repeat(10));
    let (texts, mut all) = (hostile_texts(HOSTILE_TEXT), Vec::new());
    for (name, text, word_of) in hostile_searches(&texts) {
        for m in LENGTHS {
            let (line, said) = line(&word_of(&text[..m]), text);
            println!("| {name} | {m} | {line}");
            all.push(said);
        }
    }
    let [ratios, steps] = [range(all.iter().map(|said| said.ratio)), range(all.iter().map(|said| said.step))];
    println!("\n{ratios} times the search's time. A step takes {steps} ns.");
}

/// The words whose tables are made, each four times as long as the one before.
const BUILT: [usize; 4] = [64, 256, 1024, LONGEST_WORD];

/// So many random words of each length.
const WORDS: u64 = 16;

/// Letter i of the Thue-Morse words is b where i has an odd number of ones among its binary digits.
fn thue_morse(m: usize) -> Vec<u8> {
    (0..m).map(|i| b'a' + (i.count_ones() % 2) as u8).collect()
}

/// A word whose failure oracle has a symbol arrow from state 13 to itself on b, and then b's: its ends go round there, and leave the spine at each letter.
fn going_round(m: usize) -> Vec<u8> {
    b"abadbcaabdbaba".iter().chain([b'b'].iter().cycle()).take(m).copied().collect()
}

pub fn random_words(m: usize, letters: u64) -> Vec<Vec<u8>> {
    (0..WORDS).map(|i| Random(88172645463325252 + i).bytes(m, letters)).collect()
}

/// An entry that makes a table.
pub type Build = fn(&[u8], &mut [u16]) -> Result<usize, Refusal>;

/// Microseconds of an entry, which takes so much room, and of `build` for one of the words, by turns. Short words are built more often in a run.
pub fn builds(entry: Build, room: usize, words: &[Vec<u8>]) -> [f64; 2] {
    let m = words[0].len();
    let (mut tables, mut base_tables, built) = (vec![0; room], vec![0; table_room(m)], words.len() * LONGEST_WORD / m);
    let run = |entry: Build, tables: &mut [u16]| words.iter().cycle().take(built).for_each(|word| assert_eq!(entry(word, tables), Ok(m)));
    let times = by_turns(0.5, [&mut || run(entry, &mut tables), &mut || run(build, &mut base_tables)]);
    times.map(|seconds| seconds * 1e6 / built as f64)
}

/// Microseconds, with two digits where they are few.
pub fn us(took: f64) -> String {
    if took < 10.0 {
        format!("{took:.2}")
    } else {
        format!("{took:.0}")
    }
}

/// What words are called, and those of m letters.
pub type Kind = (&'static str, fn(usize) -> Vec<Vec<u8>>);

const RANDOM: [Kind; 3] = [
    ("random, 2 letters", |m| random_words(m, 2)),
    ("random, 4 letters", |m| random_words(m, 4)),
    ("random, 256 letters", |m| random_words(m, 256)),
];

const REPEATING: [Kind; 7] = [
    ("a, m times", |m| vec![vec![b'a'; m]]),
    ("a, then b", |m| vec![[&vec![b'a'; m - 1][..], b"b"].concat()]),
    ("b, then a, then c", |m| vec![[b"b", &vec![b'a'; m - 2][..], b"c"].concat()]),
    ("ab over and over", |m| vec![b"ab".repeat(m / 2)]),
    ("Fibonacci", |m| vec![fibonacci(m)]),
    ("Thue-Morse", |m| vec![thue_morse(m)]),
    ("abadbcaabdbaba, then b", |m| vec![going_round(m)]),
];

/// Prints the two lines of each kind of words. How often the time of 1,024 letters `failure_build` and `build` take for 4,096.
fn build_lines(kinds: &[Kind]) -> [Vec<f64>; 2] {
    let mut growths = [Vec::new(), Vec::new()];
    for (name, words_of) in kinds {
        let times = BUILT.map(|m| builds(failure_build, failure_table_room(m), &words_of(m)));
        let [ours, base] = [0, 1].map(|i| times[3][i] / times[2][i]);
        let cells = times.map(|[ours, base]| format!("{} ({:.1})", us(ours), ours / base)).join(" | ");
        println!("| {name} | failure_build | {cells} | {ours:.1} |");
        println!("| {name} | build | {} | {base:.1} |", times.map(|[_, base]| us(base)).join(" | "));
        growths[0].push(ours);
        growths[1].push(base);
    }
    growths
}

pub fn build_times() {
    let lengths = BUILT.map(|m| m.to_string()).join(" | ");
    println!("| Word | Made by | m = {lengths} | {} / {} |\n|{}", BUILT[3], BUILT[2], "---|".repeat(7));
    let [random, base_random] = build_lines(&RANDOM).map(range);
    let [repeating, base_repeating] = build_lines(&REPEATING).map(range);
    println!("\nFour times as many letters, 4,096 after 1,024, take failure_build {random} times as long for random words and {repeating}");
    println!("times for words that repeat themselves; build {base_random} and {base_repeating} times.");
}
