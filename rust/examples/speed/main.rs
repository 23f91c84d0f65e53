//! speed [TABLE..]: measures `build`, `load`, `search`, `turbo`, `take`, `salvage`, the failure oracle and compact rows on this machine,
//! damages files and counts what becomes of them, and prints the tables of docs/SPEED.md, or those that are named, each between two lines
//! that name it. Run it by `tools/speed`.

mod arrows;
mod clock;
mod compact;
mod damage;
mod editions;
mod faces;
mod failure;
mod linear;
#[cfg(with_older)]
mod lookup;
mod pieces;
mod plain;
mod plain_forward;
mod plain_rides;
mod plain_stream;
mod rivals;
mod salvage;
mod storacle;

use clock::{best, ms};
use marks::entries::{build, load, save, search, Tally};
use marks::{table_room, LONGEST_FILE, LONGEST_WORD};
use plain::Plain;
use rivals::{memchr_count, memmem_count};
use std::time::Instant;

/// A small generator of its own, so that every run measures the same inputs.
struct Random(u64);

impl Random {
    fn next(&mut self) -> u64 {
        self.0 ^= self.0 << 13;
        self.0 ^= self.0 >> 7;
        self.0 ^= self.0 << 17;
        self.0
    }

    fn bytes(&mut self, n: usize, letters: u64) -> Vec<u8> {
        (0..n).map(|_| (self.next() >> 20).wrapping_rem(letters) as u8).collect()
    }
}

/// The words that are built and loaded, each twice as long as the one before.
const LENGTHS: [usize; 6] = [128, 256, 512, 1024, 2048, LONGEST_WORD];

/// So many random words of each length, each built or loaded so often in a run.
const WORDS: u64 = 64;
const TURNS: usize = 4;

/// The head of a table with a column for each length, behind the columns that are named.
fn lengths_head(before: &str) -> String {
    let lengths = LENGTHS.map(|m| m.to_string()).join(" | ");
    let columns = before.matches('|').count() - 1 + LENGTHS.len();
    format!("{before} m = {lengths} |\n|{}", "---|".repeat(columns))
}

/// Microseconds for one word of each length, from the fastest of twelve runs. The lengths take turns, so that a slow moment of the machine falls on all of
/// them.
fn by_length(mut run: impl FnMut(usize)) -> [f64; LENGTHS.len()] {
    let mut fastest = [f64::INFINITY; LENGTHS.len()];
    for _ in 0..12 {
        for (i, best) in fastest.iter_mut().enumerate() {
            let start = Instant::now();
            for _ in 0..TURNS {
                run(i);
            }
            *best = start.elapsed().as_secs_f64().min(*best);
        }
    }
    fastest.map(|seconds| seconds * 1e6 / (TURNS * WORDS as usize) as f64)
}

fn build_times() {
    println!("{}", lengths_head("| Alphabet |"));
    for letters in [2, 4, 256] {
        let words = LENGTHS.map(|m| (0..WORDS).map(|i| Random(88172645463325252 + i).bytes(m, letters)).collect::<Vec<_>>());
        let mut tables = vec![0u16; table_room(LONGEST_WORD)];
        let times = by_length(|i| {
            for word in &words[i] {
                build(word, &mut tables[..table_room(word.len())]).expect("a word within the limit");
            }
        });
        print!("| {letters} | {:.1} |", times[0]);
        for pair in times.windows(2) {
            print!(" {:.1} ({:.2}) |", pair[1], pair[1] / pair[0]);
        }
        println!();
    }
}

/// A file and what becomes of it when it is damaged.
fn damaged(file: &[u8], how: &str) -> Vec<u8> {
    let (&last, before) = file.split_last().expect("no file is empty");
    match how {
        "good" => file.to_vec(),
        "last arrow differs (10)" => [before, &[last ^ 1]].concat(),
        "one byte more (11)" => [file, &[0]].concat(),
        _ => before.to_vec(),
    }
}

/// The files of random words of m letters, each damaged.
fn files(m: usize, letters: u64, how: &str) -> Vec<Vec<u8>> {
    let (mut tables, mut out) = (vec![0; table_room(m)], vec![0; LONGEST_FILE]);
    let mut file = |i| {
        let word = Random(88172645463325252 + i).bytes(m, letters);
        let length = save(&word, &mut tables, &mut out).expect("a word within the limit");
        damaged(&out[..length], how)
    };
    (0..WORDS).map(&mut file).collect()
}

fn load_times() {
    println!("{}", lengths_head("| Alphabet | File |"));
    let (mut tables, mut room) = (vec![0u16; table_room(LONGEST_WORD)], vec![0u8; LONGEST_WORD]);
    for letters in [2, 4, 256] {
        for how in ["good", "last arrow differs (10)", "one byte more (11)", "one byte less (5)"] {
            let files = LENGTHS.map(|m| files(m, letters, how));
            assert!(files.iter().flatten().all(|file| load(file, &mut room, &mut tables).is_ok() == (how == "good")));
            let times = by_length(|i| {
                for file in &files[i] {
                    let _ = std::hint::black_box(load(file, &mut room[..LENGTHS[i]], &mut tables[..table_room(LENGTHS[i])]));
                }
            });
            print!("| {letters} | {how} |");
            for (i, took) in times.iter().enumerate() {
                let bytes = files[i].iter().map(Vec::len).sum::<usize>() as f64 / WORDS as f64;
                let ratio = if i > 0 { format!("{:.2}, ", took / times[i - 1]) } else { String::new() };
                print!(" {took:.1} ({ratio}{:.0}) |", took * 1e3 / bytes);
            }
            println!();
        }
    }
    let took = best(|| {
        for _ in 0..1_000_000 {
            let _ = std::hint::black_box(load(&[0x01, 0xFF, 0xFF, 0xFF, 0xFF, 0x0F], &mut room, &mut tables));
        }
    });
    println!("\n01 FF FF FF FF 0F, which declares 4,294,967,295 letters, is refused in {:.0} nanoseconds.", took * 1e3);
}

/// Seconds of our search, of plain Rust, of memmem and of memchr, once all four have said the same; and what our search said.
fn race(word: &[u8], text: &[u8]) -> ([Option<f64>; 4], Tally) {
    let (mut tables, mut finds) = (vec![0u16; table_room(word.len())], vec![0u32; 1024]);
    let said = search(word, text, &mut tables, &mut finds).expect("within the limits");
    assert_eq!(Plain::new(word).count(text), (said.count, said.letters));
    assert_eq!(memmem_count(word, text), said.count);
    let memchr = memchr_count(word, text);
    assert!(memchr.is_none_or(|count| count == said.count));
    let ours = best(|| search(word, text, &mut tables, &mut finds));
    let plain = best(|| Plain::new(word).count(text));
    let library = best(|| memmem_count(word, text));
    let crates = memchr.map(|_| best(|| memchr_count(word, text)));
    ([Some(ours), Some(plain), Some(library), crates], said)
}

const RACE: &str = "search, ms | plain Rust | memmem | memchr | search / plain |";

fn ratio(times: &[Option<f64>; 4]) -> f64 {
    times[0].zip(times[1]).map_or(0.0, |(ours, plain)| ours / plain)
}

/// Letters read for each letter of text.
fn per_letter(letters: u64, text: &[u8]) -> f64 {
    letters as f64 / text.len() as f64
}

fn race_line(start: String, word: &[u8], text: &[u8]) {
    let (times, said) = race(word, text);
    let [ours, plain, memmem, memchr] = times.map(ms);
    println!("{start} {ours} | {plain} | {memmem} | {memchr} | {:.2} | {:.4} |", ratio(&times), per_letter(said.letters, text));
}

fn search_times() {
    println!("| Alphabet | Word | {RACE} letters read |\n|---|---|---|---|---|---|---|---|");
    for letters in [2, 4, 20, 256] {
        let text = Random(362436069 + letters).bytes(16 << 20, letters);
        for m in [4, 16, 64, 256, 1024, LONGEST_WORD] {
            race_line(format!("| {letters} | {m} |"), &text[5_000_000..5_000_000 + m], &text);
        }
    }
}

/// Letters read for each letter of text, beside what is conjectured of them, up to a constant.
fn letters_read() {
    println!("| Alphabet | Word | letters read | log m / m | ratio |\n|---|---|---|---|---|");
    for letters in [2u64, 4, 256] {
        let text = Random(521288629 + letters).bytes(4 << 20, letters);
        for m in [4, 8, 16, 32, 64, 128, 256, 512, 1024, 2048, LONGEST_WORD] {
            let word = Random(2463534242 + m as u64).bytes(m, letters);
            let said = search(&word, &text, &mut vec![0; table_room(m)], &mut []).expect("within the limits");
            let measured = per_letter(said.letters, &text);
            let conjectured = (m as f64).ln() / (letters as f64).ln() / m as f64;
            println!("| {letters} | {m} | {measured:.4} | {conjectured:.4} | {:.2} |", measured / conjectured);
        }
    }
}

/// So many random letters that are not a shorter word over and over.
fn primitive(random: &mut Random, n: usize) -> Vec<u8> {
    loop {
        let word = random.bytes(n, 256);
        if (1..n).all(|turn| [&word[turn..], &word[..turn]].concat() != word) {
            return word;
        }
    }
}

const PERIODIC: &str = "| Period | finds | letters read, steps of one place | letters read \
    | search, ms | plain Rust, steps of one place | plain Rust | memmem | memchr | search / plain |";

/// Words that stand often: word and text have one period. By steps of one place the window moves so far after a find.
fn periodic_times() {
    println!("{PERIODIC}\n|{}", "---|".repeat(10));
    let mut random = Random(777767777);
    for period in [2, 8, 64] {
        let text: Vec<u8> = primitive(&mut random, period).into_iter().cycle().take(1 << 20).collect();
        let word = &text[..256];
        let (times, said) = race(word, &text);
        let (count, letters) = Plain::moving(word, 1).count(&text);
        assert_eq!(count, said.count);
        let steps_of_one = best(|| Plain::moving(word, 1).count(&text));
        print!("| {period} | {count} | {:.4} | {:.4} |", per_letter(letters, &text), per_letter(said.letters, &text));
        let [ours, plain, memmem, memchr] = times.map(ms);
        println!(" {ours} | {} | {plain} | {memmem} | {memchr} | {:.2} |", ms(Some(steps_of_one)), ratio(&times));
    }
}

/// The tables, each by its name.
const TABLES: &[(&str, fn())] = &[
    ("build", build_times),
    ("load", load_times),
    ("editions", editions::load_times),
    ("damage", damage::fates),
    ("search", search_times),
    #[cfg(with_older)]
    ("lookup", lookup::lookup_times),
    ("letters", letters_read),
    ("hostile", || linear::hostile_times(1 << 20)),
    ("hostile_long", || linear::hostile_times(16 << 20)),
    ("zeros", linear::zeros_times),
    ("linear", linear::random_times),
    ("periodic", periodic_times),
    ("pieces", pieces::piece_times),
    ("faces", faces::face_times),
    ("salvage", salvage::listing_times),
    ("failure", failure::random_times),
    ("failure_hostile", failure::hostile_times),
    ("failure_build", failure::build_times),
    ("compact", compact::random_times),
    ("compact_short", compact::short_times),
    ("compact_hostile", compact::hostile_times),
    ("compact_build", compact::build_times),
    ("storacle_build", storacle::build_times),
    ("arrows", arrows::of_random_words),
    ("arrows_all", arrows::of_all_words),
    ("storacle_arrows", arrows::storacles_of_random_words),
    ("storacle_all", arrows::storacles_of_all_words),
    ("storacle_papers", arrows::storacles_of_papers),
];

fn main() -> Result<(), String> {
    let wanted: Vec<String> = std::env::args().skip(1).collect();
    if let Some(unknown) = wanted.iter().find(|name| TABLES.iter().all(|table| table.0 != *name)) {
        return Err(format!("there is no table {unknown}"));
    }
    for &(name, measure) in TABLES {
        if wanted.is_empty() || wanted.iter().any(|one| one == name) {
            println!("<!-- begin {name} -->");
            measure();
            println!("<!-- end {name} -->");
        }
    }
    Ok(())
}
