//! What the face for Rust adds to the entry below it: counting, iterating and reading, beside one call of the entry.

use crate::clock::by_turns;
use crate::Random;
use marks::entries::{search, turbo};
use marks::{table_room, Engine, Mark, LONGEST_WORD};

const TEXT: usize = 1 << 20;

/// Microseconds of one call of the entry, of a count, of an iteration and of a reader's, by turns; and how many finds each has.
fn of_engine(mark: &Mark, engine: Engine, text: &[u8]) -> ([f64; 4], u64) {
    let entry = if engine == Engine::Turbo { turbo } else { search };
    let (mut tables, mut list) = (vec![0; table_room(mark.word().len())], vec![0; 4_096]);
    let found = mark.count(text);
    let mut runs: [&mut dyn FnMut() -> u64; 4] = [
        &mut || entry(mark.word(), text, &mut tables, &mut list).expect("within the limits").count,
        &mut || mark.count(text),
        &mut || mark.find_iter(text).fold(0, |count, at| count + u64::from(at < TEXT)),
        &mut || mark.find_in(text).fold(0, |count, at| count + u64::from(at.expect("a slice is read") < TEXT as u64)),
    ];
    for run in &mut runs {
        assert_eq!(run(), found);
    }
    (by_turns(0.25, runs).map(|seconds| seconds * 1e6), found)
}

pub fn face_times() {
    println!("| Alphabet | Word | Engine | finds | entry, µs | count | find_iter | find_in | count / entry | find_iter / count |");
    println!("|---|---|---|---|---|---|---|---|---|---|");
    for letters in [1, 2, 4, 256] {
        let text = Random(88172645463325252).bytes(TEXT, letters);
        for m in [2, 4, 16, 64, 256, 1_024, LONGEST_WORD] {
            for engine in [Engine::Auto, Engine::Backward, Engine::Turbo] {
                if letters == 1 && engine == Engine::Backward {
                    continue;
                }
                let mark = Mark::new(&text[TEXT / 2..TEXT / 2 + m]).expect("a word within the limit").engine(engine);
                let ([entry, count, iter, read], found) = of_engine(&mark, engine, &text);
                print!("| {letters} | {m} | {engine:?} | {found} | {entry:.0} | {count:.0} | {iter:.0} | {read:.0} ");
                println!("| {:.2} | {:.2} |", count / entry, iter / count);
            }
        }
    }
}
