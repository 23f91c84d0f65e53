//! The failure oracle and the search with it, held against the rule as docs/RULES.md words it, which is run plainly here: every entry of the table, the finds,
//! and both counts.
mod chance;
mod every;

use chance::{random, random_bytes};
use every::words_of;
use marks::entries::{failure_build, failure_search, search, FailureTally};
use marks::{failure_table_room, table_room, Engine, Mark, Refusal, Tally, LONGEST_TEXT, LONGEST_WORD};

/// What is in a room before an entry writes to it.
const LEFT: u16 = 7;

/// The failure oracle as the rule makes it: arrows on letters beside the spine, in the order in which they were added, and failure arrows.
struct Plain {
    word: Vec<u8>,
    beside: Vec<(usize, usize)>,
    failure: Vec<Option<usize>>,
}

impl Plain {
    fn of(word: &[u8]) -> Plain {
        let m = word.len();
        let mut made = Plain { word: word.to_vec(), beside: Vec::new(), failure: vec![None; m + 1] };
        for i in 2..=m {
            let (mut at, mut k) = (0, i - 1);
            while k < m {
                let (next, _) = made.step(at, word[k]);
                match next {
                    Ok(state) => (at, k) = (state, k + 1),
                    Err(end) => {
                        match k > end {
                            true => made.failure[end] = Some(k),
                            false => made.beside.push((end, k + 1)),
                        }
                        break;
                    }
                }
            }
        }
        made
    }

    fn symbol(&self, from: usize, letter: u8) -> Option<usize> {
        let spine = (self.word.get(from) == Some(&letter)).then_some(from + 1);
        let beside = || self.beside.iter().find(|(source, target)| *source == from && self.word[target - 1] == letter).map(|(_, to)| *to);
        spine.or_else(beside)
    }

    /// Where a letter leads, or where its failure path ends; and how many failure arrows were taken.
    fn step(&self, from: usize, letter: u8) -> (Result<usize, usize>, u64) {
        let (mut at, mut failures) = (from, 0);
        loop {
            match (self.symbol(at, letter), self.failure[at]) {
                (Some(next), _) => return (Ok(next), failures),
                (None, Some(other)) => (at, failures) = (other, failures + 1),
                (None, None) => return (Err(at), failures),
            }
        }
    }

    fn arrows(&self) -> usize {
        self.word.len() + self.beside.len() + self.failure.iter().flatten().count()
    }

    /// Its ten rows.
    fn table(&self) -> Vec<u16> {
        let n = self.word.len() + 1;
        let mut table = vec![0; 10 * n];
        for (state, letter) in (1..).zip(&self.word) {
            table[state] = u16::from(*letter);
        }
        for (state, failure) in self.failure.iter().enumerate() {
            table[n + state] = failure.unwrap_or(0) as u16;
        }
        for (slot, (from, to)) in (1..).zip(&self.beside) {
            (table[3 * n + slot], table[2 * n + from], table[4 * n + slot]) = (table[2 * n + from], slot as u16, *to as u16);
        }
        table
    }
}

/// The finds and the answer, by the steps of the rule: they read the window backward, compare the word once m letters were read, and then move by one place, or
/// after a find by m less the word's longest border.
fn searched_plainly(word: &[u8], text: &[u8]) -> (Vec<u32>, FailureTally) {
    let oracle = Plain::of(&mirror(word));
    let border = (0..word.len()).rev().find(|length| word.ends_with(&word[..*length])).unwrap();
    let (mut finds, mut tally, mut start) = (Vec::new(), FailureTally::default(), 0);
    while start + word.len() <= text.len() {
        let (mut state, mut place) = (0, start + word.len());
        let failed = loop {
            if place == start {
                break None;
            }
            place -= 1;
            let (next, failures) = oracle.step(state, text[place]);
            tally.letters += 1;
            tally.failures += failures;
            match next {
                Ok(next) => state = next,
                Err(_) => break Some(place),
            }
        };
        start = match text[start..].starts_with(word) {
            true => {
                finds.push(start as u32);
                start + word.len() - border
            }
            false => failed.unwrap_or(start) + 1,
        };
    }
    tally.count = finds.len() as u64;
    (finds, tally)
}

fn mirror(word: &[u8]) -> Vec<u8> {
    word.iter().rev().copied().collect()
}

/// The table of a word, which is the plain one, and all that is behind it is as it was.
#[track_caller]
fn built(word: &[u8]) -> Vec<u16> {
    let mut tables = vec![LEFT; failure_table_room(word.len()) + 3];
    assert_eq!(failure_build(word, &mut tables), Ok(word.len()));
    assert_eq!(tables.split_off(failure_table_room(word.len())), [LEFT; 3]);
    tables
}

/// The finds and the answer of the entry. It leaves the table of the word's mirror.
#[track_caller]
fn searched(word: &[u8], text: &[u8]) -> (Vec<u32>, FailureTally) {
    let (mut tables, mut finds) = (vec![LEFT; failure_table_room(word.len()) + 3], vec![9; text.len() + 1]);
    let tally = failure_search(word, text, &mut tables, &mut finds).unwrap();
    assert_eq!(tables.split_off(failure_table_room(word.len())), [LEFT; 3]);
    assert_eq!(tables, built(&mirror(word)));
    assert!(finds[tally.count as usize..].iter().all(|entry| *entry == 9));
    finds.truncate(tally.count as usize);
    (finds, tally)
}

fn letters_from_a(seed: &mut u64, n: usize, letters: u64) -> Vec<u8> {
    random_bytes(seed, n, letters).iter().map(|letter| letter.wrapping_add(b'a')).collect()
}

/// Where each failure arrow leads from, and where to.
fn failures_of(word: &[u8]) -> Vec<(usize, usize)> {
    let (table, n) = (built(word), word.len() + 1);
    (0..n).filter(|x| table[n + x] != 0).map(|x| (x, table[n + x].into())).collect()
}

#[test]
fn the_automata_of_the_request() {
    assert_eq!(failures_of(b"abcacdace"), [(0, 1), (1, 2), (2, 5), (3, 5), (5, 8)]);
    assert_eq!(built(b"abcacdace")[20..], [0; 80]);
    assert_eq!(Plain::of(b"abcacdace").arrows(), 14);
    // an arrow on a letter that leads from a state to itself
    assert_eq!(Plain::of(b"abadbcaabdbaba").beside, [(13, 13)]);
    let table = built(b"abadbcaabdbaba");
    assert_eq!((table[2 * 15 + 13], table[3 * 15 + 1], table[4 * 15 + 1], table[13]), (1, 0, 13, u16::from(b'b')));
    assert_eq!(built(b"a"), [0, 97, 0, 0, 0, 0, 0, 0, 0, 0, 0, 0, 0, 0, 0, 0, 0, 0, 0, 0]);
    assert_eq!((failures_of(b"aaa"), failures_of(b"ab")), (vec![], vec![(0, 1)]));
}

#[test]
fn the_counts_of_the_request() {
    let told = |count, letters, failures| FailureTally { count, letters, failures };
    assert_eq!(searched(b"ab", b"ac"), (vec![], told(0, 1, 1)));
    assert_eq!(searched(b"aba", b"ababa"), (vec![0, 2], told(2, 6, 0)));
    // m letters of a text that is not the word, along the arrow from a state to itself
    assert_eq!(searched(b"ababdbaacbdaba", b"abbbbbbbabdbaa"), (vec![], told(0, 14, 3)));
    assert_eq!(searched(b"aa", b"aaaa"), (vec![0, 1, 2], told(3, 6, 0)));
    assert_eq!(searched(b"a", b"aba"), (vec![0, 2], told(2, 3, 0)));
    assert_eq!((searched(b"abc", b"ab"), searched(b"abc", b"")), ((vec![], told(0, 0, 0)), (vec![], told(0, 0, 0))));
    let mark = Mark::new("aba").unwrap().engine(Engine::Failure);
    assert_eq!(mark.tally(b"ababa"), Tally { count: 2, letters: 6 });
    let mut finds = mark.find_in(&b"abab.ab"[..]);
    assert_eq!((finds.tally().unwrap(), finds.failures()), (Tally { count: 1, letters: 4 }, 1));
}

#[test]
fn every_short_word_has_the_table_of_the_rule() {
    for word in (1..=10).flat_map(|length| words_of(length, 2)).chain((1..=7).flat_map(|length| words_of(length, 3))) {
        let plain = Plain::of(&word);
        assert_eq!(built(&word), plain.table(), "{}", word.escape_ascii());
        assert!((word.len()..2 * word.len()).contains(&plain.arrows()));
        assert!(plain.failure.iter().enumerate().all(|(from, to)| to.is_none_or(|to| to > from)));
    }
}

#[test]
fn longer_words_have_it_too() {
    let mut seed = 88172645463325252;
    for round in 0..400 {
        let (letters, m) = ([2, 3, 4, 256][round % 4].min(250), 1 + random(&mut seed) as usize % [20, 60, 300][round / 4 % 3]);
        let word = letters_from_a(&mut seed, m, letters);
        assert_eq!(built(&word), Plain::of(&word).table(), "{}", word.escape_ascii());
    }
    for (m, letters) in [(LONGEST_WORD, 2), (LONGEST_WORD - 1, 250)] {
        let word = letters_from_a(&mut seed, m, letters);
        assert_eq!(built(&word), Plain::of(&word).table());
    }
    for period in [1, 2, 1_000] {
        let word: Vec<u8> = (1..=LONGEST_WORD).map(|i| if i % period == 0 { b'b' } else { b'a' }).collect();
        assert_eq!(built(&word), Plain::of(&word).table());
    }
}

#[test]
fn every_word_in_every_short_text_by_the_steps_of_the_rule() {
    for word in (1..=4).flat_map(|length| words_of(length, 2)).chain((1..=3).flat_map(|length| words_of(length, 3))) {
        for text in (0..=9).flat_map(|length| words_of(length, 2)).chain((0..=5).flat_map(|length| words_of(length, 3))) {
            assert_eq!(searched(&word, &text), searched_plainly(&word, &text), "{} in {}", word.escape_ascii(), text.escape_ascii());
        }
    }
}

#[test]
fn random_words_and_texts_by_the_steps_of_the_rule() {
    let mut seed = 362436069;
    for round in 0..300 {
        let letters = [2, 3, 4, 250][round % 4];
        let text = letters_from_a(&mut seed, 2_000, letters);
        let m = 1 + random(&mut seed) as usize % [10, 40, 300][round / 4 % 3];
        // one that stands there, its letters moved about, and another
        let (stands, other) = (text[700..700 + m].to_vec(), letters_from_a(&mut seed, m, letters));
        for word in [stands.clone(), mirror(&stands), other] {
            let (finds, tally) = searched(&word, &text);
            assert_eq!((finds, tally), searched_plainly(&word, &text));
            assert!(tally.letters <= (m * (text.len() - m + 1)) as u64);
        }
    }
}

/// Few words have arrows on letters beside the spine. The last two have one that leaves the last state.
const WITH_ARROWS_BESIDE: [&[u8]; 5] = [
    b"abadbcaabdbaba",
    b"cbbcabdddcccbabcbbcb",
    b"dbdadabacbbcbddddcbccdaaddadadddbccdbcbc",
    b"aacccbaccaacabcbababbacbbbccaccaaaacacac",
    b"eadabbaddcdabaadbeeeaadbaaedbbaeacddaddd",
];

/// So many letters along arrows of the oracle, at each state one by chance, from state 0 again where none leaves a state.
fn walked(oracle: &Plain, n: usize, seed: &mut u64) -> Vec<u8> {
    let (mut at, mut text) = (0, Vec::new());
    while text.len() < n {
        let letters: Vec<u8> = (b'a'..=b'e').filter(|letter| oracle.step(at, *letter).0.is_ok()).collect();
        match letters.get(random(seed) as usize % letters.len().max(1)) {
            Some(letter) => {
                text.push(*letter);
                at = oracle.step(at, *letter).0.unwrap();
            }
            None => at = 0,
        }
    }
    text
}

#[test]
fn arrows_beside_the_spine_are_walked_by_the_steps_of_the_rule() {
    let (mut seed, mut unfound) = (521288629, 0);
    for held in WITH_ARROWS_BESIDE {
        let (word, oracle, m) = (mirror(held), Plain::of(held), held.len());
        assert!(!oracle.beside.is_empty() && built(held) == oracle.table());
        for _ in 0..200 {
            // a window that ends where the walk began is read along it
            let text = [mirror(&walked(&oracle, 3 * m, &mut seed)), word.clone()].concat();
            let (finds, tally) = searched(&word, &text);
            assert_eq!((finds, tally), searched_plainly(&word, &text));
            let window = searched(&word, &text[2 * m..3 * m]).1;
            unfound += u32::from(window.letters == m as u64 && window.count == 0);
        }
    }
    // m letters were read that are not the word
    assert!(unfound > 0);
    assert!(WITH_ARROWS_BESIDE[3..].iter().all(|word| built(word)[3 * word.len() + 2] != 0));
}

#[test]
fn the_list_gets_the_first_finds_and_the_count_is_exact() {
    for list in 0..=4 {
        let (mut tables, mut finds) = ([0; failure_table_room(2)], [9; 4]);
        let told = failure_search(b"aa", b"aaaa", &mut tables, &mut finds[..list]).unwrap();
        assert_eq!(told, FailureTally { count: 3, letters: 6, failures: 0 });
        let listed = [0, 1, 2, 9];
        assert!((0..4).all(|i| finds[i] == if i < list.min(3) { listed[i] } else { 9 }));
    }
}

#[test]
fn what_is_refused_changes_nothing() {
    let (longest, text) = (vec![b'a'; LONGEST_WORD + 1], vec![b'a'; LONGEST_TEXT + 1]);
    let (mut tables, mut finds) = (vec![LEFT; failure_table_room(LONGEST_WORD)], [9; 2]);
    let all = tables.len();
    for (word, room, refusal) in [
        (&b""[..], 0, Refusal::EmptyWord),
        (&longest, 0, Refusal::LongWord),
        (&longest[1..], all - 1, Refusal::ShortRoom),
        (b"ab", 29, Refusal::ShortRoom),
        (b"ab", table_room(2), Refusal::ShortRoom),
    ] {
        assert_eq!(failure_build(word, &mut tables[..room]), Err(refusal));
        assert_eq!(failure_search(word, &text[1..], &mut tables[..room], &mut finds), Err(refusal));
        // a text that is too long comes behind the word, and before the room
        let also = if refusal == Refusal::ShortRoom { Refusal::LongText } else { refusal };
        assert_eq!(failure_search(word, &text, &mut tables[..room], &mut finds), Err(also));
    }
    assert!(tables.iter().all(|entry| *entry == LEFT) && finds == [9; 2]);
    assert_eq!(failure_build(&longest[1..], &mut tables), Ok(LONGEST_WORD));
    assert_eq!(failure_build(b"ab", &mut tables[..30]), Ok(2));
}

#[test]
fn a_text_at_the_limit_is_searched_to_its_last_letter() {
    let mut text = vec![b'a'; LONGEST_TEXT];
    text[..2].copy_from_slice(b"xy");
    text[LONGEST_TEXT - 2..].copy_from_slice(b"xy");
    let (mut tables, mut finds) = ([0; failure_table_room(2)], [9; 3]);
    // between the finds the `a` at each odd place fails, by one failure arrow
    let between = (LONGEST_TEXT as u64 - 4) / 2;
    let told = FailureTally { count: 2, letters: 2 + between + 2, failures: between };
    assert_eq!(failure_search(b"xy", &text, &mut tables, &mut finds), Ok(told));
    assert_eq!(finds, [0, LONGEST_TEXT as u32 - 2, 9]);
}

#[test]
fn the_letters_pass_32_bits() {
    let text = vec![b'a'; 1_060_000];
    let mut tables = vec![0; failure_table_room(LONGEST_WORD)];
    let count = (text.len() - LONGEST_WORD + 1) as u64;
    let told = failure_search(&text[..LONGEST_WORD], &text, &mut tables, &mut []).unwrap();
    assert_eq!(told, FailureTally { count, letters: count * LONGEST_WORD as u64, failures: 0 });
    assert!(told.letters > u64::from(u32::MAX));
}

#[test]
fn a_mark_is_found_in_more_than_an_entry_takes() {
    let word: Vec<u8> = (0..100u8).collect();
    let mut text = vec![200u8; 2 * LONGEST_TEXT + 12_345];
    let places =
        [0, LONGEST_TEXT - 150, LONGEST_TEXT - 50, LONGEST_TEXT + 50, 2 * LONGEST_TEXT - 99, 2 * LONGEST_TEXT + 1, text.len() - 100];
    for at in places {
        text[at..at + 100].copy_from_slice(&word);
    }
    let mark = Mark::new(&word).unwrap().engine(Engine::Failure);
    assert_eq!(mark.find_iter(&text).collect::<Vec<_>>(), places);
    assert_eq!((mark.count(&text), mark.find(&text[1..])), (places.len() as u64, Some(places[1] - 1)));
    assert!(mark.find_in(&text[..]).map(Result::unwrap).eq(places.map(|at| at as u64)));
    let mut finds = mark.find_iter(&text);
    assert_eq!((finds.tally().count, finds.engine()), (7, Engine::Failure));
    assert!(finds.failures() > 0 && finds.letters() < text.len() as u64 / 90);
}

#[test]
fn only_this_engine_takes_failure_arrows() {
    for engine in [Engine::Auto, Engine::Backward, Engine::Turbo, Engine::Compact] {
        let mark = Mark::new("ab").unwrap().engine(engine);
        let mut finds = mark.find_iter(b"acacac");
        assert_eq!((finds.tally().count, finds.failures()), (0, 0));
    }
}

#[test]
fn its_table_is_not_that_of_the_search() {
    let (mut other, mut tables) = (vec![0; table_room(9)], vec![0; failure_table_room(9)]);
    let text = b"abcacdace".repeat(3);
    let by_search = search(b"abcacdace", &text, &mut other, &mut []).unwrap();
    assert_eq!(failure_search(b"abcacdace", &text, &mut tables, &mut []).unwrap().count, by_search.count);
    assert_ne!(tables[..60], other);
}
