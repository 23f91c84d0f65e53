//! Compact rows and the search with them: all of both rooms held against the rule as docs/TABLE.md words it, which is run plainly here; every arrow against
//! that of the first form, for every state and byte; finds and letters against those of the first search.
mod chance;
mod every;

use chance::{random, random_bytes};
use every::words_of;
use marks::entries::{build, compact_build, compact_search, search, Tally};
use marks::{compact_sets_room, compact_targets_room, table_room, Engine, Mark, Refusal, LONGEST_TEXT, LONGEST_WORD};
use std::collections::BTreeMap;

/// What is in the rooms before an entry writes to them, and how much of it is behind what a word needs.
const LEFT_OF_SETS: u64 = 0x0707_0707_0707_0707;
const LEFT: u16 = 7;
const BEHIND: usize = 3;

/// Compact rows of a word of n-1 letters.
#[derive(Debug, PartialEq)]
struct Rows {
    sets: Vec<u64>,
    targets: Vec<u16>,
    n: usize,
}

impl Rows {
    /// Rooms to lend for a word of m letters, and longer than it needs.
    fn lent(m: usize) -> Rows {
        let (sets, targets) = (compact_sets_room(m) + BEHIND, compact_targets_room(m) + BEHIND);
        Rows { sets: vec![LEFT_OF_SETS; sets], targets: vec![LEFT; targets], n: m + 1 }
    }

    /// What a word needs of them; all that is behind is as it was.
    #[track_caller]
    fn needed(mut self) -> Rows {
        assert_eq!(self.sets.split_off(4 * self.n), [LEFT_OF_SETS; BEHIND]);
        assert_eq!(self.targets.split_off(10 * self.n), [LEFT; BEHIND]);
        self
    }

    fn is_in_set(&self, state: usize, letter: u8) -> bool {
        self.sets[4 * state + usize::from(letter / 64)] >> (letter % 64) & 1 == 1
    }

    /// Where the arrow from a state on a letter leads: by the rule, which counts the letters below from where the state's targets start, and as quickly from
    /// where those of the letter's own word do.
    #[track_caller]
    fn arrow(&self, state: usize, letter: u8) -> Option<usize> {
        if !self.is_in_set(state, letter) {
            return None;
        }
        let (starts, word) = (4 * self.n + 4 * state, usize::from(letter / 64));
        let below = (0..letter).filter(|other| self.is_in_set(state, *other)).count();
        let below_in_word = (self.sets[4 * state + word] & ((1 << (letter % 64)) - 1)).count_ones() as usize;
        let target = self.targets[8 * self.n + usize::from(self.targets[starts]) + below];
        assert_eq!(self.targets[8 * self.n + usize::from(self.targets[starts + word]) + below_in_word], target);
        Some(target.into())
    }
}

/// The compact rows of a word, by the entry.
#[track_caller]
fn built(word: &[u8]) -> Rows {
    let mut rows = Rows::lent(word.len());
    assert_eq!(compact_build(word, &mut rows.sets, &mut rows.targets), Ok(word.len()));
    rows.needed()
}

/// The first form of a word's oracle.
fn first_form(word: &[u8]) -> Vec<u16> {
    let mut table = vec![0; table_room(word.len())];
    build(word, &mut table).unwrap();
    table
}

/// Its arrow from a state on a letter, by its own rule.
fn first_arrow(table: &[u16], n: usize, state: usize, letter: u8) -> Option<usize> {
    let carries = |target: &usize| table[*target] == u16::from(letter);
    let spine = (state + 1 < n).then_some(state + 1).filter(carries);
    let extra = || (table[2 * n + state]..table[2 * n + state + 1]).map(|slot| table[3 * n + usize::from(slot)].into()).find(carries);
    spine.or_else(|| if state + 1 < n { extra() } else { None })
}

/// The arrows of each state, as the suffix rule makes them.
fn oracle(word: &[u8]) -> Vec<BTreeMap<u8, usize>> {
    let mut arrows: Vec<_> = (1..).zip(word).map(|(state, letter)| BTreeMap::from([(*letter, state)])).collect();
    arrows.push(BTreeMap::new());
    for start in 1..word.len() {
        let mut state = 0;
        for (place, letter) in word.iter().enumerate().skip(start) {
            let known = arrows[state].get(letter).copied();
            state = *arrows[state].entry(*letter).or_insert(place + 1);
            if known.is_none() {
                break;
            }
        }
    }
    arrows
}

/// The compact rows of a word as they are worded, but for the supplies, which are those of the first form.
fn plain(word: &[u8]) -> Rows {
    let (n, arrows) = (word.len() + 1, oracle(word));
    let (mut sets, mut targets) = (vec![0; 4 * n], vec![0; 10 * n]);
    targets[1..n].copy_from_slice(&word.iter().map(|letter| u16::from(*letter)).collect::<Vec<_>>());
    targets[n..2 * n].copy_from_slice(&first_form(word)[n..2 * n]);
    let all: Vec<(usize, u8, usize)> =
        (0..n).flat_map(|state| arrows[state].iter().map(move |(letter, target)| (state, *letter, *target))).collect();
    for (place, (state, letter, target)) in all.iter().enumerate() {
        let word = 4 * state + usize::from(letter / 64);
        sets[word] |= 1 << (letter % 64);
        targets[4 * n + word + 1..8 * n].iter_mut().for_each(|before| *before += 1);
        targets[8 * n + place] = *target as u16;
    }
    Rows { sets, targets, n }
}

fn mirror(word: &[u8]) -> Vec<u8> {
    word.iter().rev().copied().collect()
}

/// The finds and the answer by the entry, which leaves the compact rows of the word's mirror.
#[track_caller]
fn searched(word: &[u8], text: &[u8]) -> (Vec<u32>, Tally) {
    let (mut rows, mut finds) = (Rows::lent(word.len()), vec![9; text.len() + 1]);
    let tally = compact_search(word, text, &mut rows.sets, &mut rows.targets, &mut finds).unwrap();
    assert_eq!(rows.needed(), built(&mirror(word)));
    assert!(finds[tally.count as usize..].iter().all(|entry| *entry == 9));
    finds.truncate(tally.count as usize);
    (finds, tally)
}

/// The same by the first search.
fn searched_first(word: &[u8], text: &[u8]) -> (Vec<u32>, Tally) {
    let (mut table, mut finds) = (vec![0; table_room(word.len())], vec![9; text.len() + 1]);
    let tally = search(word, text, &mut table, &mut finds).unwrap();
    finds.truncate(tally.count as usize);
    (finds, tally)
}

/// Letters that follow each other across the end of the first word of a set, and with all 256 of every word.
fn letters_across(seed: &mut u64, n: usize, letters: u64) -> Vec<u8> {
    random_bytes(seed, n, letters).iter().map(|letter| letter.wrapping_add(55)).collect()
}

/// Words that have many arrows, few, or all at one state: of every letter, of one letter, of one that ends otherwise, and with periods.
fn longest_words() -> Vec<Vec<u8>> {
    let with_period =
        |period: usize| (1..=LONGEST_WORD).map(|i| if i % period == 0 { 255 } else { 64 * (i % 3) as u8 }).collect::<Vec<u8>>();
    let zeros = vec![0; LONGEST_WORD - 1];
    vec![
        (0..=255).cycle().take(LONGEST_WORD).collect(),
        (0..=255).rev().cycle().take(LONGEST_WORD).collect(),
        [&zeros[..], &[0]].concat(),
        [&zeros[..], &[255]].concat(),
        [&[255], &zeros[..]].concat(),
        with_period(2),
        with_period(1_000),
    ]
}

#[test]
fn the_form_of_a_letter_and_of_the_worked_example() {
    let rows = built(b"a");
    assert_eq!(rows.sets, [0, 1 << (97 - 64), 0, 0, 0, 0, 0, 0]);
    assert_eq!(rows.targets, [0, 97, 0, 0, 0, 0, 0, 0, 0, 0, 1, 1, 1, 1, 1, 1, 1, 0, 0, 0]);
    let (rows, of) = (built(b"abbbaab"), |letters: &[u8]| letters.iter().map(|letter| 1 << (letter - 64)).sum::<u64>());
    let [a, b, both] = [&b"a"[..], b"b", b"ab"].map(of);
    let second_words: Vec<u64> = rows.sets.iter().skip(1).step_by(4).copied().collect();
    assert_eq!(second_words, [both, both, both, both, a, a, b, 0]);
    assert_eq!(rows.sets.iter().filter(|word| **word != 0).count(), 7);
    assert_eq!(rows.targets[..32], [&[0][..], &b"abbbaab".map(u16::from), &[0, 0, 0, 2, 3, 1, 1, 2], &[0; 16]].concat());
    let starts = [[0, 0, 2, 2], [2, 2, 4, 4], [4, 4, 6, 6], [6, 6, 8, 8], [8, 8, 9, 9], [9, 9, 10, 10], [10, 10, 11, 11], [11; 4]];
    assert_eq!(rows.targets[32..64], starts.concat());
    assert_eq!(rows.targets[64..], [1, 2, 6, 2, 5, 3, 5, 4, 5, 6, 7, 0, 0, 0, 0, 0]);
}

#[test]
fn every_short_word_has_the_form_of_the_rule() {
    for word in (1..=10).flat_map(|length| words_of(length, 2)).chain((1..=7).flat_map(|length| words_of(length, 3))) {
        assert_eq!(built(&word), plain(&word), "{}", word.escape_ascii());
    }
}

#[test]
fn longer_words_have_it_too() {
    let mut seed = 88172645463325252;
    for round in 0..400 {
        let (letters, m) = ([2, 4, 20, 256][round % 4], 1 + random(&mut seed) as usize % [20, 60, 300][round / 4 % 3]);
        let word = letters_across(&mut seed, m, letters);
        assert_eq!(built(&word), plain(&word), "{}", word.escape_ascii());
    }
    let random_words = [2, 256].map(|letters| letters_across(&mut seed, LONGEST_WORD, letters));
    for word in longest_words().iter().chain(&random_words) {
        assert_eq!(built(word), plain(word), "{} and more", word[..9].escape_ascii());
    }
}

/// The arrow of both forms is the same, from every state on every byte.
#[track_caller]
fn both_forms_agree(word: &[u8]) {
    let (rows, first, n) = (built(word), first_form(word), word.len() + 1);
    for state in 0..n {
        for letter in 0..=255 {
            assert_eq!(rows.arrow(state, letter), first_arrow(&first, n, state, letter), "state {state}, letter {letter}");
        }
    }
    // letters and supplies are the first form's
    assert_eq!(rows.targets[..2 * n], first[..2 * n]);
}

#[test]
fn every_arrow_is_that_of_the_first_form_for_every_state_and_byte() {
    let mut seed = 521288629;
    for word in (1..=7).flat_map(|length| words_of(length, 2)).chain((1..=5).flat_map(|length| words_of(length, 3))) {
        both_forms_agree(&word);
    }
    for round in 0..200 {
        let (letters, m) = ([2, 4, 20, 256][round % 4], 1 + random(&mut seed) as usize % [10, 70, 400][round / 4 % 3]);
        both_forms_agree(&letters_across(&mut seed, m, letters));
    }
    for letters in [2, 4, 20, 256] {
        both_forms_agree(&letters_across(&mut seed, LONGEST_WORD, letters));
    }
    for word in longest_words() {
        both_forms_agree(&word);
    }
}

#[test]
fn every_word_in_every_short_text_as_the_first_search_has_it() {
    for word in (1..=4).flat_map(|length| words_of(length, 2)).chain((1..=3).flat_map(|length| words_of(length, 3))) {
        for text in (0..=9).flat_map(|length| words_of(length, 2)).chain((0..=5).flat_map(|length| words_of(length, 3))) {
            assert_eq!(searched(&word, &text), searched_first(&word, &text), "{} in {}", word.escape_ascii(), text.escape_ascii());
        }
    }
}

#[test]
fn random_words_and_texts_as_the_first_search_has_them() {
    let mut seed = 362436069;
    for round in 0..400 {
        let letters = [2, 4, 20, 256][round % 4];
        let m = 1 + random(&mut seed) as usize % [10, 40, 300][round / 4 % 3];
        // from 200 letters for each of the word's on, a search prepares itself
        let text = letters_across(&mut seed, [1_000, 200 * m - 1, 200 * m, 30_000][round / 12 % 4].max(300 + m), letters);
        // one that stands there, its letters moved about, and another
        let (stands, other) = (text[300..300 + m].to_vec(), letters_across(&mut seed, m, letters));
        for word in [stands.clone(), mirror(&stands), other] {
            assert_eq!(searched(&word, &text), searched_first(&word, &text), "{} letters of {letters} in {}", m, text.len());
        }
    }
}

#[test]
fn long_words_in_texts_that_are_made_of_them_as_the_first_search_has_them() {
    let mut seed = 123456789;
    let random_words = [2, 4, 20, 256].map(|letters| letters_across(&mut seed, LONGEST_WORD, letters));
    for word in longest_words().iter().chain(&random_words) {
        for m in [1, 2, 63, 64, 65, 1_000, LONGEST_WORD] {
            let word = &word[..m];
            let mut text = [word, &mirror(word), word, word, &word[m / 2..], word].concat();
            text.extend(word.iter().cycle().take(12_000));
            assert_eq!(searched(word, &text), searched_first(word, &text), "{m} letters, {} and more", word[..m.min(9)].escape_ascii());
        }
    }
}

#[test]
fn the_examples_of_the_search() {
    assert_eq!(searched(b"aba", b"ababa"), (vec![0, 2], Tally { count: 2, letters: 6 }));
    assert_eq!(searched(b"aa", b"aaaa"), (vec![0, 1, 2], Tally { count: 3, letters: 6 }));
    assert_eq!(searched(b"ab", b"abxa"), (vec![0], Tally { count: 1, letters: 4 }));
    assert_eq!(searched(b"a", b"aba"), (vec![0, 2], Tally { count: 2, letters: 3 }));
    assert_eq!((searched(b"abc", b"ab"), searched(b"abc", b"")), ((vec![], Tally::default()), (vec![], Tally::default())));
}

#[test]
fn the_list_gets_the_first_finds_and_the_count_is_exact() {
    for list in 0..=4 {
        let (mut rows, mut finds) = (Rows::lent(2), [9; 4]);
        let told = compact_search(b"aa", b"aaaa", &mut rows.sets, &mut rows.targets, &mut finds[..list]).unwrap();
        assert_eq!(told, Tally { count: 3, letters: 6 });
        let listed = [0, 1, 2, 9];
        assert!((0..4).all(|i| finds[i] == if i < list.min(3) { listed[i] } else { 9 }));
    }
}

/// What both entries say of a word with so many words of sets and entries of targets, the search in a text of the longest length; and what the search says in
/// one that is a letter longer.
fn refused(word: &[u8], sets: usize, targets: usize, rows: &mut Rows, text: &[u8], finds: &mut [u32]) -> [Option<Refusal>; 3] {
    let (sets, targets) = (&mut rows.sets[..sets], &mut rows.targets[..targets]);
    [
        compact_build(word, sets, targets).err(),
        compact_search(word, &text[1..], sets, targets, finds).err(),
        compact_search(word, text, sets, targets, finds).err(),
    ]
}

#[test]
fn what_is_refused_changes_nothing() {
    let (longest, text) = (vec![b'a'; LONGEST_WORD + 1], vec![b'.'; LONGEST_TEXT + 1]);
    let (mut rows, mut finds) = (Rows::lent(LONGEST_WORD), [9; 2]);
    let (sets, targets) = (compact_sets_room(LONGEST_WORD), compact_targets_room(LONGEST_WORD));
    let short = Refusal::ShortRoom;
    for (word, sets, targets, refusal) in [
        (&b""[..], 0, 0, Refusal::EmptyWord),
        (b"", sets, targets, Refusal::EmptyWord),
        (&longest, 0, 0, Refusal::LongWord),
        (&longest, sets + BEHIND, targets + BEHIND, Refusal::LongWord),
        // each room by itself, and both
        (&longest[1..], sets - 1, targets, short),
        (&longest[1..], sets, targets - 1, short),
        (&longest[1..], sets - 1, targets - 1, short),
        (b"a", 7, 20, short),
        (b"a", 8, 19, short),
        (b"ab", 0, 30, short),
        (b"ab", 12, 0, short),
        (b"ab", 0, 0, short),
        // the room of the first form
        (b"ab", 12, table_room(2), short),
        (b"ab", sets, 29, short),
        (b"ab", 11, targets, short),
    ] {
        // a text that is too long comes behind the word, and before the rooms
        let longer = if refusal == short { Refusal::LongText } else { refusal };
        let said = refused(word, sets, targets, &mut rows, &text, &mut finds);
        assert_eq!(said, [Some(refusal), Some(refusal), Some(longer)], "{} letters, {sets} and {targets}", word.len());
    }
    assert_eq!(compact_search(b"ab", &text, &mut rows.sets, &mut rows.targets, &mut finds), Err(Refusal::LongText));
    assert_eq!((rows, finds), (Rows::lent(LONGEST_WORD), [9; 2]));
}

#[test]
fn the_least_rooms_are_enough() {
    for word in [&b"a"[..], b"ab", &[0; LONGEST_WORD]] {
        let (mut sets, mut targets) = (vec![0; compact_sets_room(word.len())], vec![0; compact_targets_room(word.len())]);
        assert_eq!(compact_build(word, &mut sets, &mut targets), Ok(word.len()));
        assert_eq!(compact_search(word, word, &mut sets, &mut targets, &mut []).map(|told| told.count), Ok(1));
    }
}

#[test]
fn a_text_at_the_limit_is_searched_to_its_last_letter() {
    let mut text = vec![b'a'; LONGEST_TEXT];
    text[..2].copy_from_slice(b"xy");
    text[LONGEST_TEXT - 2..].copy_from_slice(b"xy");
    let (mut rows, mut finds) = (Rows::lent(2), [9; 3]);
    // between the finds the `a` at each odd place fails
    let told = Tally { count: 2, letters: 2 + (LONGEST_TEXT as u64 - 4) / 2 + 2 };
    assert_eq!(compact_search(b"xy", &text, &mut rows.sets, &mut rows.targets, &mut finds), Ok(told));
    assert_eq!(finds, [0, LONGEST_TEXT as u32 - 2, 9]);
    assert_eq!(rows.needed(), built(b"yx"));
}

#[test]
fn the_letters_pass_32_bits() {
    let text = vec![b'a'; 1_053_000];
    let mut rows = Rows::lent(LONGEST_WORD);
    let count = (text.len() - LONGEST_WORD + 1) as u64;
    let told = compact_search(&text[..LONGEST_WORD], &text, &mut rows.sets, &mut rows.targets, &mut []).unwrap();
    assert_eq!(told, Tally { count, letters: count * LONGEST_WORD as u64 });
    assert!(told.letters > u64::from(u32::MAX));
}

#[test]
fn a_mark_reads_the_letters_of_the_backward_search() {
    let mut seed = 736338717;
    for round in 0..80 {
        let letters = [2, 4, 20, 256][round % 4];
        let text = letters_across(&mut seed, 300_000, letters);
        let m = 1 + random(&mut seed) as usize % [3, 30, 400, LONGEST_WORD][round / 4 % 4];
        let [backward, compact] = [Engine::Backward, Engine::Compact].map(|engine| {
            let mark = Mark::new(&text[5_000..5_000 + m]).unwrap().engine(engine);
            let (mut finds, mut finds_in) = (mark.find_iter(&text), mark.find_in(&text[..]));
            let listed = (finds.by_ref().collect::<Vec<_>>(), finds.letters());
            let read = (finds_in.by_ref().map(Result::unwrap).collect::<Vec<_>>(), finds_in.letters());
            (listed, read, mark.tally(&text), mark.find_in(&text[..]).tally().unwrap(), mark.find(&text))
        });
        assert_eq!(compact, backward, "{m} letters of {letters}");
    }
}
