//! The storacle, held against the rule as docs/RULES.md words it, which is run plainly here: every entry of its table. And the walks that the table has, by its
//! reading rule: every factor of the word, and of the word's length the word alone.
mod chance;
mod every;

use chance::{random, random_bytes};
use every::words_of;
use marks::entries::{build, failure_build, storacle_build};
use marks::{failure_table_room, storacle_table_room, table_room, Refusal, LONGEST_STORACLE};

/// What is in a room before an entry writes to it.
const LEFT: u16 = 7;

/// So many entries are lent behind the room that is needed.
const BEHIND: usize = 3;

/// The storacle as the rule makes it: where the arrows of each state lead, that of the spine first, the others in the order in which they were added.
struct Plain {
    word: Vec<u8>,
    targets: Vec<Vec<usize>>,
}

impl Plain {
    fn of(word: &[u8]) -> Plain {
        let m = word.len();
        let spine = (1..=m).map(|next| vec![next]).chain([vec![]]);
        let mut made = Plain { word: word.to_vec(), targets: spine.collect() };
        for before in 1..m {
            made.add_suffix(before);
        }
        made
    }

    /// The suffix behind so many letters is walked again after each arrow that it lacked.
    fn add_suffix(&mut self, before: usize) {
        loop {
            let (stuck, spelled) = self.walk(before);
            let Some(letter) = self.word.get(spelled) else { return };
            let later = (stuck + 1..=self.word.len()).find(|state| self.word[state - 1] == *letter).expect("a later state has the letter");
            self.targets[stuck].push(later);
        }
    }

    /// How far the letters behind so many are walked from state 0: the state, and up to which letter of the word they are spelled.
    fn walk(&self, before: usize) -> (usize, usize) {
        let (mut state, mut spelled) = (0, before);
        while let Some(letter) = self.word.get(spelled) {
            let Some(next) = self.targets[state].iter().find(|target| self.word[**target - 1] == *letter) else { break };
            (state, spelled) = (*next, spelled + 1);
        }
        (state, spelled)
    }

    /// Where each arrow leads from and where to, rising.
    fn arrows(&self) -> Vec<(usize, usize)> {
        let mut arrows: Vec<_> = (0..).zip(&self.targets).flat_map(|(from, targets)| targets.iter().map(move |to| (from, *to))).collect();
        arrows.sort_unstable();
        arrows
    }

    /// The first state that has the letter of this one.
    fn column(&self, state: usize) -> usize {
        1 + self.word.iter().position(|letter| *letter == self.word[state - 1]).unwrap()
    }

    /// Its m+6 rows.
    fn table(&self) -> Vec<u16> {
        let (m, n) = (self.word.len(), self.word.len() + 1);
        let mut table = vec![0; n * (m + 6)];
        for (state, letter) in (1..).zip(&self.word) {
            (table[state], table[n + state]) = (u16::from(*letter), self.column(state) as u16);
        }
        for (from, to) in self.arrows() {
            table[(2 + from) * n + self.column(to)] = to as u16;
        }
        table
    }
}

/// The table of a word in a room that was full of something, and what is behind it is as it was.
#[track_caller]
fn built_over(left: u16, word: &[u8]) -> Vec<u16> {
    let room = storacle_table_room(word.len());
    let mut tables = vec![left; room + BEHIND];
    assert_eq!(storacle_build(word, &mut tables), Ok(word.len()));
    assert_eq!(tables.split_off(room), [left; BEHIND]);
    tables
}

#[track_caller]
fn built(word: &[u8]) -> Vec<u16> {
    built_over(LEFT, word)
}

/// The table of a word is the plain one, whose arrows are as many as they may be.
#[track_caller]
fn is_that_of_the_rule(word: &[u8]) {
    let (plain, m) = (Plain::of(word), word.len());
    assert_eq!(built(word), plain.table(), "{}", word.escape_ascii());
    assert!((m..=m * (m + 1) / 2).contains(&plain.arrows().len()), "{}", word.escape_ascii());
}

/// Where an arrow leads, by the reading rule.
fn arrow(table: &[u16], m: usize, from: usize, letter: u8) -> Option<usize> {
    let column = (1..=m).find(|state| table[*state] == u16::from(letter))?;
    Some(table[(2 + from) * (m + 1) + column].into()).filter(|to| *to > 0)
}

/// Where these letters lead from state 0, and nowhere where an arrow lacks.
fn walked(table: &[u16], m: usize, letters: &[u8]) -> Option<usize> {
    letters.iter().try_fold(0, |state, letter| arrow(table, m, state, *letter))
}

/// How many walks of so many letters there are from state 0; where it is a great many, some great number.
fn walks(table: &[u16], m: usize, length: usize) -> u64 {
    let mut into = vec![0u64; m + 1];
    into[0] = 1;
    for _ in 0..length {
        let mut next = vec![0u64; m + 1];
        for (state, ways) in into.iter().enumerate() {
            for to in table[(2 + state) * (m + 1)..][..m + 1].iter().filter(|to| **to > 0) {
                next[usize::from(*to)] = next[usize::from(*to)].saturating_add(*ways);
            }
        }
        into = next;
    }
    into.iter().fold(0, |all, ways| all.saturating_add(*ways))
}

/// Words of up to the most letters: random ones over few letters and many, and such as repeat themselves or never do.
fn longer_words() -> Vec<Vec<u8>> {
    let (mut seed, most) = (88172645463325252, LONGEST_STORACLE);
    let mut words: Vec<Vec<u8>> = (0..400)
        .map(|round| {
            let m = [1 + random(&mut seed) as usize % 20, 1 + random(&mut seed) as usize % most, most - 1, most][round / 5 % 4];
            random_bytes(&mut seed, m, [2, 3, 4, 20, 256][round % 5])
        })
        .collect();
    words.extend([1, 2, 3, 50].map(|period| (1..=most).map(|i| u8::from(i % period == 0)).collect()));
    words.push((0..=255).take(most).collect());
    words.push((0..=255).rev().take(most).collect());
    words.push([vec![b'a'; most - 1], vec![b'b']].concat());
    words.push([vec![b'b'], vec![b'a'; most - 1]].concat());
    words
}

/// It has 22 letters, and an arrow more than three for each.
const MORE_THAN_THREE_FOR_EACH: &[u8] = b"abcdabcdbacbbdaddccaae";

#[test]
fn the_examples_of_the_rule() {
    let spine = (0..9).map(|x| (x, x + 1));
    let mut arrows: Vec<_> = spine.chain([(0, 2), (0, 3), (0, 6), (0, 9), (1, 3), (3, 6), (3, 9)]).collect();
    arrows.sort_unstable();
    assert_eq!(Plain::of(b"abcacdace").arrows(), arrows);
    assert_eq!(Plain::of(MORE_THAN_THREE_FOR_EACH).arrows().len(), 67);
    for word in [b"abcacdace", MORE_THAN_THREE_FOR_EACH] {
        is_that_of_the_rule(word);
    }
    assert_eq!(built(b"a"), [0, 97, 0, 1, 0, 1, 0, 0, 0, 0, 0, 0, 0, 0]);
    assert_eq!(built(b"ba"), [[0, 98, 97], [0, 1, 2], [0, 1, 2], [0, 0, 2], [0; 3], [0; 3], [0; 3], [0; 3]].concat());
    assert_eq!(built(b"aa"), [[0, 97, 97], [0, 1, 1], [0, 1, 0], [0, 2, 0], [0; 3], [0; 3], [0; 3], [0; 3]].concat());
}

#[test]
fn the_three_automata_of_a_word_have_their_numbers_of_arrows() {
    let (word, n) = (b"abcacdace", 10);
    let told = |entries: &[u16]| entries.iter().filter(|entry| **entry != 0).count();
    let mut tables = [LEFT; storacle_table_room(9)];
    build(word, &mut tables[..table_room(9)]).unwrap();
    assert_eq!(9 + tables[2 * n + 9], 17);
    failure_build(word, &mut tables[..failure_table_room(9)]).unwrap();
    assert_eq!((told(&tables[n..2 * n]), told(&tables[4 * n..5 * n])), (14 - 9, 0));
    storacle_build(word, &mut tables).unwrap();
    assert_eq!(told(&tables[2 * n..12 * n]), 16);
}

#[test]
fn every_short_word_has_the_table_of_the_rule() {
    for word in (1..=11).flat_map(|length| words_of(length, 2)).chain((1..=8).flat_map(|length| words_of(length, 3))) {
        is_that_of_the_rule(&word);
    }
}

#[test]
fn longer_words_have_it_too() {
    for word in longer_words() {
        is_that_of_the_rule(&word);
    }
}

#[test]
fn every_factor_is_walked_and_no_other_word_of_the_same_length() {
    let short = (1..=8).flat_map(|length| words_of(length, 2)).chain((1..=6).flat_map(|length| words_of(length, 3)));
    for word in short.chain(longer_words()) {
        let (table, m) = (built(&word), word.len());
        // where a suffix is walked, so is every factor that begins it
        assert!((0..=m).all(|before| walked(&table, m, &word[before..]).is_some()), "{}", word.escape_ascii());
        assert_eq!(walked(&table, m, &word), Some(m));
        assert_eq!((walks(&table, m, m), walks(&table, m, m + 1)), (1, 0), "{}", word.escape_ascii());
    }
    // shorter words may be walked and be no factors
    let table = built(b"abcacdace");
    assert_eq!((walked(&table, 9, b"abcd"), walked(&table, 9, b"ad")), (Some(6), None));
}

#[test]
fn the_table_depends_on_the_word_alone() {
    let mut seed = 362436069;
    for m in [1, 2, 9, LONGEST_STORACLE - 1, LONGEST_STORACLE] {
        let word = random_bytes(&mut seed, m, 4);
        let clean = built_over(0, &word);
        assert_eq!((built_over(1, &word), built_over(u16::MAX, &word)), (clean.clone(), clean.clone()));
        // over the table of another word, and over its own
        let mut tables = built(&random_bytes(&mut seed, m, 256));
        for _ in 0..2 {
            assert_eq!(storacle_build(&word, &mut tables), Ok(m));
            assert_eq!(tables, clean);
        }
    }
}

#[test]
fn what_is_refused_changes_nothing() {
    let (longer, most) = (vec![b'a'; 70_000], storacle_table_room(LONGEST_STORACLE));
    let mut tables = vec![LEFT; 70_000];
    for (word, room, refusal) in [
        (&b""[..], 0, Refusal::EmptyWord),
        (b"", 70_000, Refusal::EmptyWord),
        (&longer[..LONGEST_STORACLE + 1], 0, Refusal::LongWord),
        (&longer[..LONGEST_STORACLE + 1], 70_000, Refusal::LongWord),
        // lengths that are within the limit where some of their bits are lost
        (&longer[..256 + 9], 70_000, Refusal::LongWord),
        (&longer[..65_536 + 9], 70_000, Refusal::LongWord),
        (&longer[..LONGEST_STORACLE], most - 1, Refusal::ShortRoom),
        (b"a", 13, Refusal::ShortRoom),
        (b"a", 0, Refusal::ShortRoom),
        (b"ab", 23, Refusal::ShortRoom),
        // the rooms of the other automata
        (&longer[..9], table_room(9), Refusal::ShortRoom),
        (&longer[..9], failure_table_room(9), Refusal::ShortRoom),
    ] {
        assert_eq!(storacle_build(word, &mut tables[..room]), Err(refusal), "{} letters, {room} entries", word.len());
    }
    assert!(tables.iter().all(|entry| *entry == LEFT));
}

#[test]
fn the_least_room_is_enough() {
    assert_eq!((storacle_table_room(1), storacle_table_room(2), storacle_table_room(LONGEST_STORACLE)), (14, 24, 17_286));
    for word in [&b"a"[..], b"ab", &[0; LONGEST_STORACLE - 1], &[0; LONGEST_STORACLE]] {
        let mut tables = vec![LEFT; storacle_table_room(word.len())];
        assert_eq!(storacle_build(word, &mut tables), Ok(word.len()));
        assert_eq!(tables, Plain::of(word).table());
    }
}
