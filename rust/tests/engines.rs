//! The engines: they find the same, and how many letters each reads at most, counted and not timed, for words and texts that are chosen to be hostile.
mod chance;
mod every;

use chance::{random, random_bytes};
use every::words_of;
use marks::entries::{self, Tally};
use marks::{table_room, Engine, Mark, LONGEST_TEXT, LONGEST_WORD};

const ENGINES: [Engine; 5] = [Engine::Auto, Engine::Backward, Engine::Turbo, Engine::Failure, Engine::Compact];

/// What `Auto` may read once in a text beyond two letters for each. A word of more than 64 letters is never tried.
fn tried(m: usize) -> u64 {
    if m <= 64 {
        4_194_304
    } else {
        0
    }
}

fn plain(word: &[u8], text: &[u8]) -> Vec<usize> {
    text.windows(word.len()).enumerate().filter(|(_, part)| *part == word).map(|(at, _)| at).collect()
}

fn mark(word: &[u8], engine: Engine) -> Mark {
    Mark::new(word).unwrap().engine(engine)
}

/// The finds one by one, and what they took.
fn listed(mark: &Mark, text: &[u8]) -> (Vec<usize>, u64) {
    let mut finds = mark.find_iter(text);
    (finds.by_ref().collect(), finds.letters())
}

/// Every engine finds what the plainest search does, one by one and counted.
fn all_find_the_same(word: &[u8], text: &[u8]) {
    let expected = plain(word, text);
    for engine in ENGINES {
        let mark = mark(word, engine);
        assert_eq!(mark.find_iter(text).collect::<Vec<_>>(), expected, "{engine:?}, {} letters in {}", word.len(), text.len());
        assert_eq!(mark.count(text), expected.len() as u64, "{engine:?}, {} letters in {}", word.len(), text.len());
        assert_eq!(mark.find(text), expected.first().copied());
    }
}

fn fibonacci(n: usize) -> Vec<u8> {
    let (mut shorter, mut word) = (b"b".to_vec(), b"a".to_vec());
    while word.len() < n {
        (shorter, word) = (word.clone(), [word, shorter].concat());
    }
    word.truncate(n);
    word
}

/// Words of m letters with texts of n that are hostile to them.
fn hostile(m: usize, n: usize) -> Vec<(Vec<u8>, Vec<u8>)> {
    let a = |count: usize| vec![b'a'; count];
    let by_turns: Vec<u8> = b"ab".iter().copied().cycle().take(n.max(m)).collect();
    let fibonacci = fibonacci(n.max(m));
    vec![
        (a(m), a(n)),
        ([b"b", &a(m - 1)[..]].concat(), a(n)),
        ([&a(m - 1)[..], b"b"].concat(), a(n)),
        ([&a(m / 2)[..], b"b", &a(m - m / 2 - 1)].concat(), a(n)),
        (by_turns[..m].to_vec(), by_turns[..n].to_vec()),
        (fibonacci[..m].to_vec(), fibonacci[..n].to_vec()),
        (fibonacci[fibonacci.len() - m..].to_vec(), fibonacci[..n].to_vec()),
    ]
}

fn turbo(word: &[u8], text: &[u8]) -> Tally {
    entries::turbo(word, text, &mut vec![0; table_room(word.len())], &mut []).unwrap()
}

#[test]
fn every_word_in_every_short_text() {
    for word in (1..=5).flat_map(|length| words_of(length, 2)) {
        let marks = ENGINES.map(|engine| mark(&word, engine));
        for text in (0..=11).flat_map(|length| words_of(length, 2)) {
            let expected = plain(&word, &text);
            for mark in &marks {
                assert_eq!(mark.find_iter(&text).collect::<Vec<_>>(), expected);
            }
            let tally = turbo(&word, &text);
            assert!(tally.count == expected.len() as u64 && tally.letters <= 2 * text.len() as u64, "{word:?} in {text:?}: {tally:?}");
        }
    }
}

#[test]
fn random_words_and_texts_longer_than_parts_and_lists() {
    let mut seed = 88172645463325252;
    for round in 0..120 {
        let letters = [1, 2, 3, 256][round % 4];
        let (longest_word, longest_text) = [(3, 400_000), (20, 400_000), (70, 400_000), (LONGEST_WORD, 100_000)][round / 4 % 4];
        let n = random(&mut seed) as usize % longest_text;
        let text = random_bytes(&mut seed, n, letters);
        let m = 1 + random(&mut seed) as usize % longest_word;
        let word: Vec<u8> = match text.len() > m {
            true => text[text.len() / 2..].iter().chain(&text).copied().take(m).collect(),
            false => vec![0; m],
        };
        all_find_the_same(&word, &text);
    }
}

#[test]
fn finds_across_every_seam_wherever_a_text_becomes_hostile() {
    let word = [&[b'a'; 30][..], b"b", &[b'a'; 30]].concat();
    for friendly in [0, 1, 4_000, 70_000, 200_000] {
        let mut text = [vec![b'x'; friendly], vec![b'a'; 500_000 - friendly]].concat();
        // wherever parts meet, a find is across it
        text[friendly..].iter_mut().step_by(37).for_each(|letter| *letter = b'b');
        text[friendly..].iter_mut().step_by(31).for_each(|letter| *letter = b'a');
        all_find_the_same(&word, &text);
        all_find_the_same(&word[..8], &text);
    }
}

#[test]
fn hostile_texts_and_words_that_repeat_themselves() {
    for m in [1, 2, 3, 5, 64, 65, 300, LONGEST_WORD] {
        for (word, text) in hostile(m, 20_000) {
            all_find_the_same(&word, &text);
        }
    }
}

#[test]
fn the_examples_of_the_request() {
    assert_eq!(turbo(b"aba", b"ababa"), Tally { count: 2, letters: 10 });
    assert_eq!(turbo(b"aaaa", b"abaaa"), Tally { count: 0, letters: 6 });
    assert_eq!(turbo(b"aa", b"ba"), Tally { count: 0, letters: 3 });
    assert_eq!(turbo(b"ab", b"ab"), Tally { count: 1, letters: 4 });
    assert_eq!(turbo(b"abc", b"ab"), Tally { count: 0, letters: 0 });
    assert_eq!(turbo(b"abc", b""), Tally { count: 0, letters: 0 });
    assert_eq!(mark(b"aba", Engine::Turbo).tally(b"ababa"), Tally { count: 2, letters: 10 });
}

#[test]
fn turbo_reads_at_most_two_letters_for_each_of_a_hostile_text() {
    for m in [1, 2, 3, 4, 5, 16, 64, 65, 256, 1_024, LONGEST_WORD] {
        for (word, text) in hostile(m, 200_000) {
            let expected = plain(&word, &text);
            let tally = turbo(&word, &text);
            assert_eq!(tally.count, expected.len() as u64);
            assert!(tally.letters <= 2 * text.len() as u64, "{} of {m} letters: {tally:?}", word.escape_ascii());
            assert_eq!(mark(&word, Engine::Turbo).tally(&text), tally);
        }
    }
}

#[test]
fn turbo_reads_the_longest_text_of_one_letter_forward() {
    let text = vec![b'a'; LONGEST_TEXT];
    let found = |m: usize, letters: usize| Tally { count: (LONGEST_TEXT - m + 1) as u64, letters: letters as u64 };
    // the first window is read backward too; a word of one letter keeps nothing of a window
    for m in [2, 4, LONGEST_WORD] {
        assert_eq!(turbo(&text[..m], &text), found(m, LONGEST_TEXT + m));
    }
    assert_eq!(turbo(b"a", &text), found(1, 2 * LONGEST_TEXT));
}

/// What `Auto` may read to count a word of m letters in a text of n: its parts after the first have as many places as may be tried, and m-1 letters in common.
fn auto_at_most(m: usize, n: usize) -> u64 {
    let parts = 2 + n * m / 4_194_304;
    2 * (n + parts * (m - 1)) as u64 + tried(m)
}

#[test]
fn auto_reads_two_letters_for_each_and_a_part_once() {
    let n = 2_000_000;
    for m in [1, 2, 3, 4, 16, 63, 64, 65, LONGEST_WORD] {
        for (word, mut text) in hostile(m, n) {
            assert!(mark(&word, Engine::Auto).tally(&text).letters <= auto_at_most(m, n));
            // it does not show before its middle
            text[..n / 2].fill(b'x');
            assert!(mark(&word, Engine::Auto).tally(&text).letters <= auto_at_most(m, n));
        }
    }
    // it begins where a longest part does
    let text = [vec![b'x'; 4_096], vec![b'a'; n]].concat();
    let letters = mark(&[b'a'; 64], Engine::Auto).tally(&text).letters;
    assert!(letters > tried(64) && letters <= auto_at_most(64, text.len()), "{letters}");
}

#[test]
fn auto_searches_backward_as_long_as_that_is_fair_and_a_long_word_never() {
    let mut seed = 362436069;
    let text = random_bytes(&mut seed, 3_000_000, 4);
    for m in [4, 64] {
        let [auto, backward, turbo, ..] = ENGINES.map(|engine| mark(&text[..m], engine).tally(&text).letters);
        assert!(auto < backward + backward / 50 && auto < turbo, "{m} letters: {auto}, {backward}, {turbo}");
    }
    // more than one letter for each, and fair
    let (text_of_two, mark_of_two) = (random_bytes(&mut seed, 300_000, 2), mark(&[0, 1, 1, 0], Engine::Auto));
    let mut finds = mark_of_two.find_iter(&text_of_two);
    assert!(finds.tally().letters > 300_000 && finds.engine() == Engine::Auto);
    for m in [65, LONGEST_WORD] {
        let [auto, _, turbo, ..] = ENGINES.map(|engine| mark(&text[..m], engine).tally(&text));
        assert_eq!(auto, turbo);
    }
}

#[test]
fn auto_begins_every_text_anew() {
    let mark = mark(&[b'a'; 64], Engine::Auto);
    let (hostile, friendly) = (vec![b'a'; 300_000], vec![b'x'; 300_000]);
    let before = [mark.tally(&hostile), mark.tally(&friendly)];
    assert_eq!([mark.tally(&hostile), mark.tally(&friendly)], before);
}

/// What listing every find by turbo may read: a text is searched three times over at most, and the longest part once more, with a sixteenth more where parts
/// meet.
fn listed_at_most(n: usize) -> u64 {
    2 * (3 * n + n.min(LONGEST_TEXT)) as u64 * 17 / 16
}

#[test]
fn all_finds_in_a_text_of_one_letter_are_listed_without_starting_over() {
    let text = vec![b'a'; LONGEST_TEXT];
    for m in [1, 4, 64, 1_024, LONGEST_WORD] {
        for engine in [Engine::Auto, Engine::Turbo] {
            let (mark, mut next) = (mark(&text[..m], engine), 0);
            let mut finds = mark.find_iter(&text);
            for at in finds.by_ref() {
                assert_eq!(at, next);
                next += 1;
            }
            assert_eq!(next, LONGEST_TEXT - m + 1);
            // the first part, of 16,384 places for each letter of the word, is in vain; where parts meet, m-1 letters are read again by the next part, and in
            // its first window backward too
            let (whole, once) = (turbo(&text[..m], &text).letters, if engine == Engine::Auto { tried(m) } else { 0 });
            let in_vain = 2 * (16_384 * m).min(LONGEST_TEXT) as u64;
            assert!(finds.letters() <= whole + whole / 8 + once + in_vain, "{m} letters, {engine:?}: {}", finds.letters());
        }
    }
}

#[test]
fn listing_stays_linear_whatever_the_text() {
    for m in [2, 5, 64, 300, LONGEST_WORD] {
        for (word, text) in hostile(m, 1_000_000) {
            assert!(listed(&mark(&word, Engine::Turbo), &text).1 <= listed_at_most(text.len()));
            assert!(listed(&mark(&word, Engine::Auto), &text).1 <= listed_at_most(text.len()) + tried(m));
        }
        // stretches without a find, over which parts grow, before ones in which they do not fit the list
        let (mut text, word) = (Vec::new(), vec![b'a'; m]);
        for (without, crowded) in [(10_000, 4_200), (300_000, 4_200), (2_000_000, 200_000), (50_000, 4_200), (700_000, 100_000)] {
            text.extend(vec![b'x'; without]);
            text.extend(vec![b'a'; crowded]);
        }
        let (finds, letters) = listed(&mark(&word, Engine::Turbo), &text);
        assert_eq!(finds, plain(&word, &text));
        assert!(letters <= listed_at_most(text.len()));
    }
}

#[test]
fn what_was_not_handed_out_can_be_counted() {
    let (word, text) = (b"aa", vec![b'a'; 20_000]);
    for engine in ENGINES {
        for handed_out in [0, 1, 4_095, 4_096, 4_097, 19_998, 19_999] {
            let mark = mark(word, engine);
            let mut finds = mark.find_iter(&text);
            assert_eq!(finds.by_ref().take(handed_out).count(), handed_out);
            assert_eq!(finds.tally(), Tally { count: 19_999 - handed_out as u64, letters: finds.letters() });
            assert_eq!((finds.next(), finds.tally().count), (None, 0));
        }
    }
}

#[test]
fn a_mark_of_a_file_takes_an_engine_too() {
    let file = Mark::new(b"aba").unwrap().to_file().unwrap();
    let loaded = Mark::from_file(&file).unwrap();
    assert_eq!(loaded.tally(b"ababa"), Tally { count: 2, letters: 6 });
    assert_eq!(loaded.engine(Engine::Turbo).tally(b"ababa"), Tally { count: 2, letters: 10 });
}
