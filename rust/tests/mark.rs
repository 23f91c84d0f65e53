//! A mark against the plainest search there is: no find missed or doubled, however many there are and wherever the parts of a long text meet.
mod chance;

use chance::{random, random_bytes};
use marks::{Engine, LoadError, Mark, Refusal, LEAST_SAVED, LONGEST_TEXT, LONGEST_WORD};

fn plain(word: &[u8], text: &[u8]) -> Vec<usize> {
    text.windows(word.len()).enumerate().filter(|(_, part)| *part == word).map(|(at, _)| at).collect()
}

#[test]
fn finds_are_those_of_the_plainest_search() {
    let mut seed = 88172645463325252;
    for round in 0..300 {
        let letters = [1, 2, 3, 256][round % 4];
        let n = random(&mut seed) as usize % 30_000;
        let text = random_bytes(&mut seed, n, letters);
        let m = 1 + random(&mut seed) as usize % [1, 3, 20, LONGEST_WORD][round / 4 % 4];
        let word: Vec<u8> = match text.len() > m {
            true => text[text.len() / 2..].iter().chain(&text).copied().take(m).collect(),
            false => vec![0; m],
        };
        let mark = Mark::new(&word).unwrap();
        let expected = plain(&word, &text);
        assert_eq!(mark.find_iter(&text).collect::<Vec<_>>(), expected);
        assert_eq!(mark.count(&text), expected.len() as u64);
        assert_eq!(mark.find(&text), expected.first().copied());
    }
}

#[test]
fn many_finds_after_a_long_stretch_without_any() {
    let mut text = vec![b'x'; 3_000_000];
    text.extend(std::iter::repeat_n(b'a', 100_000));
    text.extend(vec![b'x'; 500_000]);
    text.extend(b"aa");
    let mark = Mark::new(b"aa").unwrap();
    assert_eq!(mark.find_iter(&text).collect::<Vec<_>>(), plain(b"aa", &text));
}

#[test]
fn a_text_of_several_parts_loses_and_doubles_nothing_at_a_seam() {
    let word: Vec<u8> = (0..100u8).collect();
    let mut text = vec![200u8; 2 * LONGEST_TEXT + 12_345];
    let places =
        [0, LONGEST_TEXT - 150, LONGEST_TEXT - 50, LONGEST_TEXT + 50, 2 * LONGEST_TEXT - 99, 2 * LONGEST_TEXT + 1, text.len() - 100];
    for at in places {
        text[at..at + 100].copy_from_slice(&word);
    }
    for engine in [Engine::Auto, Engine::Compact] {
        let mark = Mark::new(&word).unwrap().engine(engine);
        assert_eq!(mark.find_iter(&text).collect::<Vec<_>>(), places);
        assert_eq!((mark.count(&text), mark.find(&text[1..])), (places.len() as u64, Some(places[1] - 1)));
        assert!(mark.find_in(&text[..]).map(Result::unwrap).eq(places.map(|at| at as u64)));
    }
    // a find across each place where two parts of a count meet
    let ones = Mark::new([200; 9]).unwrap();
    let runs: Vec<u8> = vec![200; LONGEST_TEXT + 5_000];
    assert_eq!(ones.count(&runs), (runs.len() - 8) as u64);
}

#[test]
fn a_file_gives_the_mark_back() {
    let mut seed = 362436069;
    for m in [LEAST_SAVED, 3, 7, 64, 255, 256, LONGEST_WORD - 1, LONGEST_WORD] {
        for letters in [1u64, 2, 4, 256] {
            let word = random_bytes(&mut seed, m, letters);
            let mark = Mark::new(&word).unwrap();
            for file in [mark.to_file().unwrap(), mark.to_checked_file().unwrap()] {
                assert_eq!(Mark::from_file(&file).unwrap().word(), word);
                let (cut, longer) = (Mark::from_file(&file[..file.len() - 1]), Mark::from_file([&file[..], &[0]].concat()));
                assert_eq!(cut.unwrap_err(), LoadError { refusal: Refusal::CutFile, offset: Some(file.len() - 1) });
                assert_eq!(longer.unwrap_err(), LoadError { refusal: Refusal::Leftovers, offset: Some(file.len()) });
            }
        }
    }
}

#[test]
fn one_mark_serves_all_threads() {
    let mark = Mark::new(b"abab").unwrap();
    let text: Vec<u8> = b"ab".repeat(50_000);
    std::thread::scope(|scope| {
        for from in 0..4 {
            let (mark, text) = (&mark, &text[from..]);
            scope.spawn(move || assert_eq!(mark.find_iter(text).collect::<Vec<_>>(), plain(b"abab", text)));
        }
    });
}
