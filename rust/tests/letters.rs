//! How many letters a search reads, which its steps decide: after a find the window moves by m less the word's longest border, the longest word short of it
//! that it both begins and ends with.
use marks::entries::{save, save_checked, search, search_file, Tally};
use marks::{table_room, Refusal, LONGEST_FILE, LONGEST_WORD};

/// Saves in some edition.
type Save = fn(&[u8], &mut [u16], &mut [u8]) -> Result<usize, Refusal>;

/// What a search for the word says, once a search with the file of its mirror, in each edition, has said the same.
fn both_searches(word: &[u8], text: &[u8]) -> Tally {
    let (mut tables, mut room, mut file) = (vec![0; table_room(word.len())], vec![0; word.len()], vec![0; LONGEST_FILE]);
    let tally = search(word, text, &mut tables, &mut []).unwrap();
    let mirror: Vec<u8> = word.iter().rev().copied().collect();
    for save in [save as Save, save_checked] {
        let length = save(&mirror, &mut tables, &mut file).unwrap();
        assert_eq!(search_file(&file[..length], text, &mut room, &mut tables, &mut []), Ok(tally));
    }
    tally
}

#[test]
fn after_a_find_the_window_moves_by_m_less_the_longest_border() {
    assert_eq!(both_searches(b"aba", b"ababa"), Tally { count: 2, letters: 6 });
    assert_eq!(both_searches(b"aa", b"aaaa"), Tally { count: 3, letters: 6 });
    // the find's two letters, then the text's last, which has an arrow, and the failing `x`
    assert_eq!(both_searches(b"ab", b"abxa"), Tally { count: 1, letters: 4 });
}

#[test]
fn in_a_text_of_the_words_own_period_every_window_is_a_find() {
    for (m, period) in [(2, 1), (3, 2), (8, 8), (9, 8), (20, 7), (256, 64), (LONGEST_WORD, 2), (LONGEST_WORD, 1_000)] {
        let text: Vec<u8> = (1..=10 * m + period / 2).map(|i| if i % period == 0 { b'b' } else { b'a' }).collect();
        let count = ((text.len() - m) / period + 1) as u64;
        assert_eq!(both_searches(&text[..m], &text), Tally { count, letters: count * m as u64 }, "{m} letters of period {period}");
    }
}
