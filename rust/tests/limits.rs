//! Texts at the limit and above it. A program of the library's own language would need them on its stack, so they are run from here.
use marks::entries::{search, turbo, Tally};
use marks::{table_room, Refusal, LONGEST_TEXT, LONGEST_WORD};

type Entry = fn(&[u8], &[u8], &mut [u16], &mut [u32]) -> Result<Tally, Refusal>;

#[test]
fn a_text_at_the_limit_is_searched_to_its_last_letter() {
    let mut text = vec![b'a'; LONGEST_TEXT];
    text[..2].copy_from_slice(b"xy");
    text[LONGEST_TEXT - 2..].copy_from_slice(b"xy");
    // The windows start at 0, then at 2, 4, 6 .. as an `a` fails each time at once, then at the last find. Turbo reads a find forward too.
    let windows_between = (LONGEST_TEXT as u64 - 4) / 2;
    for (entry, letters) in [(search as Entry, 2 + windows_between + 2), (turbo, 4 + windows_between + 4)] {
        let (mut tables, mut finds) = ([7u16; table_room(2) + 1], [9u32; 3]);
        assert_eq!(entry(b"xy", &text, &mut tables, &mut finds), Ok(Tally { count: 2, letters }));
        assert_eq!(finds, [0, LONGEST_TEXT as u32 - 2, 9]);
        assert_eq!(tables[18], 7);
    }
}

#[test]
fn one_byte_more_is_refused_and_changes_nothing() {
    let text = vec![b'a'; LONGEST_TEXT + 1];
    for entry in [search as Entry, turbo] {
        let (mut tables, mut finds) = ([7u16; 19], [9u32; 3]);
        assert_eq!(entry(b"xy", &text, &mut tables, &mut finds), Err(Refusal::LongText));
        assert_eq!((tables, finds), ([7; 19], [9; 3]));
        // the order of the refusals: an empty word and a long one come before the text, the room behind it
        assert_eq!(entry(b"", &text, &mut tables, &mut finds), Err(Refusal::EmptyWord));
        assert_eq!(entry(&[0; LONGEST_WORD + 1], &text, &mut tables, &mut finds), Err(Refusal::LongWord));
        assert_eq!(entry(b"xy", &text, &mut tables[..17], &mut finds), Err(Refusal::LongText));
        assert_eq!(entry(b"xy", &text[1..], &mut tables[..17], &mut finds), Err(Refusal::ShortRoom));
        assert_eq!((tables, finds), ([7; 19], [9; 3]));
    }
}

/// A word of as many letters as any, in a text of the same letter: every window is read whole.
fn one_letter_over_and_over(length: usize) -> Tally {
    let text = vec![b'a'; length];
    let mut tables = vec![0; table_room(LONGEST_WORD)];
    let mut finds = vec![9; length - LONGEST_WORD + 1];
    let tally = search(&text[..LONGEST_WORD], &text, &mut tables, &mut finds).unwrap();
    assert!(finds.iter().enumerate().all(|(i, &at)| i as u32 == at));
    tally
}

#[test]
fn the_letters_pass_32_bits() {
    assert_eq!(one_letter_over_and_over(2_097_152), Tally { count: 2_093_057, letters: 8_573_161_472 });
}

/// It takes a minute or two: `cargo test --release --test limits -- --ignored`.
#[test]
#[ignore = "takes a minute or two"]
fn the_most_letters_that_a_search_can_read() {
    assert_eq!(one_letter_over_and_over(LONGEST_TEXT), Tally { count: 16_773_121, letters: 68_702_703_616 });
}
