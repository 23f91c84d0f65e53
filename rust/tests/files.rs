//! Saved files of the longest word, and refusals with what they leave, through the entries as Rust sees them.
use marks::entries::{load, save, search_file, Tally};
use marks::{table_room, LoadError, Refusal, LONGEST_FILE, LONGEST_TEXT, LONGEST_WORD};

const TABLES: usize = table_room(LONGEST_WORD);

fn refused<T>(refusal: Refusal, offset: Option<usize>) -> Result<T, LoadError> {
    Err(LoadError { refusal, offset })
}

#[test]
fn the_longest_word_is_saved_loaded_and_searched_for() {
    let word: Vec<u8> = (0..LONGEST_WORD).map(|i| (i * i / 7 % 251) as u8).collect();
    let (mut tables, mut file) = ([7u16; TABLES + 1], [9u8; LONGEST_FILE]);
    let length = save(&word, &mut tables, &mut file).unwrap() as usize;
    assert!(file[length..].iter().all(|&b| b == 9));

    let (mut room, mut again) = ([8u8; LONGEST_WORD + 1], [7u16; TABLES + 1]);
    assert_eq!(load(&file[..length], &mut room, &mut again), Ok(LONGEST_WORD));
    assert_eq!(room[..LONGEST_WORD], word[..]);
    assert_eq!(room[LONGEST_WORD], 8);
    assert_eq!(again, tables);

    let mut text: Vec<u8> = word.iter().rev().copied().collect();
    text.insert(0, 255);
    let mut finds = [5u32; 2];
    let tally = search_file(&file[..length], &text, &mut room, &mut again, &mut finds).unwrap();
    assert_eq!(tally.count, 1);
    assert_eq!(finds, [1, 5]);
}

#[test]
fn an_output_one_byte_short_is_not_touched() {
    let (mut tables, mut out) = ([7u16; 6 * 8 + 1], [9u8; 18]);
    assert_eq!(save(b"abbbaab", &mut tables, &mut out[..17]), Err(Refusal::ShortOutput));
    assert_eq!(out, [9; 18]);
    assert!(tables[..48].iter().all(|&e| e == 0));
    assert_eq!(tables[48], 7);
    assert_eq!(save(b"abbbaab", &mut tables, &mut out), Ok(18));
    assert_eq!(out, *b"\x01\x07abbbaab\x04\0\0\x01\x03\x01\x01\x01\0");
}

#[test]
fn a_word_of_one_letter_is_not_saved_whatever_the_rooms() {
    let (mut tables, mut out) = ([7u16; 13], [9u8; 5]);
    for letter in 0..=255 {
        for (entries, bytes) in [(0, 0), (11, 5), (12, 3), (13, 5)] {
            assert_eq!(save(&[letter], &mut tables[..entries], &mut out[..bytes]), Err(Refusal::ShortWord));
        }
        let (mut room, mut finds) = ([8u8; 1], [5u32; 1]);
        let file = [1, 1, letter, 0];
        assert_eq!(load(&file, &mut room, &mut tables), refused(Refusal::BadLength, Some(1)));
        assert_eq!(search_file(&file, b"aba", &mut room, &mut tables, &mut finds), refused(Refusal::BadLength, Some(1)));
        assert_eq!((room, finds), ([8], [5]));
    }
    assert_eq!((tables, out), ([7; 13], [9; 5]));
    assert_eq!(save(b"", &mut tables, &mut out), Err(Refusal::EmptyWord));
    assert_eq!(save(&[0; LONGEST_WORD + 1], &mut [], &mut []), Err(Refusal::LongWord));
}

#[test]
fn the_text_comes_before_the_file_and_the_room_before_the_arrows() {
    let text = vec![b'a'; LONGEST_TEXT + 1];
    let (mut room, mut tables, mut finds) = ([8u8; 3], [7u16; 24], [5u32; 2]);
    assert_eq!(search_file(b"", &text, &mut room, &mut tables, &mut finds), refused(Refusal::LongText, None));
    assert_eq!(search_file(b"", &text[1..], &mut room, &mut tables, &mut finds), refused(Refusal::CutFile, Some(0)));
    // bytes behind the last arrow, and a room that is too short for the word
    assert_eq!(load(b"\x01\x03aaa\0\0", &mut room[..2], &mut tables), refused(Refusal::ShortRoom, None));
    assert_eq!((room, tables), ([8; 3], [7; 24]));
    assert_eq!(load(b"\x01\x03aaa\0\0", &mut room, &mut tables), refused(Refusal::Leftovers, Some(6)));
    assert_eq!((room, tables), ([0; 3], [0; 24]));
    let tally = search_file(b"\x01\x03aaa\0", b"aaaa", &mut room, &mut tables, &mut finds[..1]);
    assert_eq!(tally, Ok(Tally { count: 2, letters: 6 }));
    assert_eq!((room, finds), (*b"aaa", [0, 5]));
}
