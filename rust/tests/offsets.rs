//! Where a refused file is broken: each kind of offset, as loading says it and searching with the file says it too.
use marks::entries::{load, save, search_file};
use marks::{table_room, LoadError, Mark, Refusal, LONGEST_FILE, LONGEST_TEXT, LONGEST_WORD};
use std::error::Error;

/// The file of `abbbaab`, whose arrows begin at 10.
const GOOD: [u8; 18] = *b"\x01\x07abbbaab\x04\0\0\x01\x03\x01\x01\x01\0";

/// The same word's file of edition 2, whose check is at 18.
const CHECKED: [u8; 20] = *b"\x02\x07abbbaab\x04\0\0\x01\x03\x01\x01\x01\0\xfe\x2f";

/// The error of a file, the same in each of the three ways to hand one over.
fn error_of(file: &[u8]) -> LoadError {
    let (mut room, mut tables, mut finds) = (vec![0; LONGEST_WORD], vec![0; table_room(LONGEST_WORD)], [0; 2]);
    let error = load(file, &mut room, &mut tables).unwrap_err();
    assert_eq!(search_file(file, b"abbbaab", &mut room, &mut tables, &mut finds).unwrap_err(), error);
    assert_eq!(Mark::from_file(file).unwrap_err(), error);
    error
}

#[track_caller]
fn is_refused(file: &[u8], number: u32, offset: usize) {
    let error = error_of(file);
    assert_eq!((error.refusal.number(), error.offset), (number, Some(offset)), "{:02x?}", &file[..file.len().min(32)]);
}

/// A file with one byte changed.
fn changed(file: &[u8], at: usize, byte: u8) -> Vec<u8> {
    [&file[..at], &[byte], &file[at + 1..]].concat()
}

#[test]
fn a_field_at_fault_shows_at_its_first_byte() {
    is_refused(b"\x03", 7, 0);
    is_refused(b"\x00\x01a\0", 7, 0);
    is_refused(b"\x81\x01\x01a\0", 7, 0);
    // no letters, one too many, and four billion
    is_refused(b"\x01\x00", 8, 1);
    is_refused(b"\x01\x81\x20", 8, 1);
    is_refused(b"\x01\xff\xff\xff\xff\x0f", 8, 1);
    is_refused(b"\x02\xff\xff\xff\xff\x0f", 8, 1);
    is_refused(b"\x01\x03aaa\x03", 9, 5);
    is_refused(b"\x02\x03aaa\x03", 9, 5);
    is_refused(b"\x01\x03aaa\xff\xff\xff\xff\x0f", 9, 5);
}

#[test]
fn an_arrow_shows_at_its_first_byte_whichever_number_is_wrong() {
    is_refused(&changed(&GOOD, 12, 2), 10, 12);
    is_refused(&changed(&GOOD, 13, 4), 10, 12);
    is_refused(&changed(&GOOD, 10, 1), 10, 10);
    is_refused(&changed(&GOOD, 17, 1), 10, 16);
    // one more than the word has
    is_refused(b"\x01\x03aaa\x01\0\0", 10, 6);
}

#[test]
fn a_check_shows_at_its_first_byte_whichever_of_the_two_is_wrong() {
    is_refused(&changed(&CHECKED, 18, 0), 13, 18);
    is_refused(&changed(&CHECKED, 19, 0), 13, 18);
    is_refused(&[&changed(&CHECKED, 19, 0)[..], b"\0"].concat(), 13, 18);
    // an arrow comes before it
    is_refused(&changed(&changed(&CHECKED, 19, 0), 17, 1), 10, 16);
}

#[test]
fn missing_arrows_and_leftovers_show_behind_the_arrows() {
    is_refused(b"\x01\x02ab\0", 10, 5);
    // missing ones come before what follows
    is_refused(b"\x01\x02ab\0\xff", 10, 5);
    is_refused(&changed(&GOOD, 9, 3)[..16], 10, 16);
    is_refused(&changed(&GOOD, 9, 3), 10, 16);
    is_refused(b"\x01\x03aaa\0\0", 11, 6);
    is_refused(&[&GOOD[..], &[0; 100]].concat(), 11, 18);
    is_refused(&[&CHECKED[..], &[0; 100]].concat(), 11, 20);
}

#[test]
fn a_cut_file_shows_at_its_length() {
    is_refused(b"", 5, 0);
    is_refused(b"\x01\x80", 5, 2);
    is_refused(b"\x01\x03aaa", 5, 5);
    is_refused(b"\x01\x83\x01aaa", 5, 6);
    is_refused(b"\x01\xff\xff\xff\xff", 5, 5);
    for file in [&GOOD[..], &CHECKED] {
        for length in 0..file.len() {
            is_refused(&file[..length], 5, length);
        }
    }
    // inside each of the numbers of an arrow, whose value is not asked then
    is_refused(b"\x01\x03aaa\x01\x80", 5, 7);
    is_refused(b"\x01\x03aaa\x01\0\x80", 5, 8);
}

#[test]
fn a_number_out_of_its_spelling_shows_at_the_byte_that_is_refused() {
    is_refused(b"\x81\x00", 6, 1);
    is_refused(b"\x01\x83\0aaa\0", 6, 2);
    is_refused(b"\x01\xff\xff\xff\xff\x10", 6, 5);
    is_refused(b"\x80\x80\x80\x80\x80", 6, 4);
    is_refused(b"\x01\x03aaa\x80\0", 6, 6);
    is_refused(b"\x01\x03aaa\x01\x80\0", 6, 7);
    is_refused(b"\x01\x03aaa\x01\0\x80\x80\0", 6, 9);
}

/// A number of the file and the place behind it.
fn number(file: &[u8], mut at: usize) -> (usize, usize) {
    let (mut value, mut unit) = (0, 1);
    loop {
        value += unit * (file[at] & 0x7f) as usize;
        at += 1;
        if file[at - 1] < 0x80 {
            return (value, at);
        }
        unit *= 128;
    }
}

/// Where the two numbers of each arrow begin.
fn arrows(file: &[u8]) -> Vec<[usize; 2]> {
    let (_, edition_end) = number(file, 0);
    let (m, letters) = number(file, edition_end);
    let (count, mut at) = number(file, letters + m);
    let mut arrows = Vec::new();
    for _ in 0..count {
        let (_, second) = number(file, at);
        arrows.push([at, second]);
        (_, at) = number(file, second);
    }
    assert_eq!(at, file.len());
    arrows
}

/// The file of a word of the most letters, over so many different ones.
fn longest(letters: u8) -> Vec<u8> {
    let mut seed = 88172645463325252u64;
    let mut letter = || {
        seed ^= seed << 13;
        seed ^= seed >> 7;
        seed ^= seed << 17;
        b'a' + (seed >> 20) as u8 % letters
    };
    let word: Vec<u8> = (0..LONGEST_WORD).map(|_| letter()).collect();
    let (mut tables, mut out) = (vec![0; table_room(LONGEST_WORD)], vec![0; LONGEST_FILE]);
    let length = save(&word, &mut tables, &mut out).unwrap() as usize;
    out.truncate(length);
    out
}

#[test]
fn the_arrows_of_the_longest_words() {
    for file in [2, 3, 26].map(longest) {
        let arrows = arrows(&file);
        assert!(arrows.len() > 500);
        for [first, second] in [arrows[0], arrows[1], arrows[arrows.len() / 2], arrows[arrows.len() - 1]] {
            // with its lowest bit changed a number keeps its length, and a good spelling
            is_refused(&changed(&file, first, file[first] ^ 1), 10, first);
            is_refused(&changed(&file, second, file[second] ^ 1), 10, first);
            is_refused(&file[..second], 5, second);
        }
        is_refused(&[&file[..], b"\0"].concat(), 11, file.len());
    }
}

#[test]
fn what_is_not_the_files_fault_shows_nowhere_in_it() {
    let (mut room, mut tables) = ([0; 7], [0; table_room(7)]);
    let short = Err(LoadError { refusal: Refusal::ShortRoom, offset: None });
    assert_eq!(load(&GOOD, &mut room[1..], &mut tables), short);
    assert_eq!(load(&GOOD, &mut room, &mut tables[1..]), short);
    // nor where the file is at fault behind its letters
    assert_eq!(load(&GOOD[..17], &mut room[1..], &mut tables), short);
    let text = vec![0; LONGEST_TEXT + 1];
    let long = Err(LoadError { refusal: Refusal::LongText, offset: None });
    assert_eq!(search_file(&GOOD, &text, &mut room, &mut tables, &mut []), long);
    assert_eq!(search_file(b"", &text, &mut room, &mut tables, &mut []), long);
}

#[test]
fn the_text_of_an_error_says_why_and_where() {
    let huge = error_of(b"\x01\xff\xff\xff\xff\x0f");
    assert_eq!(huge.to_string(), "the file declares fewer than 2 letters, or more than 4,096 (8), at offset 1");
    let short = load(&GOOD, &mut [], &mut []).unwrap_err();
    assert_eq!(short.to_string(), Refusal::ShortRoom.to_string());
    // the text has all there is to tell
    assert!(huge.source().is_none() && short.source().is_none());
}

#[test]
fn an_error_becomes_its_refusal() {
    fn letters(file: &[u8]) -> Result<usize, Refusal> {
        Ok(Mark::from_file(file)?.word().len())
    }
    assert_eq!(letters(&GOOD), Ok(7));
    assert_eq!(letters(&CHECKED), Ok(7));
    assert_eq!(letters(b"\x03"), Err(Refusal::OtherEdition));
    assert_eq!(letters(&changed(&CHECKED, 19, 0)), Err(Refusal::BadCheck));
}
