//! The two editions of a saved file: what the second adds to the first, that both are taken, and that a lost bit of the second is noticed.
use marks::entries::{load, save, save_checked, search_file, Tally};
use marks::{table_room, LoadError, Mark, Refusal, LEAST_SAVED, LONGEST_FILE, LONGEST_WORD};

/// CRC-16/ARC, bit by bit.
fn crc(bytes: &[u8]) -> u16 {
    let shifted = |crc: u16, _| if crc & 1 == 1 { crc >> 1 ^ 0xA001 } else { crc >> 1 };
    bytes.iter().fold(0, |crc, &byte| (0..8).fold(crc ^ u16::from(byte), shifted))
}

/// These bytes and their check.
fn sealed(bytes: &[u8]) -> Vec<u8> {
    [bytes, &crc(bytes).to_le_bytes()].concat()
}

/// The file of edition 2, made of that of edition 1.
fn second_of(first: &[u8]) -> Vec<u8> {
    assert_eq!(first[0], 1);
    sealed(&[&[2], &first[1..]].concat())
}

/// A word of so many letters, the same each time.
fn word(m: usize, letters: u64) -> Vec<u8> {
    let mut seed = 88172645463325252 + m as u64;
    let mut letter = || {
        seed ^= seed << 13;
        seed ^= seed >> 7;
        seed ^= seed << 17;
        (seed >> 20).wrapping_rem(letters) as u8
    };
    (0..m).map(|_| letter()).collect()
}

#[track_caller]
fn is_refused(file: &[u8], refusal: Refusal, offset: usize) {
    assert_eq!(Mark::from_file(file), Err(LoadError { refusal, offset: Some(offset) }), "{:02x?}", &file[..file.len().min(32)]);
}

#[test]
fn the_check_is_the_published_one() {
    assert_eq!(crc(b"123456789"), 0xBB3D);
}

#[test]
fn the_second_edition_is_the_first_with_another_number_and_a_check() {
    for m in (LEAST_SAVED..130).chain([255, 256, 1_000, LONGEST_WORD - 1, LONGEST_WORD]) {
        for letters in [1, 2, 4, 256] {
            let mark = Mark::new(word(m, letters)).unwrap();
            let [first, second] = [mark.to_file().unwrap(), mark.to_checked_file().unwrap()];
            assert_eq!(second, second_of(&first));
            assert!(second.len() <= LONGEST_FILE);
            assert_eq!([Mark::from_file(first), Mark::from_file(second)], [Ok(mark.clone()), Ok(mark)]);
        }
    }
}

#[test]
fn what_the_first_edition_was_it_is() {
    assert_eq!(Mark::new("aa").unwrap().to_file().unwrap(), b"\x01\x02aa\0");
    assert_eq!(Mark::new("baabbba").unwrap().to_file().unwrap(), b"\x01\x07abbbaab\x04\0\0\x01\x03\x01\x01\x01\0");
    // bits that are lost may make it another word's
    assert_eq!(Mark::from_file(b"\x01\x02ac\x01\0\0").unwrap().word(), b"ca");
    // and a check is not part of it
    is_refused(&sealed(b"\x01\x02aa\0"), Refusal::Leftovers, 5);
}

#[test]
fn there_is_no_third_edition() {
    for edition in (0..=127).filter(|edition| ![1, 2].contains(edition)) {
        is_refused(&sealed(&[edition, 2, b'a', b'a', 0]), Refusal::OtherEdition, 0);
    }
    is_refused(b"\x82\x01", Refusal::OtherEdition, 0);
    is_refused(b"\x82\x00", Refusal::BadNumber, 1);
}

#[test]
fn no_other_check_is_taken() {
    let file = Mark::new("ba").unwrap().to_checked_file().unwrap();
    let (mut room, mut tables) = ([0; 2], [0; table_room(2)]);
    for check in 0..=u16::MAX {
        let changed = [&file[..7], &check.to_le_bytes()].concat();
        let said = load(&changed, &mut room, &mut tables);
        let wrong = LoadError { refusal: Refusal::BadCheck, offset: Some(7) };
        assert_eq!(said, if changed == file { Ok(2) } else { Err(wrong) });
    }
}

#[test]
fn the_check_is_judged_behind_the_arrows_and_before_what_follows() {
    let file = Mark::new("ba").unwrap().to_checked_file().unwrap();
    let wrong_check = [&file[..8], &[file[8] ^ 1]].concat();
    is_refused(&wrong_check, Refusal::BadCheck, 7);
    is_refused(&[&wrong_check[..], b"more"].concat(), Refusal::BadCheck, 7);
    is_refused(&[&file[..], b"more"].concat(), Refusal::Leftovers, 9);
    // a file whose check is right is not taken for that
    is_refused(&sealed(b"\x02\x02ab\x01\0\x01"), Refusal::WrongArrow, 5);
    is_refused(&sealed(b"\x02\x02ab\0"), Refusal::WrongArrow, 5);
    is_refused(&sealed(b"\x02\x02ab\x02\0\0"), Refusal::BadCount, 4);
    is_refused(&sealed(b"\x02\x01a\0"), Refusal::BadLength, 1);
    is_refused(&sealed(b"\x02\x82\0ab\x01\0\0"), Refusal::BadNumber, 2);
}

#[test]
fn a_cut_file_shows_at_its_length_and_what_follows_behind_the_check() {
    for (m, letters) in [(2, 1), (7, 2), (40, 3), (200, 256)] {
        let file = Mark::new(word(m, letters)).unwrap().to_checked_file().unwrap();
        for length in 0..file.len() {
            is_refused(&file[..length], Refusal::CutFile, length);
        }
        is_refused(&[&file[..], &[0]].concat(), Refusal::Leftovers, file.len());
    }
}

#[test]
fn no_file_with_one_lost_bit_is_taken() {
    for (m, letters) in [(2, 1), (2, 256), (3, 2), (4, 26), (16, 2), (16, 256), (64, 4), (64, 256), (127, 256), (128, 256), (300, 4)] {
        let file = Mark::new(word(m, letters)).unwrap().to_checked_file().unwrap();
        let mut damaged = file.clone();
        for bit in 0..8 * file.len() {
            damaged[bit / 8] ^= 1 << (bit % 8);
            let error = Mark::from_file(&damaged).expect_err("it is no word's file");
            assert!(error.offset.is_some_and(|offset| offset <= file.len()), "bit {bit} of {file:02x?}: {error}");
            damaged[bit / 8] = file[bit / 8];
        }
    }
}

#[test]
fn a_wrong_check_leaves_no_word_and_no_table() {
    let (mut room, mut tables, mut finds) = ([8u8; 4], [7u16; table_room(3) + 1], [5u32; 2]);
    let file = b"\x02\x03aaa\0\0\0";
    let wrong = LoadError { refusal: Refusal::BadCheck, offset: Some(6) };
    assert_eq!(load(file, &mut room, &mut tables), Err(wrong));
    assert_eq!((room, tables[..24].iter().max(), tables[24]), ([0, 0, 0, 8], Some(&0), 7));
    (room, tables) = ([8; 4], [7; table_room(3) + 1]);
    assert_eq!(search_file(file, b"aaaa", &mut room, &mut tables, &mut finds), Err(wrong));
    assert_eq!((room, tables[..24].iter().max(), tables[24]), ([0, 0, 0, 8], Some(&0), 7));
    assert_eq!(finds, [5; 2]);
    // the rooms are judged before
    assert_eq!(load(file, &mut room[..2], &mut tables), Err(LoadError { refusal: Refusal::ShortRoom, offset: None }));
}

#[test]
fn either_edition_is_searched_with() {
    let (mut room, mut tables) = ([0; 3], [0; table_room(3)]);
    for file in [b"\x01\x03aaa\0".to_vec(), sealed(b"\x02\x03aaa\0")] {
        let mut finds = [5; 3];
        let tally = search_file(&file, b"aaaa", &mut room, &mut tables, &mut finds);
        assert_eq!((tally, finds), (Ok(Tally { count: 2, letters: 6 }), [0, 1, 5]));
    }
}

#[test]
fn an_output_short_of_the_check_is_not_touched() {
    let (mut tables, mut out) = ([7u16; table_room(7) + 1], [9u8; 21]);
    for room in [0, 1, 2, 17, 18, 19] {
        assert_eq!(save_checked(b"abbbaab", &mut tables, &mut out[..room]), Err(Refusal::ShortOutput));
        assert_eq!((out, tables[..48].iter().max(), tables[48]), ([9; 21], Some(&0), 7));
    }
    assert_eq!(save_checked(b"abbbaab", &mut tables, &mut out[..20]), Ok(20));
    assert_eq!(out, *b"\x02\x07abbbaab\x04\0\0\x01\x03\x01\x01\x01\0\xfe\x2f\x09");
    let mut built = tables;
    assert_eq!(save(b"abbbaab", &mut built, &mut out), Ok(18));
    assert_eq!(built, tables);
}

#[test]
fn words_are_refused_as_by_the_first_edition() {
    let (mut tables, mut out) = ([7u16; table_room(3)], [9u8; 10]);
    let cases = [
        (&b""[..], 0, 0, Refusal::EmptyWord),
        (&[0; LONGEST_WORD + 1], 0, 0, Refusal::LongWord),
        (b"a", 0, 0, Refusal::ShortWord),
        (b"aaa", table_room(3) - 1, 0, Refusal::ShortRoom),
    ];
    for (word, entries, bytes, refusal) in cases {
        assert_eq!(save_checked(word, &mut tables[..entries], &mut out[..bytes]), Err(refusal));
        assert_eq!(save(word, &mut tables[..entries], &mut out[..bytes]), Err(refusal));
    }
    assert_eq!((tables, out), ([7; table_room(3)], [9; 10]));
    assert_eq!(Mark::new("a").unwrap().to_checked_file(), Err(Refusal::ShortWord));
}

#[test]
fn the_longest_file_is_five_bytes_a_letter_the_edition_and_the_check() {
    assert_eq!(LONGEST_FILE, 20_483);
    for letters in [1, 2, 4, 26, 256] {
        let (mut tables, mut out) = (vec![0; table_room(LONGEST_WORD)], [0; LONGEST_FILE]);
        assert!(save_checked(&word(LONGEST_WORD, letters), &mut tables, &mut out).is_ok_and(|length| length <= LONGEST_FILE));
    }
}
