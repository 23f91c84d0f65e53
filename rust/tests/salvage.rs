//! What listing rides writes to each buffer that it is lent, on success and on each refusal, and that it reads no byte more than it is lent.
mod fit;

use fit::{header, listed, pieces_of_headers, records, ride, Random};
use marks::entries::{salvage, search};
use marks::{table_room, Refusal, RideKind, LONGEST_TEXT, RIDE_TABLES};

/// What is in the rooms before.
const TABLE: u16 = 7;
const START: u32 = 9;
const KIND: u8 = 5;

/// The table that the search for `.FIT` leaves, and an entry behind it.
fn left_by_search() -> [u16; RIDE_TABLES + 1] {
    let mut tables = [TABLE; RIDE_TABLES + 1];
    search(b".FIT", b"", &mut tables, &mut []).unwrap();
    tables
}

/// Lists with lists of so many entries, and compares all that is there then with what must be.
#[track_caller]
fn lists_as_it_must(text: &[u8], room: [usize; 2]) {
    let must = listed(text);
    let (mut tables, mut starts, mut kinds) = ([TABLE; RIDE_TABLES + 1], vec![START; room[0]], vec![KIND; room[1]]);
    assert_eq!(salvage(text, &mut tables, &mut starts, &mut kinds), Ok(must.len()));
    assert_eq!(tables, left_by_search());
    let fitting = &must[..must.len().min(room[0]).min(room[1])];
    let (mut must_starts, mut must_kinds) = (vec![START; room[0]], vec![KIND; room[1]]);
    for (i, (start, whole, ..)) in fitting.iter().enumerate() {
        (must_starts[i], must_kinds[i]) = (*start as u32, u8::from(*whole));
    }
    assert_eq!((starts, kinds), (must_starts, must_kinds));
}

#[test]
fn the_numbers_of_kinds_and_tables() {
    assert_eq!((RIDE_TABLES, table_room(4)), (30, 30));
    assert_eq!((RideKind::Cut as u8, RideKind::Whole as u8), (0, 1));
}

#[test]
fn the_first_that_fit_the_shorter_list_and_no_entry_more() {
    let text = [ride(12, b"abc"), ride(14, &records(2)), header(12, 9), header(14, 0)].concat();
    for starts in 0..7 {
        for kinds in 0..7 {
            lists_as_it_must(&text, [starts, kinds]);
        }
    }
    lists_as_it_must(b"", [0, 0]);
    lists_as_it_must(b"", [3, 3]);
}

#[test]
fn texts_of_all_kinds() {
    let mut random = Random(88172645463325252);
    for pieces in 0..400 {
        let text = pieces_of_headers(&mut random, pieces % 40);
        lists_as_it_must(&text, [text.len(), text.len()]);
        lists_as_it_must(&text, [random.below(9), random.below(9)]);
    }
}

#[test]
fn too_few_table_entries_change_nothing() {
    let text = ride(12, b"abc");
    for entries in 0..RIDE_TABLES {
        let (mut tables, mut starts, mut kinds) = ([TABLE; RIDE_TABLES], [START; 3], [KIND; 3]);
        assert_eq!(salvage(&text, &mut tables[..entries], &mut starts, &mut kinds), Err(Refusal::ShortRoom));
        assert_eq!(salvage(b"", &mut tables[..entries], &mut [], &mut []), Err(Refusal::ShortRoom));
        assert_eq!((tables, starts, kinds), ([TABLE; RIDE_TABLES], [START; 3], [KIND; 3]));
    }
}

#[test]
fn a_long_text_is_refused_before_short_tables_and_changes_nothing() {
    let mut text = header(12, 0);
    text.resize(LONGEST_TEXT + 1, 0);
    let (mut tables, mut starts, mut kinds) = ([TABLE; RIDE_TABLES], [START; 3], [KIND; 3]);
    for entries in [0, RIDE_TABLES - 1, RIDE_TABLES] {
        assert_eq!(salvage(&text, &mut tables[..entries], &mut starts, &mut kinds), Err(Refusal::LongText));
    }
    assert_eq!(salvage(&text[1..], &mut tables[1..], &mut starts, &mut kinds), Err(Refusal::ShortRoom));
    assert_eq!((tables, starts, kinds), ([TABLE; RIDE_TABLES], [START; 3], [KIND; 3]));
}

#[test]
fn a_text_at_the_limit_is_listed_to_its_last_byte() {
    for (bytes, behind) in [(12, 0), (14, 0), (12, 2), (14, 2)] {
        let mut text = header(14, (LONGEST_TEXT - 16) as u32);
        text.resize(LONGEST_TEXT - usize::from(bytes) - behind, 0);
        text.extend(header(bytes, 0));
        text.resize(LONGEST_TEXT, 0);
        lists_as_it_must(&text, [3, 3]);
        // one byte less and the first is cut; the last is then no header, or cut
        lists_as_it_must(&text[..LONGEST_TEXT - 1], [3, 3]);
    }
}
