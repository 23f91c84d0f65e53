//! A header that declares four billion letters costs six bytes: the file goes on in memory that cannot be read, and the rooms cannot be touched at all. So with
//! a searcher that is refused: the piece and the list cannot be touched, and no byte behind it can. So with a search that is refused, and with a table that is.
//! An offset is written only by the refusals that have one. Rides are listed without a look behind the text, whatever their headers declare. And a thread of
//! 64 KiB has stack enough for a search.
use marks::{
    compact_sets_room, compact_targets_room, entries, failure_table_room, storacle_table_room, table_room, Refusal, LONGEST_STORACLE,
    LONGEST_TEXT, LONGEST_WORD, RIDE_TABLES, SEARCHER,
};
use std::{ffi::c_void, ptr};

const PAGE: usize = 65_536;

extern "C" {
    fn mmap(at: *mut c_void, length: usize, protection: i32, flags: i32, file: i32, offset: i64) -> *mut c_void;
    fn mprotect(at: *mut c_void, length: usize, protection: i32) -> i32;
    fn marks_load(
        file: *const u8,
        file_len: usize,
        room: *mut u8,
        room_len: usize,
        tables: *mut u16,
        tables_len: usize,
        m: *mut u64,
        offset: *mut u64,
    ) -> u32;
    fn marks_search_file(
        file: *const u8,
        file_len: usize,
        text: *const u8,
        text_len: usize,
        room: *mut u8,
        room_len: usize,
        tables: *mut u16,
        tables_len: usize,
        finds: *mut u32,
        finds_len: usize,
        count: *mut u64,
        letters: *mut u64,
        offset: *mut u64,
    ) -> u32;
    fn marks_search(
        word: *const u8,
        word_len: usize,
        text: *const u8,
        text_len: usize,
        tables: *mut u16,
        tables_len: usize,
        finds: *mut u32,
        finds_len: usize,
        count: *mut u64,
        letters: *mut u64,
    ) -> u32;
    fn marks_turbo(
        word: *const u8,
        word_len: usize,
        text: *const u8,
        text_len: usize,
        tables: *mut u16,
        tables_len: usize,
        finds: *mut u32,
        finds_len: usize,
        count: *mut u64,
        letters: *mut u64,
    ) -> u32;
    fn marks_failure_build(word: *const u8, word_len: usize, tables: *mut u16, tables_len: usize, m: *mut u64) -> u32;
    fn marks_failure_search(
        word: *const u8,
        word_len: usize,
        text: *const u8,
        text_len: usize,
        tables: *mut u16,
        tables_len: usize,
        finds: *mut u32,
        finds_len: usize,
        count: *mut u64,
        letters: *mut u64,
        failures: *mut u64,
    ) -> u32;
    fn marks_storacle_build(word: *const u8, word_len: usize, tables: *mut u16, tables_len: usize, m: *mut u64) -> u32;
    fn marks_compact_build(
        word: *const u8,
        word_len: usize,
        sets: *mut u64,
        sets_len: usize,
        targets: *mut u16,
        targets_len: usize,
        m: *mut u64,
    ) -> u32;
    fn marks_compact_search(
        word: *const u8,
        word_len: usize,
        text: *const u8,
        text_len: usize,
        sets: *mut u64,
        sets_len: usize,
        targets: *mut u16,
        targets_len: usize,
        finds: *mut u32,
        finds_len: usize,
        count: *mut u64,
        letters: *mut u64,
    ) -> u32;
    fn marks_take(
        searcher: *mut u8,
        searcher_len: usize,
        piece: *const u8,
        piece_len: usize,
        finds: *mut u32,
        finds_len: usize,
        count: *mut u64,
    ) -> u32;
    fn marks_salvage(
        text: *const u8,
        text_len: usize,
        tables: *mut u16,
        tables_len: usize,
        starts: *mut u32,
        starts_len: usize,
        kinds: *mut u8,
        kinds_len: usize,
        count: *mut u64,
    ) -> u32;
}

const NONE: i32 = 0;
const READ_WRITE: i32 = 3;
const PRIVATE_ANONYMOUS: i32 = 0x22;

/// Pages that end any program which touches them, behind one that may be written.
fn forbidden_behind_a_page(pages: usize) -> *mut u8 {
    // SAFETY: new pages of this process; the first of them is opened.
    unsafe {
        let start = mmap(ptr::null_mut(), (pages + 1) * PAGE, NONE, PRIVATE_ANONYMOUS, -1, 0);
        assert_ne!(start as isize, -1);
        assert_eq!(mprotect(start, PAGE, READ_WRITE), 0);
        start.cast::<u8>().add(PAGE)
    }
}

/// These bytes, behind which nothing can be touched.
fn lent(bytes: &[u8]) -> *mut u8 {
    let end = forbidden_behind_a_page(1);
    // SAFETY: the last bytes of a page that may be written.
    unsafe {
        ptr::copy_nonoverlapping(bytes.as_ptr(), end.sub(bytes.len()), bytes.len());
        end.sub(bytes.len())
    }
}

/// The refusal and its offset.
fn load_with_forbidden_rest(bytes: &[u8]) -> (u32, u64) {
    let (file, room, tables) = (forbidden_behind_a_page(16), forbidden_behind_a_page(1), forbidden_behind_a_page(1));
    let (mut m, mut offset) = (99, 99);
    // SAFETY: the entry is handed lengths that reach into pages which cannot be touched; that it does not is what is tested.
    let refused = unsafe {
        let start = file.sub(bytes.len());
        ptr::copy_nonoverlapping(bytes.as_ptr(), start, bytes.len());
        marks_load(start, 1 << 20, room, LONGEST_WORD, tables.cast(), table_room(LONGEST_WORD), &mut m, &mut offset)
    };
    assert_eq!(m, 99);
    (refused, offset)
}

#[test]
fn a_declared_length_is_not_acted_on_before_it_is_checked() {
    let longer = LONGEST_WORD + 1;
    for edition in [0x01, 0x02] {
        assert_eq!(load_with_forbidden_rest(&[edition, 0xFF, 0xFF, 0xFF, 0xFF, 0x0F]), (8, 1));
        assert_eq!(load_with_forbidden_rest(&[edition, 0x80 | (longer % 128) as u8, (longer / 128) as u8]), (8, 1));
        assert_eq!(load_with_forbidden_rest(&[edition, 0x00]), (8, 1));
        assert_eq!(load_with_forbidden_rest(&[edition, 0x83, 0x00]), (6, 2));
        assert_eq!(load_with_forbidden_rest(&[edition, 0xFF, 0xFF, 0xFF, 0xFF, 0x10]), (6, 5));
    }
    assert_eq!(load_with_forbidden_rest(&[0x03]), (7, 0));
}

/// What loading says, and what it leaves of an offset that was 99.
fn load_leaves(file: &[u8], room: &mut [u8]) -> (u32, u64) {
    let (mut tables, mut m, mut offset) = ([0; table_room(3)], 0, 99);
    let (room_len, tables_len) = (room.len(), tables.len());
    // SAFETY: each pointer and length is of one slice, and the answers outlive the call.
    let said =
        unsafe { marks_load(file.as_ptr(), file.len(), room.as_mut_ptr(), room_len, tables.as_mut_ptr(), tables_len, &mut m, &mut offset) };
    (said, offset)
}

/// The same of searching with a file.
fn search_leaves(file: &[u8], text: &[u8], room: &mut [u8]) -> (u32, u64) {
    let (mut tables, mut finds) = ([0; table_room(3)], [0; 2]);
    let (mut count, mut letters, mut offset) = (0, 0, 99);
    // SAFETY: as above.
    let said = unsafe {
        marks_search_file(
            file.as_ptr(),
            file.len(),
            text.as_ptr(),
            text.len(),
            room.as_mut_ptr(),
            room.len(),
            tables.as_mut_ptr(),
            tables.len(),
            finds.as_mut_ptr(),
            finds.len(),
            &mut count,
            &mut letters,
            &mut offset,
        )
    };
    (said, offset)
}

#[test]
fn an_offset_is_written_by_the_refusals_that_have_one_and_by_nothing_else() {
    let (good, longer, text) = (b"\x01\x03aaa\0", b"\x01\x03aaa\0\0", vec![b'a'; LONGEST_TEXT + 1]);
    let (checked, other_check) = (b"\x02\x03aaa\0\x22\x50", b"\x02\x03aaa\0\x23\x50");
    let mut room = [0; 3];
    let cases = [
        (&good[..], 3, (0, 99)),
        (good, 2, (3, 99)),
        (longer, 2, (3, 99)),
        (longer, 3, (11, 6)),
        (b"", 0, (5, 0)),
        (checked, 3, (0, 99)),
        (other_check, 2, (3, 99)),
        (other_check, 3, (13, 6)),
    ];
    for (file, letters, left) in cases {
        assert_eq!(load_leaves(file, &mut room[..letters]), left);
        assert_eq!(search_leaves(file, b"aaaa", &mut room[..letters]), left);
        assert_eq!(search_leaves(file, &text, &mut room[..letters]), (4, 99));
    }
}

/// Takes a piece with a searcher behind which nothing can be touched. The piece, of so many bytes, and the list cannot be touched at all.
fn take_with_forbidden_rest(searcher: &[u8], piece_len: usize) -> u32 {
    let (lent, piece, finds) = (forbidden_behind_a_page(1), forbidden_behind_a_page(1), forbidden_behind_a_page(1));
    let mut count = 99;
    // SAFETY: as above.
    let refused = unsafe {
        let start = lent.sub(searcher.len());
        ptr::copy_nonoverlapping(searcher.as_ptr(), start, searcher.len());
        let refused = marks_take(start, searcher.len(), piece, piece_len, finds.cast(), 1 << 10, &mut count);
        assert_eq!(std::slice::from_raw_parts(start, searcher.len()), searcher);
        refused
    };
    assert_eq!(count, if refused == 0 { 0 } else { 99 });
    refused
}

#[test]
fn a_refused_piece_is_not_looked_at_nor_anything_behind_the_searcher() {
    let mut searcher = [0; SEARCHER];
    entries::open(&[b'a'; 64], &mut searcher).unwrap();
    assert_eq!(take_with_forbidden_rest(&searcher, 0), 0);
    assert_eq!(take_with_forbidden_rest(&searcher, LONGEST_TEXT + 1), 4);
    assert_eq!(take_with_forbidden_rest(&searcher, usize::MAX >> 1), 4);
    for short in 0..SEARCHER {
        assert_eq!(take_with_forbidden_rest(&searcher[..short], 100), 16);
    }
    // a word's length, a kept one, and numbers of bytes taken
    for (place, refusal) in [(128, 16), (129, 16), (130, 4), (131, 4), (132, 4), (133, 16)] {
        let mut forged = searcher;
        forged[place] = 255;
        assert_eq!(take_with_forbidden_rest(&forged, LONGEST_TEXT), refusal);
    }
}

/// Searches by both engines where nothing can be touched, the word, the text, the tables and the list having so many elements. What they both say.
fn search_with_all_forbidden(word_len: usize, text_len: usize, tables_len: usize) -> u32 {
    let [word, text, tables, finds] = [(); 4].map(|()| forbidden_behind_a_page(1));
    let said = [marks_search, marks_turbo].map(|entry| {
        let (mut count, mut letters) = (99, 99);
        // SAFETY: as above.
        let refused =
            unsafe { entry(word, word_len, text, text_len, tables.cast(), tables_len, finds.cast(), 1 << 10, &mut count, &mut letters) };
        assert_eq!((count, letters), (99, 99));
        refused
    });
    assert_eq!(said[0], said[1]);
    said[0]
}

#[test]
fn a_refused_search_touches_nothing() {
    assert_eq!(search_with_all_forbidden(0, LONGEST_TEXT + 1, 0), 1);
    assert_eq!(search_with_all_forbidden(LONGEST_WORD + 1, LONGEST_TEXT + 1, 0), 2);
    assert_eq!(search_with_all_forbidden(LONGEST_WORD, LONGEST_TEXT + 1, 0), 4);
    assert_eq!(search_with_all_forbidden(4, usize::MAX >> 1, table_room(4)), 4);
    assert_eq!(search_with_all_forbidden(LONGEST_WORD, LONGEST_TEXT, table_room(LONGEST_WORD) - 1), 3);
}

/// The same of the failure oracle: what its search says, and its building too where the text is not what is refused.
fn failure_with_all_forbidden(word_len: usize, text_len: usize, tables_len: usize) -> u32 {
    let [word, text, tables, finds] = [(); 4].map(|()| forbidden_behind_a_page(1));
    let (tables, finds): (*mut u16, *mut u32) = (tables.cast(), finds.cast());
    let (mut m, mut count, mut letters, mut failures) = (99, 99, 99, 99);
    // SAFETY: as above.
    let built = unsafe { marks_failure_build(word, word_len, tables, tables_len, &mut m) };
    // SAFETY: as above.
    let searched = unsafe {
        let finds_len = 1 << 10;
        marks_failure_search(word, word_len, text, text_len, tables, tables_len, finds, finds_len, &mut count, &mut letters, &mut failures)
    };
    assert_eq!((m, count, letters, failures), (99, 99, 99, 99));
    assert!(searched == built || searched == 4);
    searched
}

#[test]
fn a_refused_failure_oracle_touches_nothing() {
    let room = failure_table_room(LONGEST_WORD);
    assert_eq!(failure_with_all_forbidden(0, LONGEST_TEXT + 1, 0), 1);
    assert_eq!(failure_with_all_forbidden(LONGEST_WORD + 1, LONGEST_TEXT + 1, 0), 2);
    assert_eq!(failure_with_all_forbidden(LONGEST_WORD, LONGEST_TEXT + 1, room - 1), 4);
    assert_eq!(failure_with_all_forbidden(4, usize::MAX >> 1, 0), 4);
    assert_eq!(failure_with_all_forbidden(LONGEST_WORD, LONGEST_TEXT, room - 1), 3);
}

/// The same of building a storacle.
fn storacle_with_all_forbidden(word_len: usize, tables_len: usize) -> u32 {
    let ([word, tables], mut m) = ([(); 2].map(|()| forbidden_behind_a_page(1)), 99);
    // SAFETY: as above.
    let refused = unsafe { marks_storacle_build(word, word_len, tables.cast(), tables_len, &mut m) };
    assert_eq!(m, 99);
    refused
}

#[test]
fn a_refused_storacle_touches_nothing() {
    let room = storacle_table_room(LONGEST_STORACLE);
    assert_eq!(storacle_with_all_forbidden(0, 0), 1);
    assert_eq!(storacle_with_all_forbidden(0, room), 1);
    assert_eq!(storacle_with_all_forbidden(LONGEST_STORACLE + 1, 0), 2);
    assert_eq!(storacle_with_all_forbidden(usize::MAX >> 1, usize::MAX >> 2), 2);
    assert_eq!(storacle_with_all_forbidden(LONGEST_STORACLE, room - 1), 3);
    assert_eq!(storacle_with_all_forbidden(1, 13), 3);
}

#[test]
fn nothing_is_touched_behind_what_a_storacle_is_lent() {
    let distinct: Vec<u8> = (0..=255).take(LONGEST_STORACLE).collect();
    for word in [&b"a"[..], b"ab", b"abcacdace", &[0; LONGEST_STORACLE], &distinct] {
        let (m, room) = (word.len(), storacle_table_room(word.len()));
        let (tables, mut built, mut expected) = (lent(&vec![7; 2 * room]).cast::<u16>(), 99, vec![0; room]);
        // SAFETY: the entry is lent the last bytes of pages, which may be read and written, and is not to touch those behind them.
        let table = unsafe {
            assert_eq!((marks_storacle_build(lent(word), m, tables, room, &mut built), built), (0, m as u64));
            std::slice::from_raw_parts(tables, room)
        };
        assert_eq!(entries::storacle_build(word, &mut expected), Ok(m));
        assert_eq!(table, expected);
    }
}

/// The same of compact rows: what their search says, and their building too where the text is not what is refused.
fn compact_with_all_forbidden(word_len: usize, text_len: usize, sets_len: usize, targets_len: usize) -> u32 {
    let [word, text, sets, targets, finds] = [(); 5].map(|()| forbidden_behind_a_page(1));
    let (sets, targets, finds): (*mut u64, *mut u16, *mut u32) = (sets.cast(), targets.cast(), finds.cast());
    let (mut m, mut count, mut letters, finds_len) = (99, 99, 99, 1 << 10);
    // SAFETY: as above.
    let built = unsafe { marks_compact_build(word, word_len, sets, sets_len, targets, targets_len, &mut m) };
    // SAFETY: as above.
    let searched = unsafe {
        marks_compact_search(
            word,
            word_len,
            text,
            text_len,
            sets,
            sets_len,
            targets,
            targets_len,
            finds,
            finds_len,
            &mut count,
            &mut letters,
        )
    };
    assert_eq!((m, count, letters), (99, 99, 99));
    assert!(searched == built || searched == 4);
    searched
}

#[test]
fn refused_compact_rows_touch_nothing() {
    let (sets, targets) = (compact_sets_room(LONGEST_WORD), compact_targets_room(LONGEST_WORD));
    assert_eq!(compact_with_all_forbidden(0, LONGEST_TEXT + 1, 0, 0), 1);
    assert_eq!(compact_with_all_forbidden(LONGEST_WORD + 1, LONGEST_TEXT + 1, 0, 0), 2);
    assert_eq!(compact_with_all_forbidden(LONGEST_WORD, LONGEST_TEXT + 1, sets - 1, targets - 1), 4);
    assert_eq!(compact_with_all_forbidden(4, usize::MAX >> 1, 0, 0), 4);
    assert_eq!(compact_with_all_forbidden(LONGEST_WORD, LONGEST_TEXT, sets - 1, targets), 3);
    assert_eq!(compact_with_all_forbidden(LONGEST_WORD, LONGEST_TEXT, sets, targets - 1), 3);
}

/// Builds compact rows and searches with them where nothing can be touched behind the word, the text, rooms of just the length that is needed, and a list for
/// one find. The count and that find.
fn compact_with_forbidden_rest(word: &[u8], text: &[u8]) -> (u64, u32) {
    let (m, word, text_len, text) = (word.len(), lent(word), text.len(), lent(text));
    let (sets_len, targets_len) = (compact_sets_room(m), compact_targets_room(m));
    let [sets, targets, finds] = [8 * sets_len, 2 * targets_len, 4].map(|bytes| lent(&vec![7; bytes]));
    let (mut built, mut count, mut letters) = (99, 99, 99);
    // SAFETY: the entries are lent the last bytes of pages, which may be read and written, and are not to touch those behind them.
    unsafe {
        let (sets, targets, finds): (*mut u64, *mut u16, *mut u32) = (sets.cast(), targets.cast(), finds.cast());
        assert_eq!((marks_compact_build(word, m, sets, sets_len, targets, targets_len, &mut built), built), (0, m as u64));
        let said = marks_compact_search(word, m, text, text_len, sets, sets_len, targets, targets_len, finds, 1, &mut count, &mut letters);
        assert_eq!(said, 0);
        (count, *finds)
    }
}

#[test]
fn nothing_is_touched_behind_what_compact_rows_are_lent() {
    let (every, zeros): (Vec<u8>, Vec<u8>) = ((0..=255).collect(), vec![0; 1_000]);
    for word in [&b"a"[..], b"ab", &every, &zeros, &[&zeros[..], b"b"].concat()] {
        assert_eq!(compact_with_forbidden_rest(word, &[b"xy", word].concat()), (1, 2));
        assert_eq!(compact_with_forbidden_rest(word, &[b"xy".repeat(10_000), word.repeat(2)].concat()).1, 20_000);
        assert_eq!(compact_with_forbidden_rest(word, &word[1..]).0, 0);
    }
}

/// Lists rides where nothing can be touched, the text and the tables having so many elements. What it says.
fn salvage_with_all_forbidden(text_len: usize, tables_len: usize) -> u32 {
    let [text, tables, starts, kinds] = [(); 4].map(|()| forbidden_behind_a_page(1));
    let mut count = 99;
    // SAFETY: as above.
    let refused = unsafe { marks_salvage(text, text_len, tables.cast(), tables_len, starts.cast(), 1 << 10, kinds, 1 << 10, &mut count) };
    assert_eq!(count, 99);
    refused
}

#[test]
fn refused_listing_of_rides_touches_nothing() {
    assert_eq!(salvage_with_all_forbidden(LONGEST_TEXT + 1, 0), 4);
    assert_eq!(salvage_with_all_forbidden(usize::MAX >> 1, RIDE_TABLES), 4);
    assert_eq!(salvage_with_all_forbidden(LONGEST_TEXT, RIDE_TABLES - 1), 3);
    assert_eq!(salvage_with_all_forbidden(0, 0), 3);
}

/// Lists the rides of a text behind which nothing can be touched, nor behind the tables, nor behind lists for one ride. The count, the start and the kind.
fn salvage_with_forbidden_rest(bytes: &[u8]) -> (u64, u32, u8) {
    let [text, tables, starts, kinds] = [(); 4].map(|()| forbidden_behind_a_page(1));
    let mut count = 99;
    // SAFETY: the entry is lent the last bytes of four pages, which may be read and written, and is not to touch those behind them.
    unsafe {
        let (text, tables) = (text.sub(bytes.len()), tables.cast::<u16>().sub(RIDE_TABLES));
        let (start, kind) = (starts.cast::<u32>().sub(1), kinds.sub(1));
        ptr::copy_nonoverlapping(bytes.as_ptr(), text, bytes.len());
        assert_eq!(marks_salvage(text, bytes.len(), tables, RIDE_TABLES, start, 1, kind, 1, &mut count), 0);
        (count, *start, *kind)
    }
}

#[test]
fn no_byte_behind_a_text_is_read_whatever_its_headers_declare() {
    for declared in [0u32, 1, 2, 1 << 16, 1 << 24, u32::MAX - 15, u32::MAX] {
        for bytes in [12, 14] {
            let header = [&[bytes, 0x10, 0, 0][..], &declared.to_le_bytes(), b".FIT\0\0"].concat();
            let text = [b"..", &header[..usize::from(bytes)]].concat();
            assert_eq!(salvage_with_forbidden_rest(&text), (1, 2, 0));
            assert_eq!(salvage_with_forbidden_rest(&[&text[..], b"##"].concat()), (1, 2, u8::from(declared == 0)));
            assert_eq!(salvage_with_forbidden_rest(&text[..text.len() - 1]).0, 0);
            assert_eq!(salvage_with_forbidden_rest(&[&text[..], &header[..usize::from(bytes)]].concat()).0, 2);
        }
    }
}

#[test]
fn lists_of_no_entries_and_a_text_of_no_bytes_may_be_null() {
    let (mut tables, mut count) = ([0; RIDE_TABLES], 99);
    let header = b"\x0c\x10\0\0\0\0\0\0.FIT";
    for (text, bytes, rides) in [(ptr::null(), 0, 0), (header.as_ptr(), header.len(), 1)] {
        // SAFETY: what is null has no elements.
        let said =
            unsafe { marks_salvage(text, bytes, tables.as_mut_ptr(), RIDE_TABLES, ptr::null_mut(), 0, ptr::null_mut(), 0, &mut count) };
        assert_eq!((said, count), (0, rides));
    }
    // SAFETY: as above.
    let said = unsafe { marks_salvage(ptr::null(), 0, ptr::null_mut(), 0, ptr::null_mut(), 0, ptr::null_mut(), 0, &mut count) };
    assert_eq!((said, count), (3, 1));
}

#[test]
fn a_text_below_the_word_is_not_looked_at() {
    let (text, finds) = (forbidden_behind_a_page(1), forbidden_behind_a_page(1));
    for m in [2, LONGEST_WORD] {
        let (word, mut tables) = (vec![b'a'; m], vec![0; table_room(m)]);
        let (mut count, mut letters) = (99, 99);
        // SAFETY: as above, but for the word and the tables, which are of one slice each.
        let said = unsafe {
            marks_turbo(word.as_ptr(), m, text, m - 1, tables.as_mut_ptr(), tables.len(), finds.cast(), 1 << 10, &mut count, &mut letters)
        };
        assert_eq!((said, count, letters), (0, 0, 0));
    }
}

type Count = fn(&[u8], &[u8], &mut [u16], &mut [u32]) -> Result<u64, Refusal>;

/// The longest words, one of one letter and one whose walk over supplies is long, on threads that have no more stack than is promised to be enough.
#[test]
fn a_thread_of_64_kib_has_stack_enough() {
    let of_one_letter = vec![b'a'; LONGEST_WORD];
    let ends_otherwise = [&of_one_letter[1..], b"b"].concat();
    let searches: [Count; 4] = [
        |word, text, tables, finds| entries::search(word, text, tables, finds).map(|tally| tally.count),
        |word, text, tables, finds| entries::turbo(word, text, tables, finds).map(|tally| tally.count),
        |word, text, tables, finds| entries::failure_search(word, text, tables, finds).map(|tally| tally.count),
        |word, text, targets, finds| {
            let mut sets = vec![0; compact_sets_room(word.len())];
            entries::compact_search(word, text, &mut sets, targets, finds).map(|tally| tally.count)
        },
    ];
    for word in [of_one_letter, ends_otherwise] {
        for count_by in searches {
            let (word, text) = (word.clone(), word.repeat(2));
            let (mut tables, mut finds) = (vec![0; failure_table_room(LONGEST_WORD)], vec![0; 8]);
            let search = move || count_by(&word, &text, &mut tables, &mut finds);
            let count = std::thread::Builder::new().stack_size(1 << 16).spawn(search).unwrap().join().unwrap();
            assert!(count.is_ok_and(|count| count >= 2));
        }
    }
}

/// The same of building a storacle, of the longest word that has one.
#[test]
fn a_thread_of_64_kib_has_stack_enough_for_a_storacle() {
    let word: Vec<u8> = b"abcdabcdbacbbdaddccaae".iter().copied().cycle().take(LONGEST_STORACLE).collect();
    let mut tables = vec![0; storacle_table_room(LONGEST_STORACLE)];
    let build = move || entries::storacle_build(&word, &mut tables);
    let built = std::thread::Builder::new().stack_size(1 << 16).spawn(build).unwrap().join().unwrap();
    assert_eq!(built, Ok(LONGEST_STORACLE));
}

/// The same of listing rides, in a long text that is full of headers.
#[test]
fn a_thread_of_64_kib_has_stack_enough_for_rides() {
    let text = b"\x0c\0.FIT".repeat(100_000);
    let (mut starts, mut kinds) = (vec![0; 100_000], vec![0; 100_000]);
    let list = move || entries::salvage(&text, &mut [0; RIDE_TABLES], &mut starts, &mut kinds);
    let count = std::thread::Builder::new().stack_size(1 << 16).spawn(list).unwrap().join().unwrap();
    assert_eq!(count, Ok(99_999));
}
