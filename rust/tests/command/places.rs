//! Where `marks check` shows that a file is broken: the bytes there, as `hexdump -C` has them, below the file's verdict.

use crate::{Folder, CHECKED, GOOD};
use marks::{Mark, Refusal, LONGEST_FILE, LONGEST_WORD};

/// What is printed below the verdict on a refused file, which begins so.
#[track_caller]
fn shown(here: &Folder, name: &str, verdict: &str) -> Vec<String> {
    let said = here.marks(&["check", name]);
    assert_eq!((said.err.as_str(), said.status), ("", Some(1)));
    let mut lines = said.out.lines().map(str::to_string);
    let first = lines.next().unwrap();
    assert!(first.starts_with(&format!("{name}: refused: {verdict}; ")), "{first}");
    lines.collect()
}

#[test]
fn the_faulty_byte_is_marked() {
    let mut arrow = GOOD.to_vec();
    arrow[13] = 4;
    let here = Folder::new("marked").with("arrow", arrow).with("huge", b"\x01\xff\xff\xff\xff\x0f");
    assert_eq!(
        shown(&here, "arrow", "an arrow in the file is not its word's own at that place, or arrows are missing (10), at offset 12"),
        [
            "  00000000  01 07 61 62 62 62 61 61  62 04 00 00 01 04 01 01  |..abbbaab.......|",
            "                                                 ^^",
            "  00000010  01 00                                             |..|",
        ]
    );
    assert_eq!(
        shown(&here, "huge", "the file declares fewer than 2 letters, or more than 4,096 (8), at offset 1"),
        ["  00000000  01 ff ff ff ff 0f                                 |......|", "               ^^"]
    );
}

#[test]
fn a_wrong_check_is_marked_at_its_first_byte() {
    let mut flipped = CHECKED.to_vec();
    flipped[19] ^= 1;
    let here = Folder::new("check").with("second", flipped).with("letter", b"\x02\x02bb\0\0\x36");
    let verdict = |offset| format!("the file's check is not that of the bytes before it (13), at offset {offset}");
    assert_eq!(
        shown(&here, "second", &verdict(18)),
        [
            "  00000000  02 07 61 62 62 62 61 61  62 04 00 00 01 03 01 01  |..abbbaab.......|",
            "  00000010  01 00 fe 2e                                       |....|",
            "                  ^^",
        ]
    );
    assert_eq!(
        shown(&here, "letter", &verdict(5)),
        ["  00000000  02 02 62 62 00 00 36                              |..bb..6|", "                           ^^"]
    );
}

#[test]
fn the_end_of_a_file_is_marked_behind_its_last_byte() {
    let here = Folder::new("ends").with("empty", "").with("cut", &GOOD[..11]).with("row", &GOOD[..16]).with("missing", b"\x01\x02ab\0");
    let cut = |length| format!("{}, at offset {length}", Refusal::CutFile);
    assert_eq!(shown(&here, "empty", &cut(0)), ["  00000000", "            ^^ the file ends here"]);
    assert_eq!(
        shown(&here, "cut", &cut(11)),
        [
            "  00000000  01 07 61 62 62 62 61 61  62 04 00                 |..abbbaab..|",
            "                                              ^^ the file ends here",
        ]
    );
    assert_eq!(
        shown(&here, "row", &cut(16)),
        [
            "  00000000  01 07 61 62 62 62 61 61  62 04 00 00 01 03 01 01  |..abbbaab.......|",
            "  00000010",
            "            ^^ the file ends here",
        ]
    );
    assert_eq!(
        shown(&here, "missing", "an arrow in the file is not its word's own at that place, or arrows are missing (10), at offset 5"),
        ["  00000000  01 02 61 62 00                                    |..ab.|", "                           ^^ the file ends here"]
    );
}

#[test]
fn each_place_stands_below_its_own_file() {
    let here = Folder::new("several").with("1", b"\x03").with("2", b"\x01\x02aa\0").with("3", b"\x01\x02aa\0\x1b[2J");
    let said = here.marks_reading(&["check", "1", "2", "gone", "3", "-"], b"\x01\0");
    said.is_with(
        2,
        "\
1: refused: the file's edition is neither 1 nor 2 (7), at offset 0; it is no mark file, or of a later edition: save the mark again
  00000000  03                                                |.|
            ^^
2: good, finds \"aa\" (edition 1, 2 letters)
3: refused: bytes follow the file's last arrow, or in edition 2 its check (11), at offset 5; something was added to it: save the mark again
  00000000  01 02 61 61 00 1b 5b 32  4a                       |..aa..[2J|
                           ^^
(standard input): refused: the file declares fewer than 2 letters, or more than 4,096 (8), at offset 1; it is damaged, no mark file, or of one letter: save a mark of 2 to 4,096 bytes
  00000000  01 00                                             |..|
               ^^
",
        "marks: gone: there is no such file; check its name\n",
    );
}

/// A hundred kilobytes of anything, the same each time.
fn garbage() -> Vec<u8> {
    let mut seed = 88172645463325252u64;
    let mut byte = || {
        seed ^= seed << 13;
        seed ^= seed >> 7;
        seed ^= seed << 17;
        (seed >> 20) as u8
    };
    (0..100_000).map(|_| byte()).collect()
}

/// The files of a word of the most letters, of each edition.
fn longest_files() -> [Vec<u8>; 2] {
    let mark = Mark::new(&garbage()[..LONGEST_WORD]).unwrap();
    [mark.to_file().unwrap(), mark.to_checked_file().unwrap()]
}

/// Of a file that is longer than what is read of it, verdict and place are those of the whole, which the library is handed here.
#[track_caller]
fn judged_as_the_whole(here: Folder, file: &[u8]) {
    assert!(file.len() > 2 * LONGEST_FILE);
    let here = here.with("long", file);
    let error = Mark::from_file(file).unwrap_err();
    let lines = shown(&here, "long", &error.to_string());
    let offset = error.offset.unwrap();
    let row = lines.iter().find(|line| line.starts_with(&format!("  {:08x}", offset / 16 * 16))).unwrap();
    let marked = lines.iter().find_map(|line| line.find("^^")).unwrap();
    assert_eq!(row[marked..marked + 2], format!("{:02x}", file[offset]));
    rows_are_hexdumps(&here, &lines);
}

/// Where hexdump is at hand, it has the same rows.
fn rows_are_hexdumps(here: &Folder, lines: &[String]) {
    let said = here.shell("command -v hexdump >/dev/null || exit 9; hexdump -C -v long");
    if said.status == Some(9) {
        eprintln!("not tried: there is no hexdump");
        return;
    }
    for row in lines.iter().filter(|line| !line.contains("^^")) {
        assert!(said.out.lines().any(|line| format!("  {line}") == *row), "{row}");
    }
}

#[test]
fn a_hundred_kilobytes_of_leftovers() {
    let file = [GOOD, &[b'x'; 100_000]].concat();
    let here = Folder::new("leftovers").with("file", &file);
    assert_eq!(
        shown(&here, "file", "bytes follow the file's last arrow, or in edition 2 its check (11), at offset 18"),
        [
            "  00000000  01 07 61 62 62 62 61 61  62 04 00 00 01 03 01 01  |..abbbaab.......|",
            "  00000010  01 00 78 78 78 78 78 78  78 78 78 78 78 78 78 78  |..xxxxxxxxxxxxxx|",
            "                  ^^",
        ]
    );
    judged_as_the_whole(here, &file);
    // behind the files of a word of the most letters
    for (edition, file) in longest_files().into_iter().enumerate() {
        judged_as_the_whole(Folder::new(&format!("leftovers-of-longest-{edition}")), &[file, garbage()].concat());
    }
}

#[test]
fn a_hundred_kilobytes_of_garbage() {
    let here = Folder::new("garbage").with("file", garbage());
    assert_eq!(shown(&here, "file", "the file's edition is neither 1 nor 2 (7), at offset 0").len(), 2);
    judged_as_the_whole(here, &garbage());
    // from each field of a good file on; of one of edition 2 from the check on, too
    for (edition, file) in longest_files().iter().enumerate() {
        for kept in [1, 3, 3 + LONGEST_WORD, 5 + LONGEST_WORD, file.len() - 3, file.len() - 2] {
            judged_as_the_whole(Folder::new(&format!("garbage-{edition}-from-{kept}")), &[&file[..kept], &garbage()].concat());
        }
    }
}
