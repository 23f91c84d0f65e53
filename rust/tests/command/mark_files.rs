//! `marks check` and `marks show`: mark files good and bad.

use crate::{Folder, CHECKED, GOOD};
use marks::{Mark, Refusal, LONGEST_STORACLE};
use std::fs;

#[test]
fn check_says_what_good_files_find() {
    let here = Folder::new("good").with("7", GOOD).with("7c", CHECKED).with("2", b"\x01\x02aa\0").with("3", b"\x01\x03aaa\0");
    here.marks(&["save", "-x", "00 20 22 5c 80 7e", "odd"]).is(0, "");
    here.marks(&["check", "7", "7c", "2", "3", "odd"]).is(
        0,
        concat!(
            "7: good, finds \"baabbba\" (edition 1, 7 letters; it holds the mirror, \"abbbaab\")\n",
            "7c: good, finds \"baabbba\" (edition 2, 7 letters; it holds the mirror, \"abbbaab\")\n",
            "2: good, finds \"aa\" (edition 1, 2 letters)\n",
            "3: good, finds \"aaa\" (edition 1, 3 letters)\n",
            "odd: good, finds \"\\x00 \\\"\\\\\\x80~\" (edition 2, 6 letters; it holds the mirror, \"~\\x80\\\\\\\" \\x00\")\n",
        ),
    );
}

/// A refused file is told in the same words by all that load it, and keeps `check` from no file behind it.
#[track_caller]
fn is_told(folder: &str, bytes: &[u8], refusal: Refusal, offset: usize, advice: &str) {
    let here = Folder::new(folder).with("bad", bytes).with("good", GOOD).with("ride", "baabbba");
    let told = format!("{refusal}, at offset {offset}; {advice}");
    let said = here.marks(&["check", "bad", "good"]);
    let unindented: Vec<&str> = said.out.lines().filter(|line| !line.starts_with("  ")).collect();
    let good = "good: good, finds \"baabbba\" (edition 1, 7 letters; it holds the mirror, \"abbbaab\")";
    assert_eq!(unindented, [&format!("bad: refused: {told}"), good]);
    assert_eq!((said.err.as_str(), said.status), ("", Some(1)));
    let show = ["--", "--dot", "--failure", "--storacle", "--compact"].map(|form| vec!["show", form, "bad"]);
    for words in [&[vec!["find", "-m", "bad", "ride"]], &show[..]].concat() {
        here.marks(&words).is_with(2, "", &format!("marks: bad: {told}\n"));
    }
}

#[test]
fn every_refusal_of_a_file_is_told_with_its_number_and_offset() {
    let again = "save the mark again";
    let damaged = format!("it is damaged or no mark file: {again}");
    let cut = (Refusal::CutFile, format!("it was cut: copy it again, or {again}"));
    let length = (Refusal::BadLength, "it is damaged, no mark file, or of one letter: save a mark of 2 to 4,096 bytes".to_string());
    let [spelling, arrows] = [Refusal::BadNumber, Refusal::WrongArrow].map(|refusal| (refusal, damaged.clone()));
    let cases: [(&[u8], usize, _); 12] = [
        (b"", 0, cut.clone()),
        (&GOOD[..17], 17, cut),
        (b"\x01\x83\x00aaa\x00", 2, spelling.clone()),
        (b"\x01\xff\xff\xff\xff\x10", 5, spelling),
        (b"\x03\x01a\0", 0, (Refusal::OtherEdition, format!("it is no mark file, or of a later edition: {again}"))),
        // four billion letters, none, and one
        (b"\x01\xff\xff\xff\xff\x0f", 1, length.clone()),
        (b"\x01\x00", 1, length.clone()),
        (b"\x01\x01a\0", 1, length),
        (b"\x01\x03aaa\x03", 5, (Refusal::BadCount, damaged)),
        (b"\x01\x03aaa\x01\0\0", 6, arrows.clone()),
        (b"\x01\x02ab\0", 5, arrows),
        (b"\x01\x03aaa\0\0", 6, (Refusal::Leftovers, format!("something was added to it: {again}"))),
    ];
    for (number, (bytes, offset, (refusal, advice))) in cases.into_iter().enumerate() {
        is_told(&format!("refused-{number}"), bytes, refusal, offset, &advice);
    }
}

#[test]
fn so_is_every_refusal_of_a_check() {
    let cut = (Refusal::CutFile, "it was cut: copy it again, or save the mark again");
    let wrong = (Refusal::BadCheck, "it is damaged: copy it again, or save the mark again");
    let cases: [(&[u8], usize, _); 5] = [
        (&CHECKED[..18], 18, cut),
        (&CHECKED[..19], 19, cut),
        // the check of another word's file, and one with its bytes exchanged
        (b"\x02\x02bb\0\0\x36", 5, wrong),
        (b"\x02\x02aa\0\x36\0", 5, wrong),
        (b"\x02\x02aa\0\0\x36\0", 7, (Refusal::Leftovers, "something was added to it: save the mark again")),
    ];
    for (number, (bytes, offset, (refusal, advice))) in cases.into_iter().enumerate() {
        is_told(&format!("check-refused-{number}"), bytes, refusal, offset, advice);
    }
}

#[test]
fn trouble_with_a_file_is_not_a_refusal() {
    let here = Folder::new("unreadable-marks").with("good", b"\x01\x02aa\0").with("bad", "");
    let gone = "marks: gone: there is no such file; check its name\n";
    here.marks(&["check", "gone", "good"]).is_with(2, "good: good, finds \"aa\" (edition 1, 2 letters)\n", gone);
    here.marks(&["check", "."]).is_with(2, "", "marks: .: it is a directory; name the files in it\n");
    here.marks(&["show", "gone"]).is_with(2, "", gone);
    assert_eq!(here.marks(&["check", "gone", "bad"]).status, Some(2));
}

#[test]
fn a_huge_file_is_judged_by_its_front() {
    let here = Folder::new("huge").with("file", GOOD).with("checked", CHECKED).with("none", "");
    let [leftovers, edition] = [Refusal::Leftovers, Refusal::OtherEdition];
    for (name, refusal, offset) in [("file", leftovers, 18), ("checked", leftovers, 20), ("none", edition, 0)] {
        fs::File::options().write(true).open(here.path(name)).unwrap().set_len(1 << 40).unwrap();
        let said = here.shell(&format!("ulimit -v 32768; marks check {name}"));
        assert!(said.out.starts_with(&format!("{name}: refused: {refusal}, at offset {offset};")), "{said:?}");
    }
}

#[test]
fn show_prints_the_oracle_as_a_table() {
    let here = Folder::new("show").with("file", GOOD).with("checked", CHECKED);
    let first = here.marks(&["show", "file"]);
    here.marks(&["show", "checked"]).is(0, &first.out.replace("size   18 bytes", "size   20 bytes"));
    first.is(
        0,
        "\
finds  \"baabbba\"
holds  \"abbbaab\", its mirror, because the search reads backward
size   18 bytes, 7 letters, 11 arrows

state  letter  supply  arrows out: letter>state, the spine's first
    0                  a>1  b>2
    1  a            0  b>2  a>6
    2  b            0  b>3  a>5
    3  b            2  b>4  a>5
    4  b            3  a>5
    5  a            1  a>6
    6  a            1  b>7
    7  b            2
",
    );
}

/// The file that finds the mirror of this word.
fn holding(word: &str) -> Vec<u8> {
    let finds: String = word.chars().rev().collect();
    Mark::new(finds).unwrap().to_file().unwrap()
}

#[test]
fn show_prints_the_failure_oracle_as_a_table() {
    let here = Folder::new("show-failure").with("nine", holding("abcacdace")).with("circle", holding("abadbcaabdbaba"));
    here.marks(&["show", "--failure", "nine"]).is(
        0,
        "\
finds  \"ecadcacba\"
holds  \"abcacdace\", its mirror, because the search reads backward
size   9 letters, 9 symbol arrows, 5 failure arrows

state  letter  failure  arrows out: letter>state, the spine's first
    0                1  a>1
    1  a             2  b>2
    2  b             5  c>3
    3  c             5  a>4
    4  a                c>5
    5  c             8  d>6
    6  d                a>7
    7  a                c>8
    8  c                e>9
    9  e
",
    );
    let said = here.marks(&["show", "circle", "--failure"]);
    assert!(said.out.contains("size   14 letters, 15 symbol arrows, 7 failure arrows\n"), "{}", said.out);
    assert!(said.out.contains("\n   13  b                a>14  b>13\n"), "{}", said.out);
    here.marks_reading(&["show", "--failure", "-"], b"\x01\x02aa\0").is(
        0,
        "\
finds  \"aa\"
holds  \"aa\", its mirror, because the search reads backward
size   2 letters, 2 symbol arrows, 0 failure arrows

state  letter  failure  arrows out: letter>state, the spine's first
    0                   a>1
    1  a                a>2
    2  a
",
    );
}

#[test]
fn show_prints_the_storacle_as_a_table() {
    let here = Folder::new("show-storacle").with("nine", holding("abcacdace")).with("more", holding("abcdabcdbacbbdaddccaae"));
    here.marks(&["show", "--storacle", "nine"]).is(
        0,
        "\
finds  \"ecadcacba\"
holds  \"abcacdace\", its mirror, because the search reads backward
size   9 letters, 16 arrows

state  letter  arrows out: letter>state, the spine's first
    0          a>1  b>2  c>3  d>6  e>9
    1  a       b>2  c>3
    2  b       c>3
    3  c       a>4  d>6  e>9
    4  a       c>5
    5  c       d>6
    6  d       a>7
    7  a       c>8
    8  c       e>9
    9  e
",
    );
    let said = here.marks(&["show", "more", "--storacle"]);
    assert!(said.out.contains("size   22 letters, 67 arrows\n"), "{}", said.out);
    assert!(said.out.contains("\n    6  b       c>7  d>8  b>9  a>10\n"), "{}", said.out);
    here.marks_reading(&["show", "--storacle", "-"], b"\x02\x02aa\0\0\x36").is(
        0,
        "\
finds  \"aa\"
holds  \"aa\", its mirror, because the search reads backward
size   2 letters, 2 arrows

state  letter  arrows out: letter>state, the spine's first
    0          a>1
    1  a       a>2
    2  a
",
    );
}

#[test]
fn a_word_that_is_too_long_for_a_storacle_is_refused() {
    let [most, longer] = [LONGEST_STORACLE, LONGEST_STORACLE + 1].map(|letters| holding(&"a".repeat(letters)));
    let here = Folder::new("long-storacle").with("most", most).with("longer", longer);
    let said = here.marks(&["show", "--storacle", "most"]);
    assert!(said.out.contains("\nsize   128 letters, 128 arrows\n"), "{}", said.out);
    let told = format!("{}; leave --storacle out, which is for marks of 2 to {LONGEST_STORACLE} bytes", Refusal::LongWord);
    for words in [&["show", "--storacle", "longer"][..], &["show", "--storacle", "--dot", "longer"]] {
        here.marks(words).is_with(2, "", &format!("marks: longer: {told}\n"));
    }
    for form in ["--", "--failure", "--compact"] {
        assert_eq!(here.marks(&["show", form, "longer"]).status, Some(0));
    }
}

#[test]
fn show_prints_compact_rows_with_their_memory() {
    let here = Folder::new("show-compact").with("file", GOOD).with("checked", CHECKED);
    let said = here.marks(&["show", "--compact", "file"]);
    assert_eq!(here.marks(&["show", "--compact", "checked"]).out, said.out);
    said.is(
        0,
        "\
finds  \"baabbba\"
holds  \"abbbaab\", its mirror, because the search reads backward
size   7 letters, 11 arrows
memory 256 bytes of sets and 160 of targets, where the first form has 96

state  letter  supply  start  arrows out: letter>state, by rising letter
    0                      0  a>1  b>2
    1  a            0      2  a>6  b>2
    2  b            0      4  a>5  b>3
    3  b            2      6  a>5  b>4
    4  b            3      8  a>5
    5  a            1      9  a>6
    6  a            1     10  b>7
    7  b            2     11
",
    );
    let dots = ["--compact", "--"].map(|form| here.marks(&["show", "--dot", form, "file"]).out);
    assert_eq!(dots[0], dots[1]);
}

#[test]
fn a_table_fits_the_screen_however_many_arrows_there_are() {
    let here = Folder::new("wide");
    let every: String = (0..=255u8).map(|byte| format!("{byte:02x}")).collect();
    here.marks(&["save", "-x", &every, "file"]).is(0, "");
    let said = here.marks(&["show", "file"]);
    let rows: Vec<&str> = said.out.lines().skip(4).collect();
    assert!(rows.iter().all(|row| row.len() <= 80), "{}", said.out);
    assert_eq!(rows.iter().filter(|row| row[..5].trim().parse::<usize>().is_ok()).count(), 257);
    // state 0 has an arrow on each letter, each other state but the last the one of the spine
    assert_eq!(rows.iter().skip(1).flat_map(|row| row[21..].split_whitespace()).count(), 256 + 255);
    assert!(rows[1].starts_with("    0                  \\xff>1  \\xfe>2"), "{}", rows[1]);
    let said = here.marks(&["show", "--compact", "file"]);
    assert!(said.out.contains("\nmemory 8224 bytes of sets and 5140 of targets, where the first form has 3084\n"), "{}", said.out);
    let rows: Vec<&str> = said.out.lines().skip(5).collect();
    assert!(rows.iter().all(|row| row.len() <= 80), "{}", said.out);
    assert_eq!(rows.iter().skip(1).flat_map(|row| row[28.min(row.len())..].split_whitespace()).count(), 256 + 255);
    assert!(rows[1].starts_with("    0                      0  \\x00>256  \\x01>255"), "{}", rows[1]);
    here.marks(&["save", "-x", &every[..2 * LONGEST_STORACLE], "half"]).is(0, "");
    let said = here.marks(&["show", "--storacle", "half"]);
    let rows: Vec<&str> = said.out.lines().skip(4).collect();
    assert!(rows.iter().all(|row| row.len() <= 80), "{}", said.out);
    assert_eq!(rows.iter().skip(1).flat_map(|row| row[13.min(row.len())..].split_whitespace()).count(), 128 + 127);
    assert!(rows[1].starts_with("    0          \\x7f>1  ~>2"), "{}", rows[1]);
}

#[test]
fn show_prints_graphviz_text() {
    let here = Folder::new("dot").with("file", b"\x01\x02\"\\\x01\0\0");
    here.marks(&["show", "--dot", "file"]).is(
        0,
        r#"digraph oracle {
  label="finds \"\\\\\\\"\": the oracle of its mirror, \"\\\"\\\\\"";
  rankdir=LR;
  node [shape=circle];
  0 -> 1 [label="\""];
  0 -> 2 [label="\\\\", style=dashed, constraint=false];
  1 -> 2 [label="\\\\"];
}
"#,
    );
    let here = here.with("circle", holding("abadbcaabdbaba"));
    let said = here.marks(&["show", "--dot", "--failure", "circle"]);
    let title = r#"  label="finds \"ababdbaacbdaba\": the failure oracle of its mirror, \"abadbcaabdbaba\"";"#;
    let lines: Vec<&str> = said.out.lines().collect();
    assert_eq!((lines.len(), lines[1], said.status), (4 + 14 + 1 + 7 + 1, title, Some(0)));
    for line in [r#"  0 -> 1 [label="a"];"#, "  0 -> 1 [style=dashed, constraint=false];", r#"  13 -> 13 [label="b", constraint=false];"#] {
        assert_eq!(lines.iter().filter(|other| **other == line).count(), 1, "{line}: {}", said.out);
    }
    assert_eq!(lines.iter().filter(|line| line.contains("dashed")).count(), 7);
    // where Graphviz is at hand, it takes the text of every letter
    let every: String = (0..=255u8).map(|byte| format!("{byte:02x}")).collect();
    let said =
        here.shell(&format!("command -v nop >/dev/null || exit 9; marks save -x {every} all; marks show --dot all | nop | grep -c label="));
    match said.status {
        Some(9) => eprintln!("not tried: there is no Graphviz"),
        // a title, 256 arrows of the spine, 255 extra ones
        _ => said.is(0, "512\n"),
    }
}

#[test]
fn the_arrows_of_a_storacle_beside_the_spine_are_dashed() {
    let here = Folder::new("dot-storacle").with("file", holding("abadbcaabdbaba"));
    let said = here.marks(&["show", "--storacle", "--dot", "file"]);
    let title = r#"  label="finds \"ababdbaacbdaba\": the storacle of its mirror, \"abadbcaabdbaba\"";"#;
    let lines: Vec<&str> = said.out.lines().collect();
    assert_eq!((lines.len(), lines[1], said.status), (4 + 14 + 12 + 1, title, Some(0)));
    for line in [r#"  5 -> 6 [label="c"];"#, r#"  5 -> 10 [label="d", style=dashed, constraint=false];"#] {
        assert_eq!(lines.iter().filter(|other| **other == line).count(), 1, "{line}: {}", said.out);
    }
    assert_eq!(lines.iter().filter(|line| line.contains("dashed")).count(), 12);
}
