//! `marks find --engine` and `--stats`: each engine finds the same, and what is told of the letters that it read.

use crate::{Folder, Said};

const ENGINES: [&str; 5] = ["auto", "backward", "turbo", "compact", "failure"];

/// The letters that were read in all, as `--stats` tells them of one file.
#[track_caller]
fn letters(said: &Said) -> u64 {
    let told = said.err.split("; ").nth(1).unwrap();
    told.split(' ').next().unwrap().parse().unwrap()
}

#[test]
fn each_engine_finds_the_same() {
    let here = Folder::new("engines").with("ride", "xxababaxx").with("zeros", vec![0; 1_000_000]);
    here.marks(&["save", "-x", &"00".repeat(64), "zeros.mark"]).is(0, "");
    let places: String = (0..=1_000_000 - 64).map(|place| format!("{place}\n")).collect();
    for engine in ENGINES {
        here.marks(&["find", "--engine", engine, "aba", "ride"]).is(0, "2\n4\n");
        here.marks(&["find", "-c", &format!("--engine={engine}"), "aba", "ride", "zeros"]).is(0, "ride:2\nzeros:0\n");
        here.marks(&["find", "--engine", engine, "zz", "ride"]).is(1, "");
        here.marks_reading(&["find", "aba", "-", "--engine", engine], b"ababa").is(0, "0\n2\n");
        here.marks(&["find", "--engine", engine, "-m", "zeros.mark", "zeros"]).is(0, &places);
        here.marks(&["find", "-c", "--engine", engine, "-m", "zeros.mark", "zeros"]).is(0, "999937\n");
    }
}

#[test]
fn stats_are_a_line_for_each_file() {
    let here = Folder::new("stats").with("ride", "ababa").with("empty", "").with("short", "a");
    let told = |name, found, letters| format!("marks: {name}: found {found} in 5 bytes; {letters} a byte\n");
    here.marks(&["find", "--stats", "aba", "ride"]).is_with(0, "0\n2\n", &told("ride", 2, "6 letters read, 1.20"));
    here.marks(&["find", "--stats", "--engine", "turbo", "aba", "ride"]).is_with(0, "0\n2\n", &told("ride", 2, "10 letters read, 2.00"));
    here.marks(&["find", "-c", "--stats", "--engine=backward", "xyz", "ride"]).is_with(1, "0\n", &told("ride", 0, "1 letter read, 0.20"));
    here.marks_reading(&["find", "--stats", "aba", "-"], b"ababa").is_with(
        0,
        "0\n2\n",
        &told("(standard input)", 2, "6 letters read, 1.20"),
    );
    here.marks(&["find", "--stats", "aba", "gone", "empty", "short"]).is_with(
        2,
        "",
        "\
marks: gone: there is no such file; check its name
marks: empty: found 0 in 0 bytes; 0 letters read, 0.00 a byte
marks: short: found 0 in 1 byte; 0 letters read, 0.00 a byte
",
    );
    // behind the answers for the file
    here.shell("marks find --stats aba ride short 2>&1").is(
        0,
        "\
ride:0
ride:2
marks: ride: found 2 in 5 bytes; 6 letters read, 1.20 a byte
marks: short: found 0 in 1 byte; 0 letters read, 0.00 a byte
",
    );
}

#[test]
fn compact_rows_read_the_letters_of_the_backward_search() {
    let text: Vec<u8> = (0..200_000u32).map(|i| b'a' + (i * i / 7 % 3) as u8).collect();
    let here = Folder::new("compact").with("ride", "ababa").with("long", &text);
    let told = "marks: ride: found 2 in 5 bytes; 6 letters read, 1.20 a byte\n";
    here.marks(&["find", "--stats", "--engine", "compact", "aba", "ride"]).is_with(0, "0\n2\n", told);
    let by = |engine, how| here.marks(&["find", "--stats", "--engine", engine, how, "abca", "long"]);
    for how in ["-c", "-X", "--json"] {
        let [backward, compact] = ["backward", "compact"].map(|engine| by(engine, how));
        assert_eq!((compact.out, compact.err), (backward.out, backward.err));
    }
}

#[test]
fn the_failure_arrows_that_were_taken_are_told_by_the_engine_that_has_them() {
    let here = Folder::new("failures").with("ride", "ababa").with("ac", "ac").with("short", "a");
    let by = |word, files: &[&str]| here.marks(&[&["find", "--stats", "--engine", "failure", word], files].concat());
    by("aba", &["ride"]).is_with(0, "0\n2\n", "marks: ride: found 2 in 5 bytes; 6 letters read, 1.20 a byte; 0 failure arrows taken\n");
    by("ab", &["ac", "short"]).is_with(
        1,
        "",
        "\
marks: ac: found 0 in 2 bytes; 1 letter read, 0.50 a byte; 1 failure arrow taken
marks: short: found 0 in 1 byte; 0 letters read, 0.00 a byte; 0 failure arrows taken
",
    );
    let object = r#"{"file":"ride","found":2,"bytes":5,"letters":6,"failures":0}"#;
    let count = r#"{"file":"ride","count":2}"#;
    here.marks(&["find", "-c", "--json", "--stats", "--engine=failure", "aba", "ride"]).is(0, &format!("{count}\n{object}\n"));
    for engine in &ENGINES[..4] {
        let said = here.marks(&["find", "--stats", "--json", "--engine", engine, "ab", "ac"]);
        assert!(!said.out.contains("failures") && said.out.contains("letters"), "{}", said.out);
    }
}

#[test]
fn a_file_that_turned_out_hostile_is_not_tried_again_with_each_part() {
    let here = Folder::new("hostile").with("short", vec![0; 1 << 18]).with("long", vec![0; 16 << 18]);
    for word in ["00".repeat(64), "01".to_string() + &"00".repeat(63), "00".repeat(63) + "01"] {
        let read = |name, engine, how| letters(&here.marks(&["find", "--stats", "-x", &word, name, "--engine", engine, how]));
        let beyond = |name| read(name, "auto", "-c").saturating_sub(read(name, "turbo", "-c"));
        // but for the letters that two parts have in common
        assert!(beyond("long").abs_diff(beyond("short")) < 1_000, "{word}");
        assert!(beyond("short") > 100_000, "{word}");
        for how in ["-c", "-X"] {
            assert!(read("long", "backward", how) > 10 * read("long", "auto", how), "{word}");
        }
    }
}

#[test]
fn a_friendly_file_after_a_hostile_one_is_searched_backward_again() {
    let here = Folder::new("friendly").with("hostile", vec![0; 1 << 20]).with("friendly", "ride".repeat(1 << 18));
    let word = "00".repeat(63) + "01";
    let lines = |said: Said| said.err.lines().map(str::to_string).collect::<Vec<_>>();
    let alone = lines(here.marks(&["find", "--stats", "-x", &word, "friendly"]));
    let both = lines(here.marks(&["find", "--stats", "-x", &word, "hostile", "friendly"]));
    assert_eq!(both[1..], alone);
}

#[test]
fn a_long_mark_in_a_large_file_of_its_own_letter() {
    let here = Folder::new("long-mark").with("zeros", vec![0; 8 << 20]);
    for word in ["01".to_string() + &"00".repeat(1_023), "00".repeat(4_096)] {
        let said = here.marks(&["find", "--stats", "-x", &word, "zeros"]);
        assert!(letters(&said) <= 2 * (9 << 20), "{}", said.err);
    }
}
