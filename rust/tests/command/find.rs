//! `marks find`: words and mark files, offsets and counts, names, standard input, and files that cannot be read.

use crate::{told, Folder};
use marks::{Refusal, LONGEST_WORD};
use std::{
    ffi::OsStr,
    fs,
    os::unix::{ffi::OsStrExt, fs::PermissionsExt},
};

fn folder(name: &str) -> Folder {
    Folder::new(name).with("ride", "xxababaxx").with("other", "aba").with("empty", "")
}

#[test]
fn one_file_gives_offsets_alone_and_several_give_names() {
    let here = folder("names");
    here.marks(&["find", "aba", "ride"]).is(0, "2\n4\n");
    here.marks(&["find", "aba", "ride", "empty", "other"]).is(0, "ride:2\nride:4\nother:0\n");
    here.marks(&["find", "-H", "aba", "ride"]).is(0, "ride:2\nride:4\n");
    here.marks(&["find", "--with-filename", "aba", "other"]).is(0, "other:0\n");
    here.marks(&["find", "-I", "aba", "ride", "other"]).is(0, "2\n4\n0\n");
    here.marks(&["find", "--no-filename", "aba", "ride", "other"]).is(0, "2\n4\n0\n");
    // the last of the two decides
    here.marks(&["find", "-IH", "aba", "other"]).is(0, "other:0\n");
    here.marks(&["find", "-H", "-I", "aba", "other"]).is(0, "0\n");
}

#[test]
fn nothing_found_is_status_1() {
    let here = folder("none");
    here.marks(&["find", "zz", "ride"]).is(1, "");
    here.marks(&["find", "ababababab", "ride"]).is(1, "");
    here.marks(&["find", "a", "empty"]).is(1, "");
    here.marks(&["find", "zz", "ride", "other"]).is(1, "");
    here.marks(&["find", "xx", "other", "ride"]).is(0, "ride:0\nride:7\n");
}

#[test]
fn counts_and_offsets_in_hex() {
    let here = folder("counts").with("far", [&[0; 300][..], b"aba"].concat());
    here.marks(&["find", "-c", "aba", "ride"]).is(0, "2\n");
    here.marks(&["find", "--count", "aba", "ride", "empty"]).is(0, "ride:2\nempty:0\n");
    here.marks(&["find", "-c", "zz", "ride"]).is(1, "0\n");
    here.marks(&["find", "-X", "aba", "far", "other"]).is(0, "far:0x12c\nother:0x0\n");
    here.marks(&["find", "--hex-offsets", "aba", "far"]).is(0, "0x12c\n");
}

#[test]
fn words_are_bytes_of_any_kind() {
    let here = Folder::new("bytes").with("ride", b"..\xff\xfe").with("text", "Zürich, Zürich");
    here.marks(&[OsStr::new("find"), OsStr::from_bytes(b"\xff\xfe"), OsStr::new("ride")]).is(0, "2\n");
    here.marks(&["find", "ürich", "text"]).is(0, "1\n10\n");
}

#[test]
fn a_word_has_1_byte_to_the_most() {
    let (most, more) = ("a".repeat(LONGEST_WORD), "a".repeat(LONGEST_WORD + 1));
    let here = Folder::new("lengths").with("long", &more);
    let long = format!("the word is longer than {} bytes, for a storacle than 128, for a stream than 64 (2)", told(LONGEST_WORD));
    let (empty, advice) = ("the word is empty (1)", format!("give 1 to {} bytes", told(LONGEST_WORD)));
    here.marks(&["find", &most, "long"]).is(0, "0\n1\n");
    for (word, said) in [("", empty), (&more, &long)] {
        for words in [["find", word, "long"], ["save", word, "out"]] {
            here.marks(&words).is_with(2, "", &format!("marks: WORD: {said}; {advice}\n"));
        }
    }
    here.marks(&["find", "-x", "", "long"]).is_with(2, "", &format!("marks: WORD: {empty}; {advice}\n"));
    here.marks(&["find", "-x", &"61".repeat(LONGEST_WORD), "long"]).is(0, "0\n1\n");
    here.marks(&["find", "-x", &"61".repeat(LONGEST_WORD + 1), "long"]).is_with(2, "", &format!("marks: WORD: {long}; {advice}\n"));
    assert!(!here.path("out").exists());
}

#[test]
fn with_a_mark_file() {
    let here = folder("mark-file");
    here.marks(&["save", "bax", "bax.mark"]).is(0, "");
    here.marks(&["find", "-m", "bax.mark", "ride"]).is(0, "5\n");
    here.marks(&["find", "-mbax.mark", "ride"]).is(0, "5\n");
    here.marks(&["find", "-cmbax.mark", "ride"]).is(0, "1\n");
    here.marks(&["find", "--mark", "bax.mark", "ride", "other"]).is(0, "ride:5\n");
    here.marks(&["find", "--mark=bax.mark", "other"]).is(1, "");
    here.marks_reading(&["find", "-m", "-", "ride"], &fs::read(here.path("bax.mark")).unwrap()).is(0, "5\n");
}

#[test]
fn standard_input_is_a_hyphen() {
    let here = folder("standard-input");
    here.marks_reading(&["find", "aba", "-"], b"ababa").is(0, "0\n2\n");
    here.marks_reading(&["find", "-c", "aba", "-", "other"], b"ababa").is(0, "(standard input):2\nother:1\n");
    here.marks_reading(&["find", "aba", "-"], b"").is(1, "");
    // as a WORD it is a letter like any other
    here.marks_reading(&["find", "-", "-"], b"a-b").is(0, "1\n");
    // what comes slowly is printed as it comes
    here.shell("{ printf xa; sleep .1; printf b; sleep .1; printf ab; } | marks find ab -").is(0, "1\n3\n");
}

#[test]
fn a_bad_file_is_named_and_the_next_one_taken() {
    let here = folder("bad-files");
    fs::create_dir(here.path("folder")).unwrap();
    let [gone, folder] =
        ["gone: there is no such file; check its name", "folder: it is a directory; look in it with -r, or name the files in it"];
    here.marks(&["find", "aba", "gone", "ride", "folder", "other"]).is_with(
        2,
        "ride:2\nride:4\nother:0\n",
        &format!("marks: {gone}\nmarks: {folder}\n"),
    );
    here.marks(&["find", "-c", "zz", "folder", "ride"]).is_with(2, "ride:0\n", &format!("marks: {folder}\n"));
    here.marks(&["find", "aba", "ride/x"]).is_with(2, "", "marks: ride/x: there is no such file; check its name\n");
    let long = "n".repeat(300);
    here.marks(&["find", "aba", &long]).is_with(
        2,
        "",
        &format!("marks: {long}: it cannot be opened: File name too long (os error 36); check its name, and what it is\n"),
    );
    here.shell("marks find aba ride gone other 2>&1")
        .is(2, "ride:2\nride:4\nmarks: gone: there is no such file; check its name\nother:0\n");
    // a name cannot forge a line of its own
    here.marks(&["find", "aba", "a\nmarks: b"]).is_with(2, "", "marks: $'a\\nmarks: b': there is no such file; check its name\n");
}

#[test]
fn a_file_that_fails_while_it_is_read() {
    let here = Folder::new("failing");
    // no process has a page at address 0
    here.marks(&["find", "a", "/proc/self/mem"]).is_with(
        2,
        "",
        "marks: /proc/self/mem: reading stopped after 0 bytes: Input/output error (os error 5); copy what can be copied to a sound disk and try that\n",
    );
}

#[test]
fn a_file_without_the_right_to_read_it() {
    let here = folder("unreadable");
    fs::set_permissions(here.path("ride"), fs::Permissions::from_mode(0o000)).unwrap();
    if let Some(said) = here.marks_unprivileged(&["find", "aba", "ride", "other"]) {
        said.is_with(2, "other:0\n", "marks: ride: you may not read it; ask its owner for the right to, and to enter its folder\n");
    }
}

#[test]
fn a_mark_file_that_cannot_be_used() {
    let here = folder("unusable");
    here.marks(&["find", "-m", "gone", "ride"]).is_with(2, "", "marks: gone: there is no such file; check its name\n");
    here.marks(&["find", "-m", "ride", "other"]).is_with(
        2,
        "",
        &format!("marks: ride: {}, at offset 0; it is no mark file, or of a later edition: save the mark again\n", Refusal::OtherEdition),
    );
}
