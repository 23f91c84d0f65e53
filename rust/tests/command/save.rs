//! `marks save`: what is written, what is never written over, and that nothing half done is left behind.

use crate::{Folder, MARKS};
use marks::{Mark, Refusal};
use std::{
    fs,
    os::unix::fs::{symlink, MetadataExt, PermissionsExt},
    process::Stdio,
};

/// The file that finds `aa`, which is text too.
const AA: &str = "\u{2}\u{2}aa\0\0\u{36}";

fn complaint(out: &str, said: &str) -> String {
    format!("marks: {out}: {said}\n")
}

fn read(here: &Folder, name: &str) -> Vec<u8> {
    fs::read(here.path(name)).unwrap()
}

/// What is in the folder, sorted: no temporary file is.
fn names(here: &Folder) -> Vec<String> {
    let mut names: Vec<String> =
        fs::read_dir(here.path("")).unwrap().map(|entry| entry.unwrap().file_name().into_string().unwrap()).collect();
    names.sort();
    names
}

#[test]
fn what_is_no_name_of_a_file() {
    let here = Folder::new("no-name");
    for out in ["", "folder/", "/"] {
        here.marks(&["save", "aa", out]).is_with(2, "", &complaint("OUT", "it is no file's name; name the file to write"));
    }
}

#[test]
fn a_saved_mark_finds_its_word() {
    let here = Folder::new("save");
    here.marks(&["save", "ab", "ab.mark"]).is(0, "");
    assert_eq!(read(&here, "ab.mark"), b"\x02\x02ba\x01\0\0\x95\xd6");
    here.marks(&["save", "-x", "00ff", "bytes.mark"]).is(0, "");
    assert_eq!(read(&here, "bytes.mark"), b"\x02\x02\xff\x00\x01\0\0\x67\xf6");
    here.shell("umask 027; marks save aa private").is(0, "");
    assert_eq!(fs::metadata(here.path("private")).unwrap().mode() & 0o777, 0o640);
    assert_eq!(names(&here), ["ab.mark", "bytes.mark", "private"]);
    here.marks(&["save", "aa", "-"]).is(0, AA);
    here.shell("marks save abc - | marks find -m - /dev/null").is(1, "");
    here.shell("marks save abc - | marks check -")
        .is(0, "(standard input): good, finds \"abc\" (edition 2, 3 letters; it holds the mirror, \"cba\")\n");
}

#[test]
fn the_edition_is_the_second_unless_the_first_is_asked_for() {
    let here = Folder::new("edition").with("ride", "xabxab");
    let file = |words: &[&str]| {
        here.marks(&[&["save", "-f", "ab", "out"], words].concat()).is(0, "");
        here.marks(&["find", "-m", "out", "ride"]).is(0, "1\n4\n");
        read(&here, "out")
    };
    let ab = Mark::new("ab").unwrap();
    let [first, second] = [ab.to_file().unwrap(), ab.to_checked_file().unwrap()];
    assert_eq!([file(&[]), file(&["--edition", "2"]), file(&["--edition=2"])], [&second[..]; 3]);
    assert_eq!([file(&["--edition", "1"]), file(&["--edition=1"])], [&first[..]; 2]);
    here.marks(&["save", "--edition", "1", "aa", "-"]).is(0, "\u{1}\u{2}aa\0");
    // what is no edition writes nothing
    assert_eq!(here.marks(&["save", "-f", "--edition", "3", "zz", "out"]).status, Some(2));
    assert_eq!(read(&here, "out"), first);
}

#[test]
fn what_is_there_is_written_over_only_by_force() {
    let here = Folder::new("force").with("ride", "a ride that somebody needs").with("longer", [b'x'; 100]);
    symlink("nowhere", here.path("dangling")).unwrap();
    for name in ["ride", "dangling", "/dev/null"] {
        here.marks(&["save", "aa", name]).is_with(
            2,
            "",
            &complaint(name, "it is there already; name another file, or write over it with -f"),
        );
    }
    assert_eq!(read(&here, "ride"), b"a ride that somebody needs");
    here.marks(&["save", "-f", "aa", "longer"]).is(0, "");
    here.marks(&["save", "--force", "aa", "new"]).is(0, "");
    assert_eq!([read(&here, "longer"), read(&here, "new")], [AA.as_bytes(); 2]);
    assert_eq!(names(&here), ["dangling", "longer", "new", "ride"]);
}

#[test]
fn a_replaced_file_keeps_its_permissions_and_a_link_stays_one() {
    let here = Folder::new("kept").with("old", "old");
    fs::create_dir(here.path("folder")).unwrap();
    for mode in [0o600, 0o444, 0o777] {
        fs::set_permissions(here.path("old"), fs::Permissions::from_mode(mode)).unwrap();
        here.marks(&["save", "-f", "aa", "old"]).is(0, "");
        assert_eq!((fs::metadata(here.path("old")).unwrap().mode() & 0o7777, read(&here, "old")), (mode, AA.into()));
    }
    symlink("folder/end", here.path("second")).unwrap();
    symlink("second", here.path("first")).unwrap();
    for _ in ["nothing is there", "a file is there"] {
        here.marks(&["save", "-f", "aa", "first"]).is(0, "");
        assert_eq!(read(&here, "folder/end"), AA.as_bytes());
        assert!(["first", "second"].iter().all(|link| here.path(link).is_symlink()));
    }
    symlink("circle", here.path("circle")).unwrap();
    assert_eq!(here.marks(&["save", "-f", "aa", "circle"]).status, Some(2));
    assert_eq!(names(&here), ["circle", "first", "folder", "old", "second"]);
}

#[test]
fn what_is_no_regular_file_is_written_to_as_it_is() {
    let here = Folder::new("direct");
    here.marks(&["save", "-f", "aa", "/dev/stdout"]).is(0, AA);
    here.shell("{ echo before; marks save -f aa /dev/stdout; echo behind; } > out; cat out").is(0, &format!("before\n{AA}behind\n"));
    here.shell("mkfifo pipe && { cat pipe & marks save -f aa pipe; wait; test -p pipe; }").is(0, AA);
    here.marks(&["save", "-f", "ab", "/dev/full"]).is_with(2, "", &complaint("/dev/full", "the disk is full; make room and run it again"));
    assert_eq!(names(&here), ["out", "pipe"]);
}

#[test]
fn of_many_that_save_at_once_one_does() {
    let here = Folder::new("race");
    let start = |word: &str| here.command(MARKS).args(["save", word, "out"]).stderr(Stdio::null()).spawn().unwrap();
    for _ in 0..10 {
        let running = ["aa", "bb", "cc", "dd", "ee", "ff"].map(|word| (word, start(word)));
        let done = running.map(|(word, mut child)| (word, child.wait().unwrap().code() == Some(0)));
        let winners: Vec<&str> = done.iter().filter(|(_, won)| *won).map(|(word, _)| *word).collect();
        assert_eq!(winners.len(), 1);
        assert_eq!(read(&here, "out"), Mark::new(winners[0]).unwrap().to_checked_file().unwrap());
        assert_eq!(names(&here), ["out"]);
        fs::remove_file(here.path("out")).unwrap();
    }
}

#[test]
fn a_word_of_one_letter_is_not_saved_but_found() {
    let here = Folder::new("one-letter").with("ride", "aba").with("kept", "as it was").with("old", b"\x01\x01a\0");
    let said = format!("marks: WORD: {}; look for it directly: marks find WORD FILE\n", Refusal::ShortWord);
    for words in [&["save", "-f", "a", "kept"][..], &["save", "-fx", "61", "kept"], &["save", "a", "-"], &["save", "a", "no/out"]] {
        here.marks(words).is_with(2, "", &said);
    }
    assert_eq!(read(&here, "kept"), b"as it was");
    here.marks(&["find", "a", "ride"]).is(0, "0\n2\n");
    // and the file that one once had is not taken
    let refused =
        format!("{}, at offset 1; it is damaged, no mark file, or of one letter: save a mark of 2 to 4,096 bytes", Refusal::BadLength);
    here.marks(&["find", "-m", "old", "ride"]).is_with(2, "", &format!("marks: old: {refused}\n"));
    let place = "  00000000  01 01 61 00                                       |..a.|\n               ^^\n";
    here.marks(&["check", "old"]).is(1, &format!("old: refused: {refused}\n{place}"));
}

#[test]
fn an_out_that_cannot_be_written() {
    let here = Folder::new("out").with("file", "");
    fs::create_dir(here.path("locked")).unwrap();
    fs::set_permissions(here.path("locked"), fs::Permissions::from_mode(0o555)).unwrap();
    let (long, no_folder) = ("n".repeat(300), "its directory is not there; make that first, or name another place");
    let too_long = "it cannot be written: File name too long (os error 36); name another place";
    for force in [&["save"][..], &["save", "-f"]] {
        let cases = [(".", "it is a directory; name a file in it"), ("no/out", no_folder), ("file/out", no_folder), (&long, too_long)];
        for (out, said) in cases {
            here.marks(&[force, &["ab", out]].concat()).is_with(2, "", &complaint(out, said));
        }
        if let Some(said) = here.marks_unprivileged(&[force, &["ab", "locked/out"]].concat()) {
            said.is_with(2, "", &complaint("locked/out", "you may not write it; name another place"));
        }
    }
    assert_eq!(names(&here), ["file", "locked"]);
}
