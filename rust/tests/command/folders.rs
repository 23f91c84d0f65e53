//! `marks find -r`: what is in folders, in which order, and what is not read.

use crate::Folder;
use std::{
    fs,
    os::unix::fs::{symlink, PermissionsExt},
};

/// Files at three depths, named against the order in which they are made.
fn folder(name: &str) -> Folder {
    let here = Folder::new(name);
    fs::create_dir_all(here.path("b/d")).unwrap();
    here.with("c", "aba")
        .with("b/z", "xaba")
        .with("b/d/y", "aba")
        .with("b/-", "aba")
        .with("b.x", "aba")
        .with("b/none", "ab")
        .with("a", "abaaba")
}

#[test]
fn folders_are_looked_in_by_the_order_of_names() {
    let here = folder("recursive");
    let all = "a:0\na:3\nb/-:0\nb/d/y:0\nb/z:1\nb.x:0\nc:0\n";
    here.marks(&["find", "-r", "aba"]).is(0, all);
    let below: String = all.lines().map(|line| format!("./{line}\n")).collect();
    here.marks(&["find", "--recursive", "aba", "."]).is(0, &below);
    here.marks(&["find", "-r", "aba", "c", "b", "a"]).is(0, "c:0\nb/-:0\nb/d/y:0\nb/z:1\na:0\na:3\n");
    here.marks(&["find", "-rc", "aba", "b/"]).is(0, "b/-:1\nb/d/y:1\nb/none:0\nb/z:1\n");
    here.marks(&["find", "-rI", "aba", "b"]).is(0, "0\n0\n1\n");
    here.marks_reading(&["find", "-r", "aba", "-", "c"], b"aba").is(0, "(standard input):0\nc:0\n");
    here.marks(&["find", "-r", "zz"]).is(1, "");
    here.marks(&["save", "aba", "b/mark"]).is(0, "");
    here.marks(&["find", "-rm", "b/mark", "c"]).is(0, "c:0\n");
}

#[test]
fn links_and_pipes_in_folders_are_left_alone() {
    let here = folder("links");
    symlink("..", here.path("b/circle")).unwrap();
    symlink("../c", here.path("b/link")).unwrap();
    symlink("gone", here.path("b/dangling")).unwrap();
    here.shell("mkfifo b/pipe && marks find -r aba b").is(0, "b/-:0\nb/d/y:0\nb/z:1\n");
    // one that is named is followed
    here.marks(&["find", "-r", "aba", "b/link", "b/circle/b/d"]).is(0, "b/link:0\nb/circle/b/d/y:0\n");
}

#[test]
fn what_cannot_be_read_is_said_in_its_place() {
    let here = folder("locked-folders").with("b/e", "aba");
    fs::set_permissions(here.path("b/d"), fs::Permissions::from_mode(0o000)).unwrap();
    fs::set_permissions(here.path("b/e"), fs::Permissions::from_mode(0o000)).unwrap();
    here.marks(&["find", "-r", "aba", "gone", "c"]).is_with(2, "c:0\n", "marks: gone: there is no such file; check its name\n");
    if let Some(said) = here.marks_unprivileged(&["find", "-r", "aba", "b", "c"]) {
        let told = |name| format!("marks: {name}: you may not read it; ask its owner for the right to, and to enter its folder\n");
        said.is_with(2, "b/-:0\nb/z:1\nc:0\n", &(told("b/d") + &told("b/e")));
    }
    fs::set_permissions(here.path("b/d"), fs::Permissions::from_mode(0o755)).unwrap();
}
