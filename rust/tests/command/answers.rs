//! What `marks find` prints of each file: names alone, nothing, so many finds, objects; and names that are hard to print.

use crate::{Folder, MARKS};
use std::{ffi::OsStr, fs, io::Write, os::unix::ffi::OsStrExt, process::Stdio};

fn folder(name: &str) -> Folder {
    Folder::new(name).with("ride", "xxababaxx").with("other", "aba").with("empty", "")
}

#[test]
fn names_alone() {
    let here = folder("names-alone");
    here.marks(&["find", "-l", "aba", "ride"]).is(0, "ride\n");
    here.marks(&["find", "--files-with-matches", "aba", "ride", "empty", "other"]).is(0, "ride\nother\n");
    here.marks(&["find", "-l", "zz", "ride", "other"]).is(1, "");
    here.marks_reading(&["find", "-l", "aba", "-", "gone"], b"aba").is_with(
        2,
        "(standard input)\n",
        "marks: gone: there is no such file; check its name\n",
    );
}

#[test]
fn nothing_but_the_status() {
    let here = folder("quiet");
    here.marks(&["find", "-q", "aba", "empty", "ride"]).is(0, "");
    here.marks(&["find", "--quiet", "zz", "ride"]).is(1, "");
    let gone = "marks: gone: there is no such file; check its name\n";
    // what was found is found, whatever else happened
    here.marks(&["find", "-q", "aba", "gone", "ride"]).is_with(0, "", gone);
    here.marks(&["find", "-q", "zz", "gone", "ride"]).is_with(2, "", gone);
    // the first find is enough: what follows is not looked at
    here.marks(&["find", "-q", "aba", "ride", "gone"]).is(0, "");
    let mut command = here.command(MARKS);
    let mut waiting = command.args(["find", "-q", "a", "-"]).stdin(Stdio::piped()).spawn().unwrap();
    let mut more = waiting.stdin.take().unwrap();
    more.write_all(b"a").unwrap();
    assert_eq!(waiting.wait().unwrap().code(), Some(0));
    drop(more);
}

#[test]
fn so_many_finds_of_each_file() {
    let here = folder("max-count");
    here.marks(&["find", "--max-count", "1", "aba", "ride", "other"]).is(0, "ride:2\nother:0\n");
    here.marks(&["find", "--max-count=2", "aba", "ride"]).is(0, "2\n4\n");
    here.marks(&["find", "--max-count=18446744073709551615", "aba", "ride"]).is(0, "2\n4\n");
    here.marks(&["find", "-c", "--max-count=1", "aba", "ride", "other", "empty"]).is(0, "ride:1\nother:1\nempty:0\n");
    let many = here.with("many", [b'a'; 1_000_000]);
    many.marks(&["find", "--max-count=3", "a", "many"]).is(0, "0\n1\n2\n");
    let most = "give the most finds of a file, 1 or more";
    for (given, shown) in
        [("0", "0"), ("-1", "-1"), ("+1", "+1"), ("", ""), ("18446744073709551616", "18446744073709551616"), ("1\n", "1\\x0a")]
    {
        let said = format!("marks: --max-count: it cannot be \"{shown}\"; {most}\n");
        many.marks(&["find", &format!("--max-count={given}"), "a", "many"]).is_with(2, "", &said);
    }
}

#[test]
fn a_nul_behind_each_name() {
    let here = folder("nul").with("a\nb", "aba");
    here.marks(&["find", "-l0", "aba", "ride", "a\nb"]).is(0, "ride\0a\nb\0");
    here.marks(&["find", "-H", "--null", "aba", "a\nb"]).is(0, "a\nb\x000\n");
    here.marks(&["find", "-c0", "aba", "a\nb", "ride"]).is(0, "a\nb\x001\nride\x002\n");
    here.shell("marks find -rl0 aba | xargs -0 marks find -c aba")
        .out
        .lines()
        .for_each(|line| assert!(line.ends_with(":1") || line == "ride:2"));
}

#[test]
fn objects_for_programs() {
    let here = folder("json").with("a\n\"b\\", "aba");
    here.marks(&["find", "--json", "aba", "ride"]).is(0, "{\"file\":\"ride\",\"at\":2}\n{\"file\":\"ride\",\"at\":4}\n");
    here.marks(&["find", "--json", "-c", "aba", "a\n\"b\\", "empty"])
        .is(0, "{\"file\":\"a\\u000a\\\"b\\\\\",\"count\":1}\n{\"file\":\"empty\",\"count\":0}\n");
    here.marks(&["find", "--json", "-l", "aba", "other", "empty"]).is(0, "{\"file\":\"other\"}\n");
    here.marks_reading(&["find", "--json", "-H", "--stats", "aba", "-"], b"ababa")
        .is(0, "{\"file\":\"-\",\"at\":0}\n{\"file\":\"-\",\"at\":2}\n{\"file\":\"-\",\"found\":2,\"bytes\":5,\"letters\":6}\n");
    let name = OsStr::from_bytes(b"r\xe9s");
    fs::write(here.path("").join(name), "aba").unwrap();
    here.marks(&[OsStr::new("find"), OsStr::new("--json"), OsStr::new("aba"), name]).is(0, "{\"file_hex\":\"72e973\",\"at\":0}\n");
}

#[test]
fn a_name_takes_one_line_whatever_it_is() {
    let here = folder("hard-names").with("a\nride:7", "aba").with("$'x'", "aba").with("b\\n", "aba").with("c\x1b[2J", "aba");
    let name = OsStr::from_bytes(b"r\xe9sum\xe9");
    fs::write(here.path("").join(name), "aba").unwrap();
    let names = "$'$\\'x\\'':0\n$'a\\nride:7':0\nb\\n:0\n$'c\\x1b[2J':0\nother:0\nride:2\nride:4\n$'r\\xe9sum\\xe9':0\n";
    here.marks(&["find", "-r", "aba"]).is(0, names);
    here.marks(&["find", "-l", "aba", "a\nride:7"]).is(0, "$'a\\nride:7'\n");
    here.marks(&["check", "a\nride:7"])
        .out
        .lines()
        .take(1)
        .for_each(|line| assert!(line.starts_with("$'a\\nride:7': refused: "), "{line}"));
    here.marks(&["show", "gone\n"]).is_with(2, "", "marks: $'gone\\n': there is no such file; check its name\n");
    here.marks(&["fi\nnd"]).is_with(
        2,
        "",
        "marks: $'fi\\nnd': there is no such command; it is find, salvage, save, check, show or help; marks --help has more\n",
    );
    // bash takes the names back
    let line = format!("'{MARKS}' find -l aba $'a\\nride:7' $'c\\x1b[2J' $'r\\xe9sum\\xe9' $'$\\'x\\''");
    let said = here.command("bash").args(["-c", &line]).output().unwrap();
    assert_eq!(said.stdout, b"$'a\\nride:7'\n$'c\\x1b[2J'\n$'r\\xe9sum\\xe9'\n$'$\\'x\\''\n");
}

#[test]
fn what_makes_no_sense_together_is_refused() {
    let here = folder("together");
    let [choose, nothing] = ["choose one", "-q prints nothing: leave one of them out"];
    let names = "-l prints names alone: leave one of them out";
    let object = "an object has its name and its numbers in one way: leave one of them out";
    let cases: [(&[&str], &str, &str); 13] = [
        (&["-c", "-l"], "-c and -l", choose),
        (&["-q", "-l"], "-l and -q", choose),
        (&["-q", "--json"], "-q and --json", nothing),
        (&["-q", "--stats"], "-q and --stats", nothing),
        (&["-q", "--max-count=1"], "-q and --max-count", nothing),
        (&["-q0"], "-q and -0", nothing),
        (&["-cX"], "-c and -X", "-c prints no offsets: leave one of them out"),
        (&["-lX"], "-l and -X", names),
        (&["-lI"], "-l and -I", names),
        (&["-l", "--max-count=1"], "-l and --max-count", names),
        (&["-0I"], "-0 and -I", "-0 is for names: leave one of them out"),
        (&["--json", "-0"], "--json and -0", object),
        (&["--json", "-X"], "--json and -X", object),
    ];
    for (options, both, why) in cases {
        let said = format!("marks: find: both {both} are given; {why}\n");
        here.marks(&[&["find", "aba", "ride"], options].concat()).is_with(2, "", &said);
    }
}
