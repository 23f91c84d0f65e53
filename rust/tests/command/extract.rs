//! `marks salvage --extract`: which files are written, what is never written over, and what is not written at all.

use crate::{
    fit::{header, records, ride},
    salvage::{chain, lines},
    Folder, MARKS,
};
use std::{
    ffi::OsStr,
    fs::{self, File, OpenOptions},
    io::{Seek, SeekFrom, Write},
    os::unix::{
        ffi::OsStrExt,
        fs::{symlink, MetadataExt, PermissionsExt},
    },
    process::Stdio,
    thread,
    time::Duration,
};

fn read(here: &Folder, name: &str) -> Vec<u8> {
    fs::read(here.path(name)).unwrap()
}

/// What is in a folder, sorted: no temporary file is.
fn names(here: &Folder, folder: &str) -> Vec<String> {
    let mut names: Vec<String> =
        fs::read_dir(here.path(folder)).unwrap().map(|entry| entry.unwrap().file_name().into_string().unwrap()).collect();
    names.sort();
    names
}

fn is_there(name: &str) -> String {
    format!("marks: {name}: it is there already; name another directory, or write over it with -f\n")
}

#[test]
fn each_ride_becomes_a_file() {
    let chain = chain();
    let text = [b"....".to_vec(), chain.clone(), ride(12, b"")].concat();
    let here = Folder::new("extract").with("up.fit", &text);
    // the folder is made, and those above it
    here.marks(&["salvage", "--extract", "a/b", "up.fit"]).is(0, &lines(&text));
    assert_eq!(names(&here, "a/b"), ["up.fit.116.fit", "up.fit.186.fit", "up.fit.4.fit", "up.fit.72.fit"]);
    assert_eq!(read(&here, "a/b/up.fit.4.fit"), ride(12, &records(3)));
    assert_eq!(read(&here, "a/b/up.fit.72.fit"), ride(14, &records(1)));
    assert_eq!(read(&here, "a/b/up.fit.116.fit"), ride(14, &records(9))[..70]);
    assert_eq!(read(&here, "a/b/up.fit.186.fit"), ride(12, b""));
    // what was written is listed as it was
    here.marks(&["salvage", "a/b/up.fit.72.fit"]).is(0, "0 whole 44 44\n");
    here.marks(&["salvage", "a/b/up.fit.116.fit"]).is(0, "0 cut 70 148\n");
    assert_eq!(names(&here, ""), ["a", "up.fit"]);
}

#[test]
fn chained_rides_cut_at_every_byte() {
    let (here, chain) = (Folder::new("extract-every-byte"), chain());
    for cut in 0..=chain.len() {
        fs::write(here.path("cut"), &chain[..cut]).unwrap();
        let folder = cut.to_string();
        here.marks(&["salvage", "--extract", &folder, "cut"]).is(i32::from(cut < 12), &lines(&chain[..cut]));
        let written: Vec<u8> =
            [0, 68, 112].iter().flat_map(|start| fs::read(here.path(&format!("{cut}/cut.{start}.fit"))).unwrap_or_default()).collect();
        // what is there of a header that is not wholly there is in none of them
        let lost = [(0, 12), (68, 82), (112, 126)].iter().find(|(start, end)| (start..end).contains(&&cut)).map(|(start, _)| *start);
        assert_eq!(written, chain[..lost.unwrap_or(cut)], "{cut}");
        assert_eq!(here.path(&folder).exists(), cut >= 12);
    }
}

#[test]
fn headers_in_the_data_of_a_ride_get_files_too() {
    let inner = ride(12, &records(1));
    let outer = ride(14, &[&records(9), &inner[..]].concat());
    let here = Folder::new("extract-inner").with("up", &outer);
    let start = outer.len() - 2 - inner.len();
    here.marks(&["salvage", "--extract", "out", "up"]).is(0, &lines(&outer));
    assert_eq!(read(&here, "out/up.0.fit"), outer);
    assert_eq!(read(&here, &format!("out/up.{start}.fit")), inner);
}

#[test]
fn the_file_is_named_in_an_object() {
    let here = Folder::new("extract-json").with("up", ride(12, b""));
    let object = |out: &str| format!("{{\"file\":\"up\",\"start\":0,\"kind\":\"whole\",\"bytes\":14,\"of\":14,\"out\":\"{out}\"}}\n");
    here.marks(&["salvage", "--json", "--extract", "out", "up"]).is(0, &object("out/up.0.fit"));
    here.marks(&["salvage", "--json", "--extract=./b/", "up"]).is(0, &object("./b/up.0.fit"));
}

#[test]
fn what_is_there_is_written_over_only_by_force() {
    let here = Folder::new("extract-force").with("up", chain()).with("other", ride(14, b"x"));
    fs::create_dir(here.path("out")).unwrap();
    fs::write(here.path("out/up.112.fit"), "a ride that somebody needs").unwrap();
    fs::set_permissions(here.path("out/up.112.fit"), fs::Permissions::from_mode(0o600)).unwrap();
    // the last of three: nothing of the file is written, and the next one is taken
    let said = here.marks(&["salvage", "--extract", "out", "up", "other"]);
    said.is_with(2, "other:0 whole 17 17\n", &is_there("out/up.112.fit"));
    assert_eq!(names(&here, "out"), ["other.0.fit", "up.112.fit"]);
    assert_eq!(read(&here, "out/up.112.fit"), b"a ride that somebody needs");
    here.marks(&["salvage", "-f", "--extract", "out", "up"]).is(0, &lines(&chain()));
    assert_eq!(names(&here, "out"), ["other.0.fit", "up.0.fit", "up.112.fit", "up.68.fit"]);
    assert_eq!(read(&here, "out/up.112.fit"), chain()[112..]);
    assert_eq!(fs::metadata(here.path("out/up.112.fit")).unwrap().mode() & 0o777, 0o600);
}

#[test]
fn a_link_in_the_folder_leads_nowhere_out_of_it() {
    let here = Folder::new("extract-links").with("up", ride(12, b"abc")).with("precious", "precious");
    fs::create_dir(here.path("out")).unwrap();
    for target in ["../precious", "nowhere", "/dev/null"] {
        symlink(target, here.path("out/up.0.fit")).unwrap();
        here.marks(&["salvage", "--extract", "out", "up"]).is_with(2, "", &is_there("out/up.0.fit"));
        assert!(here.path("out/up.0.fit").is_symlink());
        here.marks(&["salvage", "--force", "--extract", "out", "up"]).is(0, "0 whole 17 17\n");
        assert!(!here.path("out/up.0.fit").is_symlink());
        assert_eq!((read(&here, "out/up.0.fit"), read(&here, "precious")), (ride(12, b"abc"), b"precious".to_vec()));
        fs::remove_file(here.path("out/up.0.fit")).unwrap();
    }
    fs::create_dir(here.path("out/up.0.fit")).unwrap();
    here.marks(&["salvage", "-f", "--extract", "out", "up"]).is_with(2, "", "marks: out/up.0.fit: it is a directory; name a file in it\n");
    assert_eq!((names(&here, ""), names(&here, "out")), (["out", "precious", "up"].map(String::from).into(), vec!["up.0.fit".to_string()]));
}

#[test]
fn names_of_strangers_stay_in_the_folder() {
    let one = ride(12, b"");
    let here = Folder::new("extract-names");
    fs::create_dir_all(here.path("a/b")).unwrap();
    let (odd, bytes) = ("a/b/..\n-x", OsStr::from_bytes(b"a/r\xe9s"));
    for name in [OsStr::new("a/b/up"), OsStr::new(odd), bytes] {
        fs::write(here.path("").join(name), &one).unwrap();
    }
    let words = |name| [OsStr::new("salvage"), OsStr::new("-I"), OsStr::new("--extract"), OsStr::new("out"), name];
    for name in [OsStr::new("a/../a/b/up"), OsStr::new(odd), bytes] {
        here.marks(&words(name)).is(0, "0 whole 14 14\n");
    }
    here.marks_reading(&words(OsStr::new("-")), &one).is(0, "0 whole 14 14\n");
    let mut written: Vec<_> = fs::read_dir(here.path("out")).unwrap().map(|entry| entry.unwrap().file_name()).collect();
    written.sort();
    let must: [&[u8]; 4] = [b"..\n-x.0.fit", b"r\xe9s.0.fit", b"standard-input.0.fit", b"up.0.fit"];
    assert_eq!(written, must.map(OsStr::from_bytes));
    assert_eq!((names(&here, ""), names(&here, "a/b")), (["a", "out"].map(String::from).into(), ["..\n-x", "up"].map(String::from).into()));
}

#[test]
fn files_of_one_name_are_refused_before_anything_is_written() {
    let here = Folder::new("extract-same");
    fs::create_dir_all(here.path("a")).unwrap();
    let here = here.with("up", ride(12, b"")).with("a/up", ride(14, b"")).with("standard-input", "");
    for (first, second, names) in [("up", "a/up", "up and a/up"), ("standard-input", "-", "standard-input and (standard input)")] {
        let said = format!(
            "marks: salvage: the rides of {names} would get the same names; extract them one by one, each to a directory of its own\n"
        );
        here.marks(&["salvage", "-f", "--extract", "out", first, second]).is_with(2, "", &said);
    }
    assert!(!here.path("out").exists());
}

const TOO_MUCH: &str = "nothing of it is written: list it without --extract, or write all the same with --all";

#[test]
fn of_more_than_a_thousand_rides_none_is_written_unless_all_are_asked_for() {
    let here = Folder::new("extract-many").with("most", ride(12, b"").repeat(1_000)).with("more", ride(12, b"").repeat(1_001));
    here.marks(&["salvage", "--extract", "out", "more"]).is_with(
        2,
        "",
        &format!("marks: more: it lists more than 1,000 rides; {TOO_MUCH}\n"),
    );
    assert!(!here.path("out").exists());
    // the next one is taken all the same
    let said = here.marks(&["salvage", "-I", "--extract", "out", "more", "most"]);
    assert_eq!((said.out.lines().count(), said.status), (1_000, Some(2)));
    assert_eq!(names(&here, "out").len(), 1_000);
    here.marks(&["salvage", "--all", "--extract", "all", "more"]).is(0, &lines(&ride(12, b"").repeat(1_001)));
    assert_eq!(names(&here, "all").len(), 1_001);
}

#[test]
fn of_rides_that_are_more_than_twice_the_file_none_is_written_unless_all_are_asked_for() {
    // four rides, each in the data of the next, 14 bytes more each time; what stands before them makes the file half as long as they are together
    let nested = (0..4).fold(Vec::new(), |inner, _| ride(12, &inner));
    let (together, before) = (14 + 28 + 42 + 56, 14);
    let here = Folder::new("extract-nested").with("twice", [vec![0; before], nested.clone()].concat());
    assert_eq!(together, 2 * read(&here, "twice").len());
    here.marks(&["salvage", "--extract", "out", "twice"]).is(0, &lines(&read(&here, "twice")));
    let here = here.with("more", [vec![0; before - 1], nested].concat());
    here.marks(&["salvage", "--extract", "new", "more"]).is_with(
        2,
        "",
        &format!("marks: more: its rides are more than twice its bytes together; {TOO_MUCH}\n"),
    );
    assert!(!here.path("new").exists());
    here.marks(&["salvage", "--all", "--extract", "new", "more"]).is(0, &lines(&read(&here, "more")));
    assert_eq!(names(&here, "new").len(), 4);
}

/// With -f, too: a file that is named to be read would else be gone before it is.
#[test]
fn a_file_that_is_read_is_never_written_over() {
    let (up, other) = (ride(12, b"up"), ride(12, b"other"));
    let here = Folder::new("extract-read").with("up", &up).with("up.0.fit", &other);
    let said = "marks: ./up.0.fit: it is one of the files that are read; name another directory\n";
    for force in ["-f", "--json"] {
        let told = here.marks(&["salvage", force, "--extract", ".", "up", "up.0.fit"]);
        assert_eq!((told.status, told.err.as_str()), (Some(2), said));
        assert_eq!(read(&here, "up.0.fit"), other);
        fs::remove_file(here.path("up.0.fit.0.fit")).unwrap();
    }
}

#[test]
fn a_folder_that_cannot_be_written_to() {
    let here = Folder::new("extract-where").with("up", ride(12, b"")).with("file", "").with("none", "");
    for folder in ["file", "file/in"] {
        here.marks(&["salvage", "--extract", folder, "up"]).is_with(
            2,
            "",
            &format!("marks: {folder}: it is no directory; name one, or what is not there yet\n"),
        );
    }
    fs::create_dir(here.path("locked")).unwrap();
    fs::set_permissions(here.path("locked"), fs::Permissions::from_mode(0o555)).unwrap();
    for (folder, of) in [("locked", "locked/up.0.fit"), ("locked/new", "locked/new")] {
        if let Some(said) = here.marks_unprivileged(&["salvage", "--extract", folder, "up"]) {
            said.is_with(2, "", &format!("marks: {of}: you may not write it; name another place\n"));
        }
    }
    // the name of the second ride is too long, so the first is not written either
    let long = "n".repeat(249);
    let here = here.with(&long, ride(12, &[0; 90]).repeat(2));
    fs::create_dir(here.path("out")).unwrap();
    let said = format!("marks: out/{long}.104.fit: it cannot be written: File name too long (os error 36); name another place\n");
    here.marks(&["salvage", "--extract", "out", &long]).is_with(2, "", &said);
    assert_eq!(names(&here, "out"), [""; 0]);
    // where no ride is, none is made
    here.marks(&["salvage", "--extract", "new", "none"]).is(1, "");
    assert_eq!(names(&here, ""), ["file", "locked", &long, "none", "out", "up"]);
}

#[test]
fn a_large_ride_in_little_memory() {
    let here = Folder::new("extract-large");
    let mut file = File::create(here.path("up")).unwrap();
    let declared = 40_000_000;
    file.write_all(&[&[0; 5][..], &header(14, declared)].concat()).unwrap();
    file.seek(SeekFrom::Start(30_000_000)).unwrap();
    file.write_all(b"in the middle").unwrap();
    file.set_len(5 + 14 + u64::from(declared) + 2 + 7).unwrap();
    here.shell("ulimit -v 32768; marks salvage --extract out up").is(0, "5 whole 40000016 40000016\n");
    assert!(read(&here, "out/up.5.fit") == read(&here, "up")[5..40_000_021]);
}

/// A file loses its end while its rides are written: the run stands still in the middle, as nobody reads its output, which has a long name on each line.
#[test]
fn a_file_that_becomes_shorter_leaves_no_piece_of_a_ride() {
    let name = "n".repeat(200);
    let here = Folder::new("extract-shorter").with(&name, ride(12, b"").repeat(1_000));
    let mut command = here.command(MARKS);
    let words = ["salvage", "-H", "--extract", "out", &name];
    let mut running = command.args(words).stdout(Stdio::piped()).stderr(Stdio::piped()).spawn().unwrap();
    // where pages are of 4 KiB, 300 lines fit into the pipe
    let written = here.path(&format!("out/{name}.{}.fit", 14 * 200));
    while !written.exists() && running.try_wait().unwrap().is_none() {
        thread::sleep(Duration::from_millis(10));
    }
    if running.try_wait().unwrap().is_some() {
        eprintln!("not tried: a pipe takes all of the output here");
        return;
    }
    OpenOptions::new().write(true).open(here.path(&name)).unwrap().set_len(5_000).unwrap();
    let output = running.wait_with_output().unwrap();
    let said = format!("marks: {name}: it became shorter while it was read, 5000 bytes; run it again when it stays as it is\n");
    assert_eq!((String::from_utf8(output.stderr).unwrap(), output.status.code()), (said, Some(2)));
    assert_eq!((output.stdout.iter().filter(|byte| **byte == b'\n').count(), names(&here, "out").len()), (357, 357));
}
