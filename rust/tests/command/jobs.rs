//! `marks find -j`: several files at once, with the output of one after the other.

use crate::{Folder, MARKS};
use std::{
    fs,
    io::{BufRead, BufReader, Write},
    process::Stdio,
    thread,
    time::Duration,
};

/// Files of all kinds: without finds, with few, with more than may wait to be printed, and one that is not there.
fn folder(name: &str) -> (Folder, Vec<String>) {
    let here = Folder::new(name).with("many", [b'a'; 300_000]).with("long", "ride".repeat(200_000));
    fs::create_dir(here.path("folder")).unwrap();
    let mut files = vec!["many".to_string(), "gone".to_string(), "long".to_string(), "folder".to_string()];
    for number in 0..60 {
        let name = format!("{number:02}");
        fs::write(here.path(&name), "aride".repeat(number)).unwrap();
        files.push(name);
    }
    files.extend(["many".to_string(), "long".to_string()]);
    (here, files)
}

#[test]
fn the_output_is_that_of_one_after_the_other() {
    let (here, files) = folder("jobs");
    let files: Vec<&str> = files.iter().map(String::as_str).collect();
    let ways: [&[&str]; 7] = [&[], &["-c"], &["-l"], &["--json", "--stats"], &["-X", "--max-count=2"], &["--stats"], &["-r"]];
    for way in ways {
        for word in ["a", "ride", "zz"] {
            let one = here.marks(&[&["find", word], way, &files[..]].concat());
            for jobs in ["-j1", "-j2", "-j7", "--jobs=0", "-j200"] {
                assert!(here.marks(&[&["find", jobs, word], way, &files[..]].concat()) == one, "{jobs} {word} {way:?}");
            }
        }
    }
    // messages stand between the answers as they would
    let line = format!("marks find -j OF ride --stats {} 2>&1", files.join(" "));
    let [one, four] = ["1", "4"].map(|jobs| here.shell(&line.replace("OF", jobs)));
    assert!(one == four && one.out.contains("gone"));
}

#[test]
fn the_first_find_is_enough_also_where_others_wait() {
    let (here, _) = folder("jobs-quiet");
    here.marks(&["find", "-qj4", "ride", "many", "long", "gone"]).is(0, "");
    here.marks(&["find", "-qj4", "zz", "many", "long"]).is(1, "");
    let mut command = here.command(MARKS);
    let mut running = command.args(["find", "-qj2", "ride", "long", "-"]).stdin(Stdio::piped()).spawn().unwrap();
    let waiting = running.stdin.take();
    assert_eq!(running.wait().unwrap().code(), Some(0));
    drop(waiting);
}

#[test]
fn what_comes_slowly_is_printed_as_it_comes() {
    let (here, _) = folder("jobs-slow");
    let mut command = here.command(MARKS);
    let mut running = command.args(["find", "-j2", "ab", "-", "00"]).stdin(Stdio::piped()).stdout(Stdio::piped()).spawn().unwrap();
    let mut input = running.stdin.take().unwrap();
    let mut output = BufReader::new(running.stdout.take().unwrap());
    for place in [0, 2] {
        input.write_all(b"ab").unwrap();
        let mut line = String::new();
        output.read_line(&mut line).unwrap();
        assert_eq!(line, format!("(standard input):{place}\n"));
    }
    drop(input);
    assert_eq!(running.wait().unwrap().code(), Some(0));
}

#[test]
fn memory_stays_flat_where_one_file_holds_up_the_others() {
    let here = Folder::new("jobs-flat");
    for number in 0..60 {
        fs::write(here.path(&format!("{number:02}")), [b'a'; 100_000]).unwrap();
    }
    let mut command = here.command(MARKS);
    let mut running = command.args(["find", "-j3", "-r", "a", "-", "."]).stdin(Stdio::piped()).stdout(Stdio::piped()).spawn().unwrap();
    let waiting = running.stdin.take();
    // each of the others has a megabyte of answers, which wait for the first
    thread::sleep(Duration::from_millis(300));
    let status = fs::read_to_string(format!("/proc/{}/status", running.id())).unwrap();
    let held = status.lines().find_map(|line| line.strip_prefix("VmHWM:")?.trim().strip_suffix(" kB")).unwrap();
    assert!(held.parse::<u32>().unwrap() < 24_000, "{held} kB");
    drop(waiting);
    assert_eq!(BufReader::new(running.stdout.take().unwrap()).lines().count(), 60 * 100_000);
    assert_eq!(running.wait().unwrap().code(), Some(0));
}

#[test]
fn a_number_of_jobs_is_one_of_these() {
    let here = Folder::new("jobs-numbers").with("ride", "aba");
    let many = "give how many files at once, up to 256, or 0 for as many as there are processors";
    for given in ["x", "-1", "257", ""] {
        let said = format!("marks: -j: it cannot be \"{given}\"; {many}\n");
        here.marks(&["find", &format!("--jobs={given}"), "aba", "ride"]).is_with(2, "", &said);
    }
    here.marks(&["find", "-j", "256", "aba", "ride"]).is(0, "0\n");
}
