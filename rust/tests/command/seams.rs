//! Files that are searched in parts: no find is lost or doubled where parts meet, at 16 MiB or beyond, and memory stays flat.

use crate::Folder;
use marks::LONGEST_WORD;
use std::{
    fs::File,
    io::{Seek, SeekFrom, Write},
};

const MIB: u64 = 1 << 20;

/// A file of zeros, without blocks where nothing is written, with the word at each place.
fn sparse(here: &Folder, name: &str, size: u64, word: &[u8], places: &[u64]) {
    let mut file = File::create(here.path(name)).unwrap();
    file.set_len(size).unwrap();
    for place in places {
        file.seek(SeekFrom::Start(*place)).unwrap();
        file.write_all(word).unwrap();
    }
    assert_eq!(file.metadata().unwrap().len(), size);
}

fn lines(places: &[u64]) -> String {
    places.iter().map(|place| format!("{place}\n")).collect()
}

#[test]
fn a_find_across_the_seam_of_each_part() {
    let here = Folder::new("seams");
    let word = b"123456789";
    // at every multiple of 64 KiB up to 20 MiB, each seam of parts among them: before it, over it in every way, behind it
    let places: Vec<u64> = (1..320).map(|seam| seam * (MIB / 16) - seam % 10).collect();
    sparse(&here, "file", 20 * MIB, word, &places);
    here.marks(&["find", "123456789", "file"]).is(0, &lines(&places));
    here.marks(&["find", "-c", "123456789", "file"]).is(0, "319\n");
    here.shell("cat file | marks find 123456789 -").is(0, &lines(&places));
    here.shell("cat file | marks find -c 123456789 -").is(0, "319\n");
}

#[test]
fn overlapping_finds_around_16_mib() {
    let here = Folder::new("limit");
    let places: Vec<u64> = (16 * MIB - 40..16 * MIB + 40).collect();
    // so many letters in a row hold the longest mark at 80 places
    const ROW: usize = LONGEST_WORD + 79;
    sparse(&here, "file", 17 * MIB, &[b'a'; ROW], &places[..1]);
    here.marks(&["find", &"a".repeat(LONGEST_WORD), "file"]).is(0, &lines(&places));
    here.marks(&["find", "-c", &"a".repeat(LONGEST_WORD), "file"]).is(0, "80\n");
    here.marks(&["find", "-c", "-x", "00", "file"]).is(0, &format!("{}\n", 17 * MIB - ROW as u64));
}

#[test]
fn a_file_of_100_mb_in_little_memory() {
    let here = Folder::new("large");
    let places = [0, 5 * MIB, 16 * MIB - 4, 16 * MIB + 4, 32 * MIB - 1, 99_999_992];
    sparse(&here, "file", 100_000_000, b"ridemark", &places);
    here.marks(&["find", "ridemark", "file"]).is(0, &lines(&places));
    // 32 MiB for the program and all that it holds
    here.shell("ulimit -v 32768; marks find -c ridemark file").is(0, "6\n");
    here.shell("ulimit -v 32768; marks find -c -x 00 file").is(0, &format!("{}\n", 100_000_000 - 48));
}

#[test]
fn offsets_beyond_4_gib() {
    let here = Folder::new("beyond-32-bits");
    let places = [4096 * MIB - 3, 4096 * MIB + 17];
    sparse(&here, "file", 4097 * MIB, &[b'm'; 8], &places);
    here.marks(&["find", "-X", "mmmmmmmm", "file"]).is(0, "0xfffffffd\n0x100000011\n");
}
