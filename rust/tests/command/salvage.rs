//! `marks salvage`: what is listed of each file, in which form, and files that cannot be read. What must be listed is computed plainly.

use crate::{
    fit::{self, header, records, ride},
    Folder, MARKS,
};
use std::{
    ffi::OsStr,
    fs::{self, File, OpenOptions},
    io::{BufRead, BufReader, Read, Seek, SeekFrom, Write},
    os::unix::ffi::OsStrExt,
    process::Stdio,
};

/// Two rides that are whole, and the beginning of a third.
pub fn chain() -> Vec<u8> {
    [ride(12, &records(3)), ride(14, &records(1)), ride(14, &records(9))[..70].to_vec()].concat()
}

/// What stands there of the chain.
const CHAIN: &str = "0 whole 68 68\n68 whole 44 44\n112 cut 70 148\n";

/// What must be printed of a text: a ride that is whole has all that it declares, a cut one what is there up to the next or to the end.
pub fn lines(text: &[u8]) -> String {
    let listed = fit::listed(text);
    let ends = listed.iter().skip(1).map(|ride| ride.0).chain([text.len() as u64]);
    let line = |((start, whole, header, data), end): (&fit::Listed, u64)| {
        let declared = u64::from(*header) + u64::from(*data) + 2;
        let (kind, there) = if *whole { ("whole", declared) } else { ("cut", end - start) };
        format!("{start} {kind} {there} {declared}\n")
    };
    listed.iter().zip(ends).map(line).collect()
}

#[test]
fn a_line_for_each_ride() {
    let here = Folder::new("rides").with("chain", chain()).with("none", "nothing.FIT").with("empty", "");
    assert_eq!(lines(&chain()), CHAIN);
    here.marks(&["salvage", "chain"]).is(0, CHAIN);
    here.marks(&["salvage", "none"]).is(1, "");
    here.marks(&["salvage", "empty"]).is(1, "");
    here.marks(&["salvage", "none", "empty", "chain"]).is(0, &CHAIN.lines().map(|line| format!("chain:{line}\n")).collect::<String>());
}

/// A head unit that died before it wrote the size: by its header the ride is whole, and has no data.
#[test]
fn a_size_that_nobody_has_written() {
    let (open, closed) = ([header(14, 0), records(9)].concat(), ride(12, &records(1)));
    let here = Folder::new("unsized").with("up", [&open[..], &closed, &open].concat());
    let (length, last) = (open.len(), open.len() + closed.len());
    let closed_line = format!("{length} whole {0} {0}\n", closed.len());
    here.marks(&["salvage", "up"]).is(0, &format!("0 whole 16 16\n{closed_line}{last} whole 16 16\n"));
    let taken = format!("0 unsized {length} 16\n{closed_line}{last} unsized {length} 16\n");
    here.marks(&["salvage", "--unsized", "--extract", "out", "up"]).is(0, &taken);
    for (start, bytes) in [(0, &open), (length, &closed), (last, &open)] {
        assert_eq!(&fs::read(here.path(&format!("out/up.{start}.fit"))).unwrap(), bytes);
    }
    let objects = format!("{{\"file\":\"up\",\"start\":0,\"kind\":\"unsized\",\"bytes\":{length},\"of\":16}}\n");
    assert!(here.marks(&["salvage", "--unsized", "--json", "up"]).out.starts_with(&objects));
}

#[test]
fn chained_rides_cut_at_every_byte() {
    let (here, chain) = (Folder::new("every-byte"), chain());
    for cut in 0..=chain.len() {
        fs::write(here.path("cut"), &chain[..cut]).unwrap();
        // the first header has 12 bytes
        here.marks(&["salvage", "cut"]).is(i32::from(cut < 12), &lines(&chain[..cut]));
    }
}

#[test]
fn sizes_of_strangers_and_headers_everywhere() {
    let inner = [header(12, u32::MAX), ride(14, b"in it")].concat();
    let texts = [
        header(12, u32::MAX),
        [b"##".to_vec(), header(14, u32::MAX - 15), vec![0; 40]].concat(),
        [ride(14, &inner), header(14, 1 << 31)].concat(),
        b"\x0c\0\0\0\x0e\0\0\0.FIT.FIT##".to_vec(),
        b"\x0c\0.FIT".repeat(500),
        b".FIT".repeat(500),
        header(14, 7).repeat(500),
    ];
    for (i, text) in texts.iter().enumerate() {
        let here = Folder::new(&format!("strangers-{i}")).with("text", text);
        let status = i32::from(fit::listed(text).is_empty());
        here.marks(&["salvage", "text"]).is(status, &lines(text));
        here.marks_reading(&["salvage", "-"], text).is(status, &lines(text));
    }
}

#[test]
fn names_before_rides_as_with_finds() {
    let one = ride(12, b"");
    let here = Folder::new("ride-names").with("one", &one).with("a\nb", &one);
    let line = "0 whole 14 14\n";
    here.marks(&["salvage", "one", "one"]).is(0, &format!("one:{line}one:{line}"));
    here.marks(&["salvage", "-H", "one"]).is(0, &format!("one:{line}"));
    here.marks(&["salvage", "--no-filename", "one", "a\nb"]).is(0, &line.repeat(2));
    here.marks(&["salvage", "one", "a\nb"]).is(0, &format!("one:{line}$'a\\nb':{line}"));
    here.marks(&["salvage", "-H0", "a\nb"]).is(0, &format!("a\nb\0{line}"));
    here.marks_reading(&["salvage", "-", "one"], &one).is(0, &format!("(standard input):{line}one:{line}"));
}

#[test]
fn objects_for_programs() {
    let here = Folder::new("ride-objects").with("a\n\"b", chain()).with("none", "");
    let objects = "{\"file\":\"a\\u000a\\\"b\",\"start\":0,\"kind\":\"whole\",\"bytes\":68,\"of\":68}\n\
                   {\"file\":\"a\\u000a\\\"b\",\"start\":68,\"kind\":\"whole\",\"bytes\":44,\"of\":44}\n\
                   {\"file\":\"a\\u000a\\\"b\",\"start\":112,\"kind\":\"cut\",\"bytes\":70,\"of\":148}\n";
    here.marks(&["salvage", "--json", "none", "a\n\"b"]).is(0, objects);
    here.marks_reading(&["salvage", "--json", "-"], &ride(14, b"x"))
        .is(0, "{\"file\":\"-\",\"start\":0,\"kind\":\"whole\",\"bytes\":17,\"of\":17}\n");
    let name = OsStr::from_bytes(b"r\xe9s");
    fs::write(here.path("").join(name), header(12, 0)).unwrap();
    here.marks(&[OsStr::new("salvage"), OsStr::new("--json"), name])
        .is(0, "{\"file_hex\":\"72e973\",\"start\":0,\"kind\":\"cut\",\"bytes\":12,\"of\":14}\n");
    // another program reads them
    let program = "import json, sys\nrides = [json.loads(line) for line in sys.stdin]\n\
                   print(len(rides), sum(ride['bytes'] for ride in rides), rides[2]['kind'], rides[2]['file'] == 'a\\n\"b')\n";
    let said = here.with("sum.py", program).shell("command -v python3 >/dev/null || exit 9; marks salvage --json a* | python3 sum.py");
    match said.status {
        Some(9) => eprintln!("not tried: there is no python3"),
        _ => said.is(0, "3 182 cut True\n"),
    }
}

#[test]
fn what_has_no_size_is_read_whole_first() {
    let here = Folder::new("ride-pipes").with("chain", chain());
    here.shell("cat chain | marks salvage -").is(0, CHAIN);
    here.shell("marks salvage - <chain").is(0, CHAIN);
    here.shell("mkfifo pipe && { cat chain >pipe & marks salvage pipe; }").is(0, CHAIN);
    here.marks(&["salvage", "/proc/self/status"]).is(1, "");
    // and where it does not fit in memory that is said
    here.shell("ulimit -v 65536; head -c 200000000 /dev/zero | marks salvage -").is_with(
        2,
        "",
        "marks: (standard input): it does not fit in memory; write it to a file first, which is read in parts, and name that\n",
    );
}

#[test]
fn a_bad_file_is_named_and_the_next_one_taken() {
    let here = Folder::new("bad-rides").with("one", ride(12, b""));
    fs::create_dir(here.path("folder")).unwrap();
    here.marks(&["salvage", "gone", "one", "folder", "one"]).is_with(
        2,
        "one:0 whole 14 14\none:0 whole 14 14\n",
        "marks: gone: there is no such file; check its name\nmarks: folder: it is a directory; name the files in it\n",
    );
    here.marks(&["salvage", "/proc/self/mem"]).is_with(
        2,
        "",
        "marks: /proc/self/mem: reading stopped after 0 bytes: Input/output error (os error 5); copy what can be copied to a sound disk and try that\n",
    );
}

#[test]
fn what_makes_no_sense_is_refused() {
    let here = Folder::new("ride-usage").with("one", ride(12, b""));
    let object = "an object has its name in one way: leave one of them out";
    let cases: [(&[&str], &str); 12] = [
        (&[], "salvage: no FILE is given; name the files to look in, or - for standard input"),
        (&["-", "one", "-"], "salvage: - is given twice; standard input can be read once"),
        (&["--json", "-0", "one"], &format!("salvage: both --json and -0 are given; {object}")),
        (&["--json", "-I", "one"], &format!("salvage: both --json and -I are given; {object}")),
        (&["-0I", "one"], "salvage: both -0 and -I are given; -0 is for names: leave one of them out"),
        (&["-c", "one"], "salvage: --count is for find; leave it out"),
        (&["-x", "one"], "salvage: --hex is for find and save; leave it out"),
        (&["-f", "one"], "salvage: --force is given without --extract; leave it out, or say where to write"),
        (&["--all", "one"], "salvage: --all is given without --extract; leave it out, or say where to write"),
        (&["one", "--extract"], "--extract: no directory follows it; name the directory to write to"),
        (&["--extract=a", "--extract", "b", "one"], "--extract: it is given twice; choose one"),
        (&["--extract", "", "one"], "DIR: it is no directory's name; name the directory to write to"),
    ];
    for (words, said) in cases {
        here.marks(&[&["salvage"], words].concat()).is_with(2, "", &format!("marks: {said}\n"));
    }
    here.marks(&["find", "--extract", "a", "x", "one"]).is_with(2, "", "marks: find: --extract is for salvage; leave it out\n");
    assert_eq!(fs::read_dir(here.path("")).unwrap().count(), 1);
}

#[test]
fn large_files_in_little_memory() {
    let here = Folder::new("large-rides").with("dense", b"\x0c\0.FIT".repeat(3_000_000));
    let mut file = File::create(here.path("sparse")).unwrap();
    file.set_len(100_000_000).unwrap();
    // around 16 MiB, and one that ends with the file
    let starts = [(16 << 20) - 13, (16 << 20) + 1, 90_000_000];
    for start in starts {
        file.seek(SeekFrom::Start(start)).unwrap();
        file.write_all(&header(12, (100_000_000 - start - 14) as u32)).unwrap();
    }
    let lines: String = starts.iter().map(|start| format!("{start} whole {0} {0}\n", 100_000_000 - start)).collect();
    // 32 MiB for the program and all that it holds
    here.shell("ulimit -v 32768; marks salvage sparse").is(0, &lines);
    here.shell("ulimit -v 32768; marks salvage dense | wc -l").is(0, "2999999\n");
}

/// A file loses its end while it is gone over: the run stands still in the middle of it, as nobody reads its output.
#[test]
fn a_file_that_becomes_shorter_is_trouble() {
    let here = Folder::new("shorter-rides").with("dense", b"\x0c\0.FIT".repeat(1_000_000));
    let mut command = here.command(MARKS);
    let mut running = command.args(["salvage", "dense"]).stdout(Stdio::piped()).stderr(Stdio::piped()).spawn().unwrap();
    let (mut out, mut first) = (BufReader::with_capacity(16, running.stdout.take().unwrap()), String::new());
    out.read_line(&mut first).unwrap();
    OpenOptions::new().write(true).open(here.path("dense")).unwrap().set_len(2_000_000).unwrap();
    assert_eq!(out.lines().count(), 2_000_000 / 6 - 2);
    let (status, mut err) = (running.wait().unwrap(), String::new());
    running.stderr.take().unwrap().read_to_string(&mut err).unwrap();
    let said = "marks: dense: it became shorter while it was read, 2000000 bytes; run it again when it stays as it is\n";
    assert_eq!((first.as_str(), err.as_str(), status.code()), ("0 whole 808023 808023\n", said, Some(2)));
}

/// So many points, a second apart, as a program for maps has them.
fn gpx(points: u32) -> String {
    let point = |i: u32| {
        let time = format!("2026-05-01T10:{:02}:{:02}Z", i / 60, i % 60);
        format!("<trkpt lat=\"47.{i:04}\" lon=\"8.{i:04}\"><ele>{}</ele><time>{time}</time></trkpt>", 400 + i)
    };
    let points: String = (0..points).map(point).collect();
    let schema = "http://www.topografix.com/GPX/1/1";
    format!("<gpx version=\"1.1\" creator=\"marks\" xmlns=\"{schema}\"><trk><trkseg>{points}</trkseg></trk></gpx>")
}

/// Files that another program writes and reads, where it is at hand.
#[test]
fn rides_of_gpsbabel() {
    let own = [ride(12, &records(20)), ride(14, &records(30))].concat();
    let here = Folder::new("gpsbabel").with("x.gpx", gpx(90)).with("own", &own);
    let made = here.shell("command -v gpsbabel >/dev/null || exit 99; gpsbabel -t -i gpx -f x.gpx -o garmin_fit -F x.fit");
    if made.status == Some(99) {
        eprintln!("not tried: there is no gpsbabel");
        return;
    }
    made.is(0, "");
    let fit = fs::read(here.path("x.fit")).unwrap();
    let size = fit.len();
    here.marks(&["salvage", "x.fit"]).is(0, &format!("0 whole {size} {size}\n"));
    for cut in [14, 15, 100, size / 2, size - 2, size - 1] {
        fs::write(here.path("cut"), &fit[..cut]).unwrap();
        here.marks(&["salvage", "cut"]).is(0, &format!("0 cut {cut} {size}\n"));
    }
    // one of several is taken out, and read back
    let points = |name: &str| here.shell(&format!("gpsbabel -t -i garmin_fit -f {name} -o gpx -F - | grep -c '<trkpt '"));
    here.shell("cat own x.fit cut >chain; marks salvage -I --extract out chain own >list").is(0, "");
    let taken_out = format!("out/chain.{}.fit", own.len());
    points(&taken_out).is(0, "90\n");
    assert_eq!(fs::read(here.path(&taken_out)).unwrap(), fit);
    // and so are those that the tests make
    points("out/own.0.fit").is(0, "20\n");
    points("out/own.289.fit").is(0, "30\n");
}
