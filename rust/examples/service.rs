//! A service that opens uploads: one mark, loaded once from the file that a phone saved, serves every thread; a worker for each processor takes upload after
//! upload, reads it in flat memory and tells where the mark stands. Nothing that comes from outside is believed: neither the mark file nor an upload.
//!
//!     cargo run --release --example service -- MARKFILE UPLOAD..
use marks::Mark;
use std::{
    env,
    fs::File,
    io::{self, Read},
    path::{Path, PathBuf},
    process::ExitCode,
    sync::{
        atomic::{AtomicUsize, Ordering},
        mpsc,
    },
    thread,
};

/// What became of an upload: how often the mark stands in it and where first, or why it could not be read.
type Opened = io::Result<(u64, Option<u64>)>;

/// A mark file has at most 20,483 bytes, in either edition. One byte more is read, and no more whatever comes: with it no file is a mark's.
fn load(name: &Path) -> Result<Mark, String> {
    let mut bytes = Vec::new();
    let read = File::open(name).and_then(|file| file.take(marks::LONGEST_FILE as u64 + 1).read_to_end(&mut bytes));
    read.map_err(|error| error.to_string())?;
    Mark::from_file(bytes).map_err(|error| error.to_string())
}

fn open(mark: &Mark, name: &Path) -> Opened {
    let mut finds = mark.find_in(File::open(name)?);
    let first = finds.next().transpose()?;
    let more = finds.tally()?.count;
    Ok((u64::from(first.is_some()) + more, first))
}

/// Opens all uploads, as many at a time as there are processors, and tells of each as it is done.
fn open_all(mark: &Mark, uploads: &[PathBuf], mut tell: impl FnMut(&Path, Opened)) {
    let (next, (sender, receiver)) = (AtomicUsize::new(0), mpsc::channel());
    let workers = thread::available_parallelism().map_or(1, usize::from).min(uploads.len());
    thread::scope(|scope| {
        for _ in 0..workers {
            let (next, sender) = (&next, sender.clone());
            scope.spawn(move || {
                while let Some(name) = uploads.get(next.fetch_add(1, Ordering::Relaxed)) {
                    sender.send((name, open(mark, name))).expect("the receiver waits for all");
                }
            });
        }
        drop(sender);
        for (name, opened) in receiver {
            tell(name, opened);
        }
    });
}

fn main() -> ExitCode {
    let mut names = env::args_os().skip(1).map(PathBuf::from);
    let Some(file) = names.next() else {
        eprintln!("service: give a mark file and the uploads to open");
        return ExitCode::from(2);
    };
    let mark = match load(&file) {
        Ok(mark) => mark,
        Err(why) => {
            eprintln!("service: {}: {why}", file.display());
            return ExitCode::from(2);
        }
    };
    let uploads: Vec<PathBuf> = names.collect();
    open_all(&mark, &uploads, |name, opened| match opened {
        Ok((count, Some(first))) => println!("{}: {count} marks, the first at {first}", name.display()),
        Ok((_, None)) => println!("{}: none", name.display()),
        Err(error) => println!("{}: cannot be read: {error}", name.display()),
    });
    ExitCode::SUCCESS
}
