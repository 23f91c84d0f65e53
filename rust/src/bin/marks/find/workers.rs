//! Several files at once. Workers search, and hand what they have to say through channels that hold only so much; the printing thread takes
//! file after file in their order. So the output is that of one file after the other, and memory stays flat however many files there are
//! and however slow one of them is.

use super::{
    direct,
    files::Files,
    lines::Style,
    search::{self, Listener, Said},
};
use crate::{names, output::Output, trouble::Trouble};
use marks::Mark;
use std::{
    ffi::OsString,
    iter,
    sync::{
        atomic::{AtomicBool, AtomicU64, Ordering::Relaxed},
        mpsc::{sync_channel, Receiver, RecvTimeoutError, SyncSender},
        Arc, Mutex, PoisonError,
    },
    thread::{self, JoinHandle},
    time::Duration,
};

/// How much of a file may wait to be printed, in chunks.
const WAITING: usize = 4;

/// How many files for each worker may be begun and not printed.
const AHEAD: usize = 2;

/// How often it is told how far a file has been read that says nothing.
const PAUSE: Duration = Duration::from_millis(100);

struct Shared {
    mark: Mark,
    style: Style,
    files: Mutex<Files>,
    stopped: AtomicBool,
}

/// A file that a worker has begun, as the printing thread sees it.
struct Begun {
    said: Receiver<Said>,
    name: String,
    so_far: Arc<SoFar>,
}

/// How far a file has been read, and its size, or 0 where that is not known.
#[derive(Default)]
struct SoFar {
    read: AtomicU64,
    size: AtomicU64,
}

/// Whether anything was found. Workers are left behind where the first find is enough: one of them may wait for input that never comes.
pub fn find(mark: Mark, files: Files, style: Style, jobs: usize, output: &mut Output) -> bool {
    let shared = Arc::new(Shared { mark, style, files: Mutex::new(files), stopped: AtomicBool::new(false) });
    let (order, begun) = sync_channel(AHEAD * jobs);
    let workers = start(&shared, jobs, order);
    if workers.is_empty() {
        // no thread can be had: this one does it
        return direct::find(&shared.mark, iter::from_fn(|| shared.next_file()), &style, output);
    }
    let mut found = false;
    for file in begun {
        found |= print(&file, output);
        if found && style.is_quiet() {
            shared.stopped.store(true, Relaxed);
            return true;
        }
    }
    for worker in workers {
        if worker.join().is_err() {
            output.complain(&Trouble::new("find", "a search broke off", "this is a fault of the program: report it"));
        }
    }
    found
}

impl Shared {
    fn next_file(&self) -> Option<Result<OsString, Trouble>> {
        self.files.lock().unwrap_or_else(PoisonError::into_inner).next()
    }
}

/// As many workers as can be had.
fn start(shared: &Arc<Shared>, jobs: usize, order: SyncSender<Begun>) -> Vec<JoinHandle<()>> {
    let worker = || {
        let (shared, order) = (Arc::clone(shared), order.clone());
        thread::Builder::new().spawn(move || work(&shared, &order)).ok()
    };
    (0..jobs).map_while(|_| worker()).collect()
}

/// Takes file after file until there are no more, or nobody wants to hear of them.
fn work(shared: &Shared, order: &SyncSender<Begun>) {
    while let Some((file, listener)) = begin(shared, order) {
        match file {
            Ok(name) => search::search(&shared.mark, &name, &shared.style, &listener),
            Err(trouble) => {
                listener.hear(Said::Trouble(trouble));
                listener.hear(Said::End);
            }
        }
    }
}

/// The next file. It takes its place in the order before any worker can take the file behind it.
fn begin<'a>(shared: &'a Shared, order: &SyncSender<Begun>) -> Option<(Result<OsString, Trouble>, Worker<'a>)> {
    let mut files = shared.files.lock().unwrap_or_else(PoisonError::into_inner);
    let file = files.next()?;
    let (say, said) = sync_channel(WAITING);
    let so_far = Arc::new(SoFar::default());
    let name = file.as_ref().map(|name| names::shown(name)).unwrap_or_default();
    order.send(Begun { said, name, so_far: Arc::clone(&so_far) }).ok()?;
    Some((file, Worker { say, so_far, stopped: &shared.stopped }))
}

/// Says what is found to the printing thread, which may have to catch up first.
struct Worker<'a> {
    say: SyncSender<Said>,
    so_far: Arc<SoFar>,
    stopped: &'a AtomicBool,
}

impl Listener for Worker<'_> {
    fn hear(&self, said: Said) -> bool {
        self.say.send(said).is_ok()
    }

    fn reached(&self, read: u64, size: Option<u64>) -> bool {
        self.so_far.size.store(size.unwrap_or(0), Relaxed);
        self.so_far.read.store(read, Relaxed);
        !self.stopped.load(Relaxed)
    }
}

/// Prints what is said of a file. Whether there is a find in it.
fn print(file: &Begun, output: &mut Output) -> bool {
    let mut found = false;
    loop {
        match next(file, output) {
            Ok(Said::End) => return found,
            Ok(said) => found |= said.print(output),
            Err(RecvTimeoutError::Timeout) => {
                let [read, size] = [&file.so_far.read, &file.so_far.size].map(|number| number.load(Relaxed));
                output.reached(&file.name, read, Some(size).filter(|size| *size > 0));
            }
            // its worker is gone, which is told in the end
            Err(RecvTimeoutError::Disconnected) => return found,
        }
    }
}

/// What is said next of a file. Where that is not at hand, what was said before is shown first.
fn next(file: &Begun, output: &mut Output) -> Result<Said, RecvTimeoutError> {
    file.said.try_recv().or_else(|_| {
        output.flush();
        file.said.recv_timeout(PAUSE)
    })
}
