//! One large text, searched by a pool of threads with one mark: each takes the next stretch, with as many bytes of the one behind it as a mark may reach over
//! the edge, one less than the mark has. So every find is told by exactly one thread.
//!
//!     cargo run --release --example pool -- WORD FILE [THREADS]
use marks::Mark;
use std::{
    env, fs,
    process::ExitCode,
    sync::{
        atomic::{AtomicUsize, Ordering},
        LazyLock, Mutex,
    },
    thread,
};

/// The word is the first argument. A static mark is made when it is first used.
static MARK: LazyLock<Mark> = LazyLock::new(|| {
    let word = env::args().nth(1).unwrap_or_default();
    Mark::new(&word).unwrap_or_else(|refusal| {
        eprintln!("pool: WORD: {refusal}");
        std::process::exit(2)
    })
});

const STRETCH: usize = 1 << 20;

/// Every place where the mark stands in the text, rising.
fn find_all(text: &[u8], threads: usize) -> Vec<usize> {
    let (next, all) = (AtomicUsize::new(0), Mutex::new(Vec::new()));
    thread::scope(|scope| {
        for _ in 0..threads {
            scope.spawn(|| loop {
                let start = STRETCH * next.fetch_add(1, Ordering::Relaxed);
                if start >= text.len() {
                    return;
                }
                let end = text.len().min(start + STRETCH + MARK.word().len() - 1);
                let finds: Vec<usize> = MARK.find_iter(&text[start..end]).map(|at| start + at).collect();
                all.lock().expect("no thread panics").extend(finds);
            });
        }
    });
    let mut all = all.into_inner().expect("no thread panics");
    all.sort_unstable();
    all
}

fn main() -> ExitCode {
    let arguments: Vec<String> = env::args().collect();
    let Some(name) = arguments.get(2) else {
        eprintln!("pool: give a word and a file");
        return ExitCode::from(2);
    };
    let threads = arguments.get(3).and_then(|threads| threads.parse().ok()).filter(|threads| *threads > 0);
    let threads = threads.unwrap_or_else(|| thread::available_parallelism().map_or(1, usize::from));
    match fs::read(name) {
        Ok(text) => find_all(&text, threads).iter().for_each(|at| println!("{at}")),
        Err(error) => {
            eprintln!("pool: {name}: {error}");
            return ExitCode::from(2);
        }
    }
    ExitCode::SUCCESS
}
