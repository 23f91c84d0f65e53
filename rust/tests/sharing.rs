//! One mark for all threads, and what a mark is beside its finds: compared, hashed, shown; the finds of a source that fails; the examples.
mod sources;

use marks::{Engine, Finds, Mark, Refusal, Stream};
use sources::{Boasting, Failing};
use std::{
    collections::HashSet,
    io::{self, ErrorKind, Read},
    process::Command,
    sync::LazyLock,
    thread,
};

static LAP: LazyLock<Mark> = LazyLock::new(|| Mark::new("lap-lap").unwrap());

#[test]
fn a_static_mark_serves_all_threads_at_once() {
    let texts: Vec<Vec<u8>> = (0..8).map(|i| b"lap-lap-".repeat(1_000 + i)).collect();
    thread::scope(|scope| {
        for (i, text) in texts.iter().enumerate() {
            scope.spawn(move || {
                for _ in 0..20 {
                    // each `lap-` begins one, but for the last
                    assert_eq!(LAP.count(text), 2 * (1_000 + i as u64) - 1);
                    assert!(LAP.find_iter(text).eq((0..text.len() - 7).step_by(4)));
                }
            });
        }
    });
}

#[test]
fn two_searches_of_one_mark_take_turns() {
    let mut both: [Finds; 2] = [LAP.find_iter(b"lap-lap-lap"), LAP.find_iter(b"..lap-lap")];
    let [one, other] = &mut both;
    assert_eq!((one.next(), other.next(), one.next(), other.next(), one.next()), (Some(0), Some(2), Some(4), None, None));
}

#[test]
fn what_threads_share_may_be_shared() {
    fn may<T: Send + Sync + Clone>() {}
    may::<Mark>();
    may::<Stream>();
    may::<Refusal>();
}

#[test]
fn marks_are_equal_where_word_and_engine_are() {
    let [a, b] = [Mark::new("ab").unwrap(), Mark::new(vec![b'a', b'b']).unwrap()];
    assert_eq!(a, b);
    assert_eq!(Mark::from_file(a.to_file().unwrap()).unwrap(), b);
    let all: HashSet<Mark> = [a.clone(), b, Mark::new("ba").unwrap(), a.engine(Engine::Turbo)].into();
    assert_eq!(all.len(), 3);
}

#[test]
fn a_mark_is_shown_in_one_short_line() {
    assert_eq!(format!("{:?}", Mark::new(b"\x0e.FIT\"").unwrap()), r#"Mark("\x0e.FIT\"", Auto)"#);
    let long = Mark::new([b'a'; 4_096]).unwrap().engine(Engine::Backward);
    assert_eq!(format!("{long:?}"), r#"Mark("aaaaaaaaaaaaaaaa" and 4080 more, Backward)"#);
    let mut stream = Stream::new("RIDE").unwrap();
    stream.take(b"..RIDE");
    assert_eq!(format!("{stream:?}"), r#"Stream("RIDE", 6 taken, 1 found)"#);
    assert!(format!("{:?}{:?}", LAP.find_iter(&[0; 9_999]), LAP.find_in(&[0; 9_999][..])).len() < 400);
}

#[test]
fn the_first_place_that_is_not_before_another() {
    let text = b"lap-lap-lap..lap-lap";
    for start in 0..text.len() + 3 {
        let plainly = LAP.find_iter(text).find(|at| *at >= start);
        assert_eq!(LAP.find_at(text, start), plainly);
    }
    assert_eq!(LAP.find_at(text, usize::MAX), None);
}

#[test]
fn finds_before_a_failing_read_are_told_then_the_error_then_nothing() {
    let text = b"lap-lap-lap-lap";
    for given in 0..text.len() {
        let mut finds = LAP.find_in(Failing(text, given));
        let before: Vec<u64> = finds.by_ref().map_while(Result::ok).collect();
        assert_eq!(before, LAP.find_iter(&text[..given]).map(|at| at as u64).collect::<Vec<_>>());
        assert_eq!(finds.read(), given as u64);
        assert!(finds.next().is_none() && finds.tally().unwrap().count == 0);
        assert_eq!(LAP.find_in(Failing(text, given)).tally().unwrap_err().kind(), ErrorKind::ConnectionReset);
    }
}

/// Gives a byte at a time.
struct Dripping<'a>(&'a [u8]);

impl Read for Dripping<'_> {
    fn read(&mut self, room: &mut [u8]) -> io::Result<usize> {
        (&mut self.0).take(1).read(room)
    }
}

#[test]
fn a_source_that_drips_does_no_harm() {
    let text = vec![0; 20_000];
    for m in [1, 2, 8, 9, 15, 16, 17, 64, 65, 1_024, 4_096] {
        let word = [&[1][..], &vec![0; m - 1]].concat();
        for mark in [Mark::new(&word).unwrap(), Mark::new(&word).unwrap().engine(Engine::Turbo), Mark::new(vec![0; m]).unwrap()] {
            let mut finds = mark.find_in(Dripping(&text));
            let found: Vec<u64> = finds.by_ref().map(Result::unwrap).collect();
            assert!(found.iter().copied().eq(mark.find_iter(&text).map(|at| at as u64)));
            assert!(finds.letters() <= 18 * text.len() as u64, "{m} letters: {}", finds.letters());
        }
    }
}

#[test]
fn a_short_mark_is_told_as_soon_as_it_is_there() {
    let mark = Mark::new("eightone").unwrap();
    let mut source = Dripping(b"..eightone..");
    assert_eq!(mark.find_in(&mut source).next().unwrap().unwrap(), 2);
    assert_eq!(source.0, b"..");
}

#[test]
fn a_source_that_boasts_is_an_error() {
    assert!(LAP.find_in(Boasting).next().unwrap().is_err());
    assert!(LAP.find_in(Boasting).tally().is_err());
}

#[test]
fn the_rest_of_a_source_can_be_counted() {
    let text = b"lap-".repeat(100_000);
    for handed_out in [0, 1, 16_384, 16_385, 99_998, 99_999] {
        let mut finds = LAP.find_in(&text[..]);
        assert_eq!(finds.by_ref().take(handed_out).count(), handed_out);
        assert_eq!(finds.tally().unwrap().count, 99_999 - handed_out as u64);
        assert_eq!(finds.read(), 400_000);
        assert!(finds.next().is_none());
    }
}

/// What an example prints. Cargo builds them with all tests; with this one alone they are asked for by `--examples`.
fn example(name: &str, words: &[&str]) -> String {
    let program = std::env::current_exe().unwrap().parent().unwrap().parent().unwrap().join("examples").join(name);
    let said = Command::new(program).args(words).output().expect("the examples are built");
    String::from_utf8(said.stdout).unwrap() + &String::from_utf8(said.stderr).unwrap()
}

#[test]
fn the_examples_do_what_they_say() {
    let folder = std::env::temp_dir().join(format!("marks-sharing-{}", std::process::id()));
    std::fs::create_dir_all(&folder).unwrap();
    let at = |name: &str| folder.join(name).to_str().unwrap().to_string();
    let text = b"....lap-".repeat(500_000);
    let laps = Mark::new("lap-").unwrap();
    std::fs::write(at("upload"), &text).unwrap();
    std::fs::write(at("lie.mark"), [0x01, 0xFF, 0xFF, 0xFF, 0xFF, 0x0F]).unwrap();
    for file in [laps.to_file(), laps.to_checked_file()] {
        std::fs::write(at("lap.mark"), file.unwrap()).unwrap();
        assert_eq!(example("service", &[&at("lap.mark"), &at("upload")]), format!("{}: 500000 marks, the first at 4\n", at("upload")));
    }
    let refused = "the file declares fewer than 2 letters, or more than 4,096 (8), at offset 1";
    assert_eq!(example("service", &[&at("lie.mark"), &at("upload")]), format!("service: {}: {refused}\n", at("lie.mark")));
    let places: Vec<String> = laps.find_iter(&text).map(|at| at.to_string()).collect();
    assert_eq!(example("pool", &["lap-", &at("upload"), "3"]).lines().collect::<Vec<_>>(), places);
    std::fs::remove_dir_all(&folder).unwrap();
}
