//! The rides in texts of any length, and in what sources give: what must be listed is computed plainly, from the words of the rule.
mod fit;
mod sources;

use fit::{header, listed, pieces_of_headers, records, ride, Listed, Random};
use marks::{rides, rides_in, Ride, RideKind};
use sources::{Boasting, Failing};
use std::io::{self, ErrorKind, Read};

/// The parts of a text, and of what a source gives that fills the room which it is lent, meet 13 bytes behind multiples of this.
const PART: usize = 1 << 18;

fn plain(ride: Ride) -> Listed {
    (ride.start, ride.kind == RideKind::Whole, ride.header, ride.declared)
}

/// Gives so many bytes at a time, and is interrupted before each.
struct Slow<'a>(&'a [u8], usize, bool);

impl Read for Slow<'_> {
    fn read(&mut self, room: &mut [u8]) -> io::Result<usize> {
        self.2 = !self.2;
        if self.2 {
            return Err(ErrorKind::Interrupted.into());
        }
        (&mut self.0).take(self.1 as u64).read(room)
    }
}

fn from_source(source: impl Read, length: usize) -> Vec<Listed> {
    rides_in(source, length as u64).map(|ride| plain(ride.unwrap())).collect()
}

/// Two lists are the same. They may be long, so only where they differ is told.
#[track_caller]
fn same(told: Vec<Listed>, must: &[Listed], how: &str) {
    let place = told.iter().zip(must).take_while(|(one, other)| one == other).count();
    assert!(told == must, "{how}, {} rides of {}: {:?}, {:?}", told.len(), must.len(), told.get(place), must.get(place));
}

/// Both ways to list have exactly these.
#[track_caller]
fn lists(text: &[u8], must: &[Listed]) {
    same(rides(text).map(plain).collect(), must, "a text");
    same(from_source(text, text.len()), must, "a source");
}

/// The same, also where a source gives so many bytes at a time.
#[track_caller]
fn lists_as_it_must(text: &[u8], at_a_time: &[usize]) {
    let must = listed(text);
    lists(text, &must);
    for bytes in at_a_time {
        same(from_source(Slow(text, *bytes, false), text.len()), &must, &format!("{bytes} at a time"));
    }
}

#[test]
fn chained_rides_cut_at_every_byte() {
    let datas = [records(9), Vec::new(), records(1), b"x".to_vec(), records(20)];
    for first in [12, 14] {
        let headers = [first, 26 - first, 14, 12, first];
        let chain: Vec<Vec<u8>> = headers.iter().zip(&datas).map(|(bytes, data)| ride(*bytes, data)).collect();
        let text = chain.concat();
        for cut in 0..=text.len() {
            let (mut must, mut start) = (Vec::new(), 0);
            for (i, ride) in chain.iter().enumerate() {
                if start + usize::from(headers[i]) <= cut {
                    must.push((start as u64, start + ride.len() <= cut, headers[i], datas[i].len() as u32));
                }
                start += ride.len();
            }
            lists(&text[..cut], &must);
            assert_eq!(listed(&text[..cut]), must);
        }
    }
}

#[test]
fn a_size_is_believed_for_the_kind_alone() {
    // as large as can be; those that wrap where the sum is kept in 32 bits; around what is there
    let huge = [u32::MAX, u32::MAX - 1, u32::MAX - 13, u32::MAX - 14, u32::MAX - 15, u32::MAX - 16, 1 << 31, 1 << 24];
    for behind in [0, 1, 2, 3, 100, 300] {
        for declared in huge.into_iter().chain(0..400) {
            for bytes in [12, 14] {
                let text = [vec![0; 5], header(bytes, declared), vec![0; behind]].concat();
                lists(&text, &[(5, u64::from(declared) + 2 <= behind as u64, bytes, declared)]);
            }
        }
    }
}

#[test]
fn what_a_ride_declares_with_its_header_and_check() {
    let of = |text: &[u8]| rides(text).map(|ride| (ride.is_whole(), ride.len_declared())).collect::<Vec<_>>();
    assert_eq!(of(&ride(12, b"abc")), [(true, 17)]);
    assert_eq!(of(&ride(14, &[])), [(true, 16)]);
    assert_eq!(of(&header(14, u32::MAX)), [(false, 4_294_967_311)]);
}

#[test]
fn only_what_begins_with_12_or_14_and_is_wholly_there_is_a_header() {
    for first in 0..=255 {
        for bytes in 0..=17 {
            let mut text = [&[first][..], &header(14, 0)[1..], b"###"].concat();
            text.truncate(bytes);
            let is_header = (first == 12 || first == 14) && usize::from(first) <= bytes;
            let must = is_header.then_some((0, usize::from(first) + 2 <= bytes, first, 0));
            lists(&text, must.as_slice());
        }
    }
    // `.FIT` before the eighth byte, whatever stands before it
    for at in 0..8 {
        lists(&[&vec![12; at][..], b".FIT", &[12; 40]].concat(), &[]);
    }
}

#[test]
fn headers_in_the_data_of_a_ride_are_listed_too() {
    let inner = ride(12, &records(1));
    let data = [b"..".to_vec(), inner.clone(), header(14, u32::MAX), records(2)].concat();
    let text = [ride(14, &data), ride(12, &inner)].concat();
    let outer = data.len() as u32;
    let second = 16 + data.len() as u64;
    let must = [
        (0, true, 14, outer),
        (16, true, 12, 28),
        (16 + inner.len() as u64, false, 14, u32::MAX),
        (second, true, 12, inner.len() as u32),
        (second + 12, true, 12, 28),
    ];
    lists(&text, &must);
    lists_as_it_must(&text, &[1, 2, 5]);
}

#[test]
fn dense_texts() {
    lists(&b".FIT".repeat(5_000), &[]);
    lists_as_it_must(&b"\x0c.FIT".repeat(3_000), &[1, 7]);
    lists_as_it_must(&b"\x0c\x0e\x0c\x0e.FIT".repeat(3_000), &[1, 7]);
    lists_as_it_must(&b"\x0c\x0e\x0c\x0e.FIT.FIT".repeat(3_000), &[1, 7]);
    lists_as_it_must(&header(12, 0).repeat(3_000), &[1, 7]);
    lists_as_it_must(&header(14, 7).repeat(3_000), &[1, 7]);
    // as near to each other as headers can stand, 6 bytes apart all along: `.FIT`, a byte, and one that begins a header
    let densest = b"\x0c\0.FIT".repeat(3_000);
    assert_eq!(listed(&densest).len(), 2_999);
    lists_as_it_must(&densest, &[1, 7]);
}

#[test]
fn pieces_of_headers_in_any_order() {
    let mut random = Random(2463534242);
    for round in 0..300 {
        let text = pieces_of_headers(&mut random, round % 60);
        lists_as_it_must(&text, &[1, 2, 3, 12, 13, 14, 15, 100]);
    }
}

/// Around each seam of parts up to beyond 16 MiB stands one header, from 40 bytes before the seam to 40 behind it; then the same with two that overlap.
#[test]
fn no_ride_is_lost_or_doubled_at_a_seam() {
    let length = (16 << 20) + 20 * PART;
    for one in [header(12, 3), header(14, 3), b"\x0c\0\0\0\x0e\0\0\0.FIT.FIT##".to_vec(), b"\x0e\0\0\0\0\0\x0c\0.FIT##.FIT".to_vec()] {
        let mut text = vec![0; length];
        for seam in 1..length / PART {
            let start = seam * PART + seam % 81 - 40;
            text[start..start + one.len()].copy_from_slice(&one);
        }
        assert!(listed(&text).len() >= 83);
        lists_as_it_must(&text, &[]);
    }
}

#[test]
fn the_kind_is_decided_by_the_whole_length_and_not_by_the_part() {
    let length = (17 << 20) + 5;
    for (start, bytes) in [(0, 12), (7, 14), (PART - 13, 12), (PART, 14), ((16 << 20) - 3, 12)] {
        for (more, whole) in [(0, true), (1, false)] {
            let mut text = vec![0; length];
            let declared = (length - start - usize::from(bytes) - 2 + more) as u32;
            text[start..start + usize::from(bytes)].copy_from_slice(&header(bytes, declared));
            lists(&text, &[(start as u64, whole, bytes, declared)]);
        }
    }
}

#[test]
fn a_long_text_of_headers_alone() {
    for (unit, apart) in [(&b"\x0c\0.FIT"[..], 6), (&header(14, 0), 14)] {
        let text = unit.repeat((17 << 20) / unit.len());
        let must = listed(&text);
        assert!(must.len() > text.len() / apart - 3);
        lists(&text, &must);
    }
}

/// Gives so many zeros, then what is behind them.
struct Far<'a>(u64, &'a [u8]);

impl Read for Far<'_> {
    fn read(&mut self, room: &mut [u8]) -> io::Result<usize> {
        let zeros = self.0.min(room.len() as u64) as usize;
        if zeros == 0 {
            return self.1.read(room);
        }
        room[..zeros].fill(0);
        self.0 -= zeros as u64;
        Ok(zeros)
    }
}

#[test]
fn rides_beyond_4_gib() {
    let (before, behind) = ((1 << 32) + 5, [ride(14, b"abc"), header(12, 9)].concat());
    let told: Vec<Listed> = rides_in(Far(before, &behind), before + 31).map(|ride| plain(ride.unwrap())).collect();
    assert_eq!(told, [(before, true, 14, 3), (before + 19, false, 12, 9)]);
}

#[test]
fn nothing_behind_the_length_is_read() {
    let text = [ride(12, b"abc"), ride(14, b"def")].concat();
    for length in 0..text.len() {
        let mut source = &text[..];
        assert_eq!(from_source(&mut source, length), listed(&text[..length]));
        assert_eq!(source.len(), text.len() - length);
    }
}

#[test]
fn a_source_that_ends_before_its_length_is_an_error_behind_its_rides() {
    let text = ride(12, b"abc");
    for length in [18, 1_000, u64::MAX] {
        let mut told = rides_in(&text[..], length);
        assert_eq!(plain(told.next().unwrap().unwrap()), (0, true, 12, 3));
        assert_eq!(told.next().unwrap().unwrap_err().kind(), ErrorKind::UnexpectedEof);
        assert!(told.next().is_none() && told.next().is_none());
        assert_eq!(told.read(), 17);
    }
    // it is whole by the length that was said, which the error takes back
    let mut told = rides_in(&text[..15], 17);
    assert!(told.next().unwrap().unwrap().is_whole());
    assert_eq!(told.next().unwrap().unwrap_err().to_string(), "the source ended before its length, 17 bytes");
}

#[test]
fn rides_before_a_failing_read_are_told_then_the_error_then_nothing() {
    let text = [ride(12, b"abc"), ride(14, b"def"), ride(12, b"")].concat();
    for given in 0..text.len() {
        let mut told = rides_in(Failing(&text, given), text.len() as u64);
        let before: Vec<u64> = told.by_ref().map_while(Result::ok).map(|ride| ride.start).collect();
        assert_eq!(before, listed(&text[..given]).iter().map(|ride| ride.0).collect::<Vec<_>>());
        assert_eq!(told.read(), given as u64);
        assert!(told.next().is_none());
    }
    let mut failing = rides_in(Failing(&text, 5), text.len() as u64);
    assert_eq!(failing.next().unwrap().unwrap_err().kind(), ErrorKind::ConnectionReset);
}

#[test]
fn a_source_that_boasts_is_an_error() {
    for length in [1, 5, 1_000_000, u64::MAX] {
        assert!(rides_in(Boasting, length).next().unwrap().is_err());
    }
}

#[test]
fn a_ride_is_told_as_soon_as_its_header_is_there() {
    let text = [header(12, 90), vec![0; 400]].concat();
    let mut source = Slow(&text, 1, false);
    let mut told = rides_in(&mut source, text.len() as u64);
    assert!(!told.is_ready());
    assert_eq!(plain(told.next().unwrap().unwrap()), (0, true, 12, 90));
    assert!(!told.is_ready() && told.read() <= 13);
}

#[test]
fn what_lists_is_shown_in_one_short_line_and_may_go_to_another_thread() {
    fn may<T: Send + Sync>(_: &T) {}
    let text = vec![0; 9_999];
    let (of_text, of_source) = (rides(&text), rides_in(&text[..], 9_999));
    may(&of_text);
    may(&of_source);
    assert!(format!("{of_text:?}{of_source:?}").len() < 200);
    assert_eq!(format!("{:?}", rides(&header(12, 3)).next().unwrap()), "Ride { start: 0, kind: Cut, header: 12, declared: 3 }");
}
