//! Listing rides: the entry and the face for Rust beside plain listing, on texts of 16 MiB, also such as a stranger would choose.

use crate::clock::{by_turns, ms};
use crate::plain_rides::{list, list_by, Lists};
use crate::rivals::memmem_from;
use crate::Random;
use marks::entries::salvage;
use marks::{rides, rides_in, RIDE_TABLES};

const TEXT: usize = 16 << 20;

/// A header of 12 or 14 bytes that declares so much data.
fn header(bytes: u8, declared: usize) -> Vec<u8> {
    let mut header = [&[bytes, 0x10, 0, 0][..], &(declared as u32).to_le_bytes(), b".FIT"].concat();
    header.resize(usize::from(bytes), 0);
    header
}

/// Rides of 40 kB one behind the other, with data of random bytes.
fn chained() -> Vec<u8> {
    let (mut random, data) = (Random(521288629), 40_000 - 16);
    let mut ride = || [header(14, data), random.bytes(data + 2, 256)].concat();
    (0..=TEXT / 40_000).flat_map(|_| ride()).take(TEXT).collect()
}

/// The texts, the random one first.
fn texts() -> [(&'static str, Vec<u8>); 6] {
    let over_and_over = |bytes: &[u8]| bytes.iter().copied().cycle().take(TEXT).collect::<Vec<u8>>();
    [
        ("random bytes", Random(362436069).bytes(TEXT, 256)),
        ("rides of 40 kB", chained()),
        ("`.FIT` over and over", over_and_over(b".FIT")),
        ("`FIT` over and over", over_and_over(b"FIT")),
        ("headers of 14 bytes, one behind the other", over_and_over(&header(14, 0))),
        ("headers of 12 bytes, every 6 bytes", over_and_over(b"\x0c\0.FIT")),
    ]
}

/// How many rides a text has, and seconds of each way to list them all, once they have all said the same.
fn race(text: &[u8]) -> (u64, [f64; 5]) {
    let mut tables = [0; RIDE_TABLES];
    let [mut ours, mut plain, mut other] = [(); 3].map(|()| Lists::new(TEXT / 4));
    let memmem = |at: usize| memmem_from(b".FIT", text, at);
    let mut runs: [&mut dyn FnMut() -> u64; 5] = [
        &mut || salvage(text, &mut tables, &mut ours.starts, &mut ours.kinds).expect("within the limits") as u64,
        &mut || rides(text).fold(0, |count, ride| count + u64::from(ride.start < TEXT as u64)),
        &mut || rides_in(text, TEXT as u64).fold(0, |count, ride| count + u64::from(ride.expect("a slice is read").start < TEXT as u64)),
        &mut || list(text, &mut plain),
        &mut || list_by(memmem, text, &mut other),
    ];
    let counts: Vec<u64> = runs.iter_mut().map(|run| run()).collect();
    assert_eq!(counts, [counts[0]; 5]);
    let times = by_turns(0.5, runs);
    assert!(ours.starts == plain.starts && ours.kinds == plain.kinds && ours.starts == other.starts && ours.kinds == other.kinds);
    (counts[0], times)
}

const HEAD: &str =
    "| Text | headers | salvage, ms | rides | rides_in | plain Rust | memmem | salvage / plain | salvage / salvage of random |";

pub fn listing_times() {
    println!("{HEAD}\n|{}", "---|".repeat(9));
    let (mut random, mut most) = (None, 0f64);
    for (name, text) in texts() {
        let (count, times) = race(&text);
        let [salvage, _, _, plain, _] = times;
        let to_random = salvage / *random.get_or_insert(salvage);
        most = most.max(to_random);
        let times = times.map(|took| ms(Some(took))).join(" | ");
        println!("| {name} | {count} | {times} | {:.2} | {to_random:.2} |", salvage / plain);
    }
    println!("\nThe slowest text takes {most:.2} times as long as the random one.");
}
