//! The making of a storacle's table beside that of the oracle's.

use crate::failure::{builds, random_words, us, Kind};
use marks::entries::storacle_build;
use marks::{storacle_table_room, LONGEST_STORACLE};

/// The lengths of the words.
const LENGTHS: [usize; 4] = [4, 16, 64, LONGEST_STORACLE];

/// The word of 128 letters with the most arrows that `tools/storacle-search 128 9999 1 5000000` finds, or as many letters of it.
const MANY_ARROWS: &[u8; LONGEST_STORACLE] = b"abcdefghijabcdefghijabcdgehfijacdbhgeaficjdhbaegfjichedbagfajcibehgb\
    daifcgjhadebjfhcbigaahhdihjejbfbbggcdjjgiecfeiidgdcceefddffk";

const KINDS: [Kind; 7] = [
    ("random, 2 letters", |m| random_words(m, 2)),
    ("random, 4 letters", |m| random_words(m, 4)),
    ("random, 20 letters", |m| random_words(m, 20)),
    ("random, 256 letters", |m| random_words(m, 256)),
    ("a, m times", |m| vec![vec![b'a'; m]]),
    ("ab over and over", |m| vec![b"ab".repeat(m / 2)]),
    ("many arrows", |m| vec![MANY_ARROWS[..m].to_vec()]),
];

pub fn build_times() {
    println!("| Word | m = {} |\n|{}", LENGTHS.map(|m| m.to_string()).join(" | "), "---|".repeat(1 + LENGTHS.len()));
    for (name, words_of) in KINDS {
        let times = LENGTHS.map(|m| builds(storacle_build, storacle_table_room(m), &words_of(m)));
        println!("| {name} | {} |", times.map(|[ours, base]| format!("{} ({:.1})", us(ours), ours / base)).join(" | "));
    }
    println!("\nMicroseconds of storacle_build, and in brackets how many times those of build.");
}
