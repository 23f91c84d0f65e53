//! Finding marks in broken ride files: a safe face of the proved library.
//!
//! A [`Mark`] is a word of 1 to 4,096 bytes. It is made from the word itself or from a saved file, and can be looked for in any number of texts of any length,
//! by any number of threads at a time.
//!
//! ```
//! use marks::Mark;
//!
//! let mark = Mark::new("aba")?;
//! assert_eq!(mark.find_iter(b"ababa").collect::<Vec<_>>(), [0, 2]);
//!
//! let file = mark.to_file()?;
//! let again = Mark::from_file(&file)?;
//! assert_eq!(again.word(), b"aba");
//! assert_eq!(again.count(b"xxabaxx"), 1);
//! # Ok::<(), marks::Refusal>(())
//! ```
//!
//! The time is linear whatever the text, also where a stranger chose it: a mark leaves most bytes of most texts unread, and where one turns out to be hostile
//! it goes over to a search that reads at most two letters for each. That is [`Engine::Auto`]; another [`Engine`] can be asked for by name.
//!
//! A text that can be read need not be in memory: [`Mark::find_in`] takes files, sockets, and all that can be read. A [`Stream`] is for a text that is handed
//! over in pieces, and for words of up to 64 bytes. It takes one piece after the other and keeps none, so that it can wait anywhere, on another machine too.
//! It looks at every byte, going forward, so its time is linear as well.
//!
//! ```
//! use marks::Stream;
//!
//! let mut stream = Stream::new(b"aba")?;
//! let mut finds = Vec::new();
//! for piece in [&b"ab"[..], b"ab", b"a"] {
//!     finds.extend(stream.take(piece));
//! }
//! assert_eq!(finds, [0, 2]);
//! # Ok::<(), marks::Refusal>(())
//! ```
//!
//! A ride file that was cut, or several in one upload, are listed by their headers: [`rides()`] over bytes, [`rides_in`] over what can be read. Each [`Ride`]
//! is whole or cut, by the size that its header declares, and that is all that the size is believed for.
//!
//! ```
//! use marks::{rides, RideKind};
//!
//! // a header of 12 bytes, three bytes of data and a check of two; then a ride of which all but the header is lost
//! let upload = b"\x0c\x10\0\0\x03\0\0\0.FITabc##\x0c\x10\0\0\xff\xff\xff\xff.FIT";
//! let found: Vec<_> = rides(upload).map(|ride| (ride.start, ride.kind, ride.declared)).collect();
//! assert_eq!(found, [(0, RideKind::Whole, 3), (17, RideKind::Cut, 0xffff_ffff)]);
//! ```
//!
//! What is refused is refused with a number of one table, [`Refusal`]; nothing panics, and no declared number is acted on before it is
//! checked. A refused file comes with the offset at which it is broken, in a [`LoadError`]. [`entries`] has the fifteen entries themselves,
//! over slices that the caller lends.

#![deny(unsafe_code)]
#![warn(missing_docs)]

mod engine;
pub mod entries;
mod finds;
mod finds_in;
mod headers;
mod load_error;
mod mark;
mod parts;
mod refusal;
mod ride;
mod rides;
mod rides_in;
mod search;
mod shown;
mod stream;
mod taken;

pub use engine::Engine;
pub use entries::{FailureTally, Tally};
pub use finds::Finds;
pub use finds_in::FindsIn;
pub use load_error::LoadError;
pub use mark::Mark;
pub use refusal::Refusal;
pub use ride::{Ride, RideKind};
pub use rides::{rides, Rides};
pub use rides_in::{rides_in, RidesIn};
pub use stream::{Each, Stream};
pub use taken::Taken;

/// The longest word, in bytes.
pub const LONGEST_WORD: usize = 4_096;

/// The longest word that [`entries::storacle_build`] takes, in bytes.
pub const LONGEST_STORACLE: usize = 128;

/// The shortest word that is saved, in bytes. A shorter one can be looked for all the same.
pub const LEAST_SAVED: usize = 2;

/// The longest text that one call of an entry takes, in bytes, or one searcher in all. [`Mark`], [`Stream`] and [`rides()`] take longer ones, in parts.
pub const LONGEST_TEXT: usize = 16_777_216;

/// The longest word of a [`Stream`], in bytes.
pub const LONGEST_STREAMED: usize = 64;

/// How many bytes a searcher has, which [`entries::open`] makes and [`entries::take`] takes pieces with.
pub const SEARCHER: usize = 134;

/// So many bytes are room enough for the file of any word, in either edition.
pub const LONGEST_FILE: usize = 5 * LONGEST_WORD + 3;

/// How many entries [`entries::salvage`] takes for the table of `.FIT`.
pub const RIDE_TABLES: usize = table_room(4);

/// How many entries the table of a word of m letters takes.
#[must_use]
pub const fn table_room(m: usize) -> usize {
    6 * (m + 1)
}

/// How many entries the table of the failure oracle of a word of m letters takes.
#[must_use]
pub const fn failure_table_room(m: usize) -> usize {
    10 * (m + 1)
}

/// How many entries the table of the storacle of a word of m letters takes.
#[must_use]
pub const fn storacle_table_room(m: usize) -> usize {
    (m + 1) * (m + 6)
}

/// How many words of 64 bits the sets take in the compact rows of a word of m letters.
#[must_use]
pub const fn compact_sets_room(m: usize) -> usize {
    4 * (m + 1)
}

/// How many entries the targets take in the compact rows of a word of m letters.
#[must_use]
pub const fn compact_targets_room(m: usize) -> usize {
    10 * (m + 1)
}

/// The README's programs in Rust, compiled and run with the examples here.
#[cfg(doctest)]
#[doc = include_str!("../../README.md")]
struct Readme;
