//! The rides of a text with what of each is there.

use super::text::{Part, Text};
use marks::{rides_in, Ride, RidesIn};
use std::io;

/// A ride, and where what is there of it ends: a whole one behind its check, any other before the next header that is listed, or with the text.
pub struct Span {
    pub ride: Ride,
    pub end: u64,
    /// What it is called where it is listed.
    pub kind: &'static str,
}

impl Span {
    /// How many bytes of the ride are there.
    pub fn there(&self) -> u64 {
        self.end - self.ride.start
    }
}

pub struct Spans<'a> {
    rides: RidesIn<Part<'a>>,
    length: u64,
    /// Whether a header that declares no data is taken for one whose size nobody has written.
    unsized_too: bool,
    /// The ride behind one that is not whole, which was asked for to see where that ends; or why it could not be read.
    ahead: Option<io::Result<Ride>>,
}

impl<'a> Spans<'a> {
    pub fn of(text: &'a Text, unsized_too: bool) -> Spans<'a> {
        Spans { rides: rides_in(text.part(0, text.length), text.length), length: text.length, unsized_too, ahead: None }
    }

    /// How many bytes have been read so far.
    pub fn read(&self) -> u64 {
        self.rides.read()
    }

    /// Where a ride ends whose size says nothing: what cannot be read is not there.
    fn next_start(&mut self) -> u64 {
        self.ahead = self.rides.next();
        match &self.ahead {
            Some(Ok(next)) => next.start,
            Some(Err(_)) => self.read(),
            None => self.length,
        }
    }
}

impl Iterator for Spans<'_> {
    type Item = io::Result<Span>;

    fn next(&mut self) -> Option<io::Result<Span>> {
        let ride = match self.ahead.take().or_else(|| self.rides.next())? {
            Ok(ride) => ride,
            Err(error) => return Some(Err(error)),
        };
        let (kind, end) = match (self.unsized_too && ride.declared == 0, ride.is_whole()) {
            (true, _) => ("unsized", self.next_start()),
            (_, false) => ("cut", self.next_start()),
            // a whole ride ends within the text, so this is no larger than its length
            _ => ("whole", ride.start + ride.len_declared()),
        };
        Some(Ok(Span { ride, end, kind }))
    }
}
