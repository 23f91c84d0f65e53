//! The headers of rides in a text of any length, part by part. A part begins with the end of the one before it, one byte less than the longest header has: so
//! a header across a seam is whole in the later part. A short one may be whole in both, and is told with the part in which it ends first.

use crate::{
    entries,
    ride::{LONGEST_HEADER, SHORTEST_HEADER},
    RIDE_TABLES,
};

/// How many bytes two parts have in common.
pub(crate) const COMMON: usize = LONGEST_HEADER - 1;

/// Two headers begin so far from each other at least, as `.FIT` stands in both at the same place and does not overlap itself. So a list of a part's length
/// divided by this has room for each header in it, however a stranger sets them.
const LEAST_DISTANCE: usize = 4;

pub(crate) struct Headers {
    tables: [u16; RIDE_TABLES],
    starts: Vec<u32>,
    /// As the entry has them: of the part alone. Those of the text are decided with the ride.
    kinds: Vec<u8>,
    /// How many are listed, and how many of those were handed out.
    listed: usize,
    next: usize,
}

impl Headers {
    /// For parts of so many bytes at most.
    pub fn new(longest: usize) -> Headers {
        let most = room(longest);
        Headers { tables: [0; RIDE_TABLES], starts: vec![0; most], kinds: vec![0; most], listed: 0, next: 0 }
    }

    /// Lists the headers of a part, all but those that end within its first `known` bytes, which the part before had too.
    pub fn list(&mut self, part: &[u8], known: usize) {
        let listed = entries::salvage(part, &mut self.tables, &mut self.starts, &mut self.kinds);
        self.listed = listed.expect("a part and its tables are within the limits");
        let ends_before = |start: usize| start + usize::from(part[start]) <= known;
        self.next = self.starts[..self.listed].iter().take_while(|start| ends_before(**start as usize)).count();
    }

    /// Whether the next header is at hand.
    #[inline]
    pub fn is_ready(&self) -> bool {
        self.next < self.listed
    }

    /// Where in the part the next header begins.
    #[inline]
    pub fn next(&mut self) -> Option<usize> {
        if !self.is_ready() {
            return None;
        }
        self.next += 1;
        Some(self.starts[self.next - 1] as usize)
    }
}

/// How many headers fit in so many bytes at most.
fn room(bytes: usize) -> usize {
    bytes.checked_sub(SHORTEST_HEADER).map_or(0, |behind| behind / LEAST_DISTANCE + 1)
}

#[cfg(test)]
mod tests {
    use super::{room, Headers};

    /// Texts of the fewest bytes between headers that can be: one distance after the other, over and over.
    fn dense(distances: &[usize], bytes: usize) -> Vec<u8> {
        let mut text = vec![0; bytes];
        let mut start = 0;
        for distance in distances.iter().cycle() {
            if start + 12 > bytes {
                return text;
            }
            text[start] = 12;
            text[start + 8..start + 12].copy_from_slice(b".FIT");
            start += distance;
        }
        text
    }

    #[test]
    fn a_list_has_room_for_every_header() {
        for distances in [&[4, 12][..], &[5, 7], &[6], &[7], &[12]] {
            for bytes in 0..200 {
                let mut headers = Headers::new(bytes);
                headers.list(&dense(distances, bytes), 0);
                let every = distances.iter().cycle().scan(0, |at, distance| Some(std::mem::replace(at, *at + distance)));
                let every: Vec<usize> = every.take_while(|at| at + 12 <= bytes).collect();
                assert!(every.len() <= room(bytes));
                assert_eq!(std::iter::from_fn(|| headers.next()).collect::<Vec<_>>(), every, "{distances:?}, {bytes}");
            }
        }
    }
}
