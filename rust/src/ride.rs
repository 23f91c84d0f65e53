//! A ride as its header tells of it.

/// The shortest header and the longest, in bytes: a header has one of these two lengths.
pub(crate) const SHORTEST_HEADER: usize = 12;
pub(crate) const LONGEST_HEADER: usize = 14;

/// How many bytes the check behind a ride's data has.
const CHECK: u64 = 2;

/// Where in a header the data's size stands, low byte first.
const SIZE: std::ops::Range<usize> = 4..8;

/// Whether a ride is all there. The value of each kind is its number in the list that [`entries::salvage`](crate::entries::salvage) fills.
#[derive(Clone, Copy, Debug, PartialEq, Eq, Hash)]
#[repr(u8)]
pub enum RideKind {
    /// The text ends before the ride does.
    Cut = 0,
    /// Header, data and check end within the text.
    Whole = 1,
}

/// A ride by its FIT header, listed by [`rides`](crate::rides()) and [`rides_in`](crate::rides_in).
///
/// A stranger may have written the header: nothing follows from what it declares but the kind, and that is right for the length of the text, whatever is
/// declared. A whole ride may have bytes in it that look like another's header, and then that is listed too. The check is not tested.
///
/// ```
/// use marks::{rides, Ride, RideKind};
///
/// let upload = b"..\x0c\x10\0\0\x03\0\0\0.FITabc##..";
/// let ride = rides(upload).next().unwrap();
/// assert_eq!(ride, Ride { start: 2, kind: RideKind::Whole, header: 12, declared: 3 });
/// // what is whole can be taken out
/// let bytes = &upload[ride.start as usize..][..ride.len_declared() as usize];
/// assert!(bytes.starts_with(b"\x0c") && bytes.ends_with(b"abc##"));
/// ```
#[derive(Clone, Copy, Debug, PartialEq, Eq, Hash)]
pub struct Ride {
    /// Where its header begins, counted from the first byte of the text.
    pub start: u64,
    /// Whether it is all there.
    pub kind: RideKind,
    /// How many bytes its header has, 12 or 14. All of them are in the text.
    pub header: u8,
    /// How many bytes of data its header declares, as it stands there; header and check are not among them.
    pub declared: u32,
}

impl Ride {
    /// The ride whose header, 12 bytes of it at least, begins at `start` of a text of so many bytes, which has all of the header.
    pub(crate) fn of(header: &[u8], start: u64, length: u64) -> Ride {
        let mut size = [0; 4];
        size.copy_from_slice(&header[SIZE]);
        let cut = Ride { start, kind: RideKind::Cut, header: header[0], declared: u32::from_le_bytes(size) };
        if cut.len_declared() > length - start {
            return cut;
        }
        Ride { kind: RideKind::Whole, ..cut }
    }

    /// Whether it is all there.
    #[must_use]
    pub fn is_whole(&self) -> bool {
        self.kind == RideKind::Whole
    }

    /// How many bytes the ride has by its header: the header, the data and the check. A whole one has so many behind its start; a cut one has fewer.
    ///
    /// ```
    /// let cut = marks::rides(b"\x0e\x10\0\0\xff\xff\xff\xff.FIT\0\0").next().unwrap();
    /// assert_eq!(cut.len_declared(), 14 + 0xffff_ffff + 2);
    /// ```
    #[must_use]
    pub fn len_declared(&self) -> u64 {
        u64::from(self.header) + u64::from(self.declared) + CHECK
    }
}
