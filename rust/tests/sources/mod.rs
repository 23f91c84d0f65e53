//! Sources that fail, or say what is not so.
use std::io::{self, ErrorKind, Read};

/// Gives so many bytes of a text, then fails once, then would go on.
pub struct Failing<'a>(pub &'a [u8], pub usize);

impl Read for Failing<'_> {
    fn read(&mut self, room: &mut [u8]) -> io::Result<usize> {
        if self.1 == 0 {
            self.1 = usize::MAX;
            return Err(ErrorKind::ConnectionReset.into());
        }
        let given = (&mut self.0).take(self.1 as u64).read(room)?;
        self.1 -= given;
        Ok(given)
    }
}

/// Says that it read more than it was asked for.
pub struct Boasting;

impl Read for Boasting {
    fn read(&mut self, room: &mut [u8]) -> io::Result<usize> {
        Ok(room.len() + 1)
    }
}
