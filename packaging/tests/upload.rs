// The installed crate, as another crate uses it: a mark in an upload, whole and in pieces.
use marks::{Mark, Refusal, Stream};

fn main() -> Result<(), Refusal> {
    let mark = Mark::new("RIDE")?;
    let places: Vec<_> = mark.find_iter(b"..RIDE..RIDE").collect();
    let mut stream = Stream::new("RIDE")?;
    let mut in_pieces = Vec::new();
    for piece in ["..RI", "DE..RIDE"] {
        in_pieces.extend(stream.take(piece.as_bytes()));
    }
    println!("{places:?}, in pieces {in_pieces:?}");
    Ok(())
}
