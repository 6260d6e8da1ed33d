//! Many scripts and records in one file: each piece is its kind, its length and its bytes.

use crate::script::{rehearse, LARGEST};
use crate::single::single;
use std::io::{self, Write};

/// The two kinds of piece; one of any other kind is passed over.
pub const SCRIPT: u8 = 0;
pub const RECORD: u8 = 1;
/// One byte more than is played; a longer piece ends the file.
pub const LONGEST: usize = LARGEST + 1;
/// How many pieces are played.
const PIECES: usize = 10_000_000;

/// The length is four bytes, the lowest first.
pub fn add(out: &mut Vec<u8>, kind: u8, piece: &[u8]) {
    out.push(kind);
    out.extend((piece.len() as u32).to_le_bytes());
    out.extend_from_slice(piece);
}

/// The pieces of a file, up to one that is cut short or too long.
pub fn pieces(mut bytes: &[u8]) -> impl Iterator<Item = (u8, &[u8])> {
    std::iter::from_fn(move || {
        let (&[kind, a, b, c, d], rest) = bytes.split_first_chunk()?;
        let length = u32::from_le_bytes([a, b, c, d]) as usize;
        if length > LONGEST {
            return None;
        }
        let (piece, rest) = rest.split_at_checked(length)?;
        bytes = rest;
        Some((kind, piece))
    })
}

/// Plays every piece in order and prints what `rehearse` or `single` prints of it.
pub fn replay(bytes: &[u8], sink: &mut impl Write) -> io::Result<()> {
    let mut out = Vec::new();
    for (kind, piece) in pieces(bytes).take(PIECES) {
        match kind {
            SCRIPT => rehearse(piece, sink)?,
            RECORD => {
                out.clear();
                single(piece, &mut out);
                sink.write_all(&out)?;
            }
            _ => {}
        }
    }
    Ok(())
}
