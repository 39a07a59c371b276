//! Framing, which is the host's: each body with its length before it, as a varint. It is what frame.rs of minip2p does, written anew.

use std::fmt;

/// The largest body of a frame.
pub const MAX_FRAME: usize = pradulins::MAX_BODY;

/// A length that no frame may have.
#[derive(Debug, PartialEq, Eq)]
pub enum BadFrame {
    /// Above [`MAX_FRAME`], or above 64 bits.
    TooLarge,
    /// A varint with a last group that is 0.
    NotMinimal,
}

impl fmt::Display for BadFrame {
    fn fmt(&self, f: &mut fmt::Formatter<'_>) -> fmt::Result {
        match self {
            BadFrame::TooLarge => write!(f, "a frame above {MAX_FRAME} bytes"),
            BadFrame::NotMinimal => write!(f, "a length that is longer than it needs to be"),
        }
    }
}

impl std::error::Error for BadFrame {}

/// Puts a body with its length before it at the end of `out`.
pub fn put_frame(out: &mut Vec<u8>, body: &[u8]) {
    let mut length = body.len();
    while length >= 0x80 {
        out.push(length as u8 | 0x80);
        length >>= 7;
    }
    out.push(length as u8);
    out.extend_from_slice(body);
}

/// The length at the front and how many bytes it takes, or none while it is not all there.
fn length_of(bytes: &[u8]) -> Result<Option<(usize, usize)>, BadFrame> {
    let mut length = 0;
    for (i, byte) in bytes.iter().enumerate() {
        length |= ((byte & 0x7f) as usize) << (7 * i);
        if length > MAX_FRAME || i > 2 {
            return Err(BadFrame::TooLarge);
        }
        if byte & 0x80 == 0 {
            if *byte == 0 && i > 0 {
                return Err(BadFrame::NotMinimal);
            }
            return Ok(Some((length, i + 1)));
        }
    }
    Ok(None)
}

/// What came in over a link and was not taken yet.
#[derive(Default)]
pub struct Frames {
    bytes: Vec<u8>,
}

impl Frames {
    /// More bytes, cut anywhere.
    pub fn push(&mut self, bytes: &[u8]) {
        self.bytes.extend_from_slice(bytes);
    }

    /// The next body, or none while it is not all there.
    pub fn pop(&mut self) -> Result<Option<Vec<u8>>, BadFrame> {
        let Some((length, used)) = length_of(&self.bytes)? else { return Ok(None) };
        if self.bytes.len() < used + length {
            return Ok(None);
        }
        let body = self.bytes[used..used + length].to_vec();
        self.bytes.drain(..used + length);
        Ok(Some(body))
    }
}
