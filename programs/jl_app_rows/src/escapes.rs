//! How texts and bytes are written in a row.
use crate::fault::Fault;
use std::alloc::Global;

/// Where a byte of what is written stands.
#[derive(Clone, Copy)]
enum Place {
    Text,
    /// After a backslash.
    Escape,
    /// Among the hexadecimal digits of a byte, after the first one if that was there.
    Byte(Option<u8>),
    /// In the number that tells how often a piece stands.
    Times(u32),
    /// In a piece that stands so often, and begins at this byte of what is made.
    Piece(u32, usize),
}

/// The bytes of a text in which `\n`, `\r` and `\\` are as in JavaScript, `\xHH` is a byte, `\s` a space, `\e` nothing,
/// and `\{COUNT*PIECE}` that often the piece, which has neither escapes nor a `}`.
pub fn bytes_of(alloc: Global, written: &str) -> Result<Vec<u8>, Fault> {
    let mut bytes = Vec::new(alloc);
    let mut place = Place::Text;
    for byte in written.as_bytes() {
        place = next(alloc, &mut bytes, place, *byte)?;
    }
    match place {
        Place::Text => Ok(bytes),
        _ => Err(Fault::Unreadable),
    }
}

/// Takes one more byte of what is written, and gives where the next one stands.
fn next(alloc: Global, bytes: &mut Vec<u8>, place: Place, byte: u8) -> Result<Place, Fault> {
    match place {
        Place::Text if byte == b'\\' => Ok(Place::Escape),
        Place::Text => add(bytes, byte),
        Place::Escape => after_backslash(bytes, byte),
        Place::Byte(None) => Ok(Place::Byte(Some(digit(byte)?))),
        Place::Byte(Some(high)) => add(bytes, (high << 4) | digit(byte)?),
        Place::Times(times) if byte == b'*' => Ok(Place::Piece(times, bytes.len())),
        Place::Times(times) => {
            let digit = u32::from(digit(byte)?);
            Ok(Place::Times(times.saturating_mul(10).saturating_add(digit)))
        }
        Place::Piece(times, from) if byte == b'}' => repeat(alloc, bytes, times, from),
        Place::Piece(times, from) => {
            bytes.push(byte)?;
            Ok(Place::Piece(times, from))
        }
    }
}

fn add(bytes: &mut Vec<u8>, byte: u8) -> Result<Place, Fault> {
    bytes.push(byte)?;
    Ok(Place::Text)
}

/// What stands after a backslash.
fn after_backslash(bytes: &mut Vec<u8>, letter: u8) -> Result<Place, Fault> {
    match letter {
        b'n' => add(bytes, b'\n'),
        b'r' => add(bytes, b'\r'),
        b's' => add(bytes, b' '),
        b'\\' => add(bytes, b'\\'),
        b'e' => Ok(Place::Text),
        b'x' => Ok(Place::Byte(None)),
        b'{' => Ok(Place::Times(0)),
        _ => Err(Fault::Unreadable),
    }
}

fn digit(letter: u8) -> Result<u8, Fault> {
    let value = (letter as char).to_digit(16).ok_or(Fault::Unreadable)?;
    u8::try_from(value).ok().ok_or(Fault::Unreadable)
}

/// Adds what begins at this byte so often that it stands `times` times.
fn repeat(alloc: Global, bytes: &mut Vec<u8>, times: u32, from: usize) -> Result<Place, Fault> {
    let piece = Vec::from_slice(alloc, bytes.get(from..).ok_or(Fault::Unreadable)?)?;
    for _time in 1..times {
        bytes.extend_from_slice(piece.as_slice())?;
    }
    Ok(Place::Text)
}

/// Bytes as a row has them: `\n`, `\r` and `\\` in place of these, and `\e` where there are none.
pub fn row_text(alloc: Global, bytes: &[u8]) -> Result<String, Fault> {
    let mut text = String::new(alloc);
    for letter in String::from_utf8_lossy(alloc, bytes)?.chars() {
        match letter {
            '\n' => text.push_str("\\n")?,
            '\r' => text.push_str("\\r")?,
            '\\' => text.push_str("\\\\")?,
            other => text.push(other)?,
        }
    }
    if text.is_empty() {
        text.push_str("\\e")?;
    }
    Ok(text)
}
