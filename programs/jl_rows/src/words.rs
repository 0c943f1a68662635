//! What the words of a row stand for, and how answers are written.
use crate::fault::Fault;
use jl_num::Num;
use jl_text::{Text, from_utf8, to_utf8};
use std::alloc::Global;

/// What the units before one begin.
#[derive(Drop)]
enum Begun {
    Nothing,
    Escape,
    /// So many digits are still to come, after those of this unit.
    Digits(u32, u16),
}

/// The units of a text in which `\n`, `\r`, `\t` and `\\` are as in JavaScript, `\uHHHH` is a unit, `\s` a space, and
/// `\e` nothing.
pub fn units_of(alloc: Global, written: &str) -> Result<Vec<u16>, Fault> {
    let mut units = Vec::new(alloc);
    let mut begun = Begun::Nothing;
    for unit in from_utf8(alloc, written.as_bytes())? {
        begun = match begun {
            Begun::Nothing if unit == 0x5C => Begun::Escape,
            Begun::Nothing => add(&mut units, unit)?,
            Begun::Escape if unit == 0x75 => Begun::Digits(4, 0),
            Begun::Escape if unit == 0x65 => Begun::Nothing,
            Begun::Escape => add(&mut units, escaped(unit))?,
            Begun::Digits(left, before) => {
                let made = (before << 4) | digit(unit);
                if left > 1 {
                    Begun::Digits(left - 1, made)
                } else {
                    add(&mut units, made)?
                }
            }
        };
    }
    Ok(units)
}

fn add(units: &mut Vec<u16>, unit: u16) -> Result<Begun, Fault> {
    units.push(unit)?;
    Ok(Begun::Nothing)
}

fn escaped(letter: u16) -> u16 {
    match letter {
        0x6E => 0x0A,
        0x72 => 0x0D,
        0x74 => 0x09,
        0x73 => 0x20,
        other => other,
    }
}

fn digit(unit: u16) -> u16 {
    let value = u8::try_from(unit)
        .ok()
        .and_then(|code| (code as char).to_digit(16));
    u16::try_from(value.unwrap_or(0)).unwrap_or(0)
}

pub fn text_of(alloc: Global, written: &str) -> Result<Text, Fault> {
    Ok(Text::from_units(alloc, units_of(alloc, written)?.as_slice())?)
}

/// So many times this unit.
pub fn repeated(alloc: Global, unit: &str, count: &str) -> Result<Vec<u16>, Fault> {
    let unit = units_of(alloc, unit)?
        .first()
        .copied()
        .ok_or(Fault::Unreadable)?;
    let count = size_of(count)?;
    if count > 4_000_000 {
        return Err(Fault::Unreadable);
    }
    Ok(vec![in alloc; unit; count]?)
}

/// The bytes between these units, or the other way round, each written in hexadecimal digits.
pub fn codes_of(alloc: Global, words: &[&str]) -> Result<Vec<u16>, Fault> {
    let mut codes = Vec::new(alloc);
    for word in words {
        codes.push(u16::from_str_radix(word, 16).ok().ok_or(Fault::Unreadable)?)?;
    }
    Ok(codes)
}

pub fn size_of(word: &str) -> Result<usize, Fault> {
    word.parse::<usize>().ok().ok_or(Fault::Unreadable)
}

/// A number, or `NaN`.
pub fn number_of(word: &str) -> Result<Num, Fault> {
    if word == "NaN" {
        return Ok(Num::NAN);
    }
    let number = word.parse::<i64>().ok().ok_or(Fault::Unreadable)?;
    Num::new(number).ok().ok_or(Fault::Unreadable)
}

pub fn shown_number(alloc: Global, number: Num) -> Result<String, Fault> {
    match number.value() {
        Some(n) => Ok(format!(in alloc; "{n}")?),
        None => Ok(String::from_str(alloc, "NaN")?),
    }
}

/// The units as UTF-8.
pub fn shown_units(alloc: Global, units: &[u16]) -> Result<String, Fault> {
    Ok(String::from_utf8_lossy(alloc, to_utf8(alloc, units)?.as_slice())?)
}

/// Words with spaces between them, or `nothing` where there are none.
pub fn shown_words<T: std::fmt::Display + Drop>(
    alloc: Global,
    words: Vec<T>,
) -> Result<String, Fault> {
    let mut all = String::new(alloc);
    for word in words {
        if !all.is_empty() {
            all.push(' ')?;
        }
        write!(all, "{word}")?;
    }
    if all.is_empty() {
        all.push_str("nothing")?;
    }
    Ok(all)
}
