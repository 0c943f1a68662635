//! Calls of jl_text.
use crate::fault::Fault;
use crate::words::{codes_of, repeated, shown_units, shown_words, size_of, text_of, units_of};
use jl_text::{Lines, List, Text, TextFault, Utf8Fault, from_utf8, quote, to_utf8};
use std::alloc::Global;

pub fn answer(alloc: Global, call: &str, words: &[&str]) -> Result<String, Fault> {
    match call {
        "list" => listed(alloc, words),
        "from_utf8" => read(alloc, words),
        "to_utf8" => written(alloc, words),
        "quote" => shown_units(
            alloc,
            quote(alloc, codes_of(alloc, words)?.as_slice())?.as_slice(),
        ),
        _ => of_texts(alloc, call, words),
    }
}

fn of_texts(alloc: Global, call: &str, words: &[&str]) -> Result<String, Fault> {
    match words {
        [text] => of_text(alloc, call, units_of(alloc, text)?.as_slice()),
        [unit, count] if call == "from_units" => made(
            alloc,
            repeated(alloc, unit, count)?.as_slice(),
        ),
        [a, b] => of_two(alloc, call, text_of(alloc, a)?, text_of(alloc, b)?),
        [text, from, to] if call == "slice" => sliced(
            alloc,
            text_of(alloc, text)?,
            size_of(from)?,
            size_of(to)?,
        ),
        [unit, count, text] if call == "long_concat" => {
            let most = Text::from_units(alloc, repeated(alloc, unit, count)?.as_slice())?;
            shown(alloc, Text::concat(alloc, &most, &text_of(alloc, text)?))
        }
        [text, part, at] => found(
            alloc,
            call,
            text_of(alloc, text)?,
            text_of(alloc, part)?,
            size_of(at)?,
        ),
        _ => Err(Fault::Unreadable),
    }
}

/// A list of these words, whose first one is set to `first`, and from which the last one is taken.
fn listed(alloc: Global, words: &[&str]) -> Result<String, Fault> {
    let mut list = List::new(alloc);
    for word in words {
        list.push(*word)?;
    }
    if list.len() == 0 {
        return Err(Fault::Unreadable);
    }
    list.set(0, "first");
    let taken = list.pop().ok_or(Fault::Unreadable)?;
    let left = list.len();
    Ok(format!(in alloc; "{taken} of {left} and it: {:?}", list.items())?)
}

fn read(alloc: Global, words: &[&str]) -> Result<String, Fault> {
    let mut bytes = Vec::new(alloc);
    for code in codes_of(alloc, words)? {
        bytes.push(u8::try_from(code).ok().ok_or(Fault::Unreadable)?)?;
    }
    match from_utf8(alloc, bytes.as_slice()) {
        Ok(units) => shown_codes(alloc, units),
        Err(Utf8Fault::NotUtf8 { at }) => Ok(format!(in alloc; "no UTF-8 at {at}")?),
        Err(Utf8Fault::NoMemory) => Err(Fault::NoMemory),
    }
}

fn written(alloc: Global, words: &[&str]) -> Result<String, Fault> {
    let mut codes = Vec::new(alloc);
    for byte in to_utf8(alloc, codes_of(alloc, words)?.as_slice())? {
        codes.push(u16::from(byte))?;
    }
    shown_codes(alloc, codes)
}

fn shown_codes(alloc: Global, codes: Vec<u16>) -> Result<String, Fault> {
    let mut words = Vec::new(alloc);
    for code in codes {
        words.push(format!(in alloc; "{code:x}")?)?;
    }
    shown_words(alloc, words)
}

fn of_text(alloc: Global, call: &str, units: &[u16]) -> Result<String, Fault> {
    match call {
        "share" => shown_units(alloc, Text::from_units(alloc, units)?.share(alloc)?.units()),
        "lines" => positions(alloc, units),
        _ => Err(Fault::Unreadable),
    }
}

/// The line and the column of each position, from the first one to the end.
fn positions(alloc: Global, units: &[u16]) -> Result<String, Fault> {
    if units.len() > 100 {
        return Err(Fault::Unreadable);
    }
    let lines = Lines::new(alloc, units)?;
    let mut words = Vec::new(alloc);
    for at in 0..=units.len() {
        let (line, column) = lines.line_col(at as u32);
        words.push(format!(in alloc; "{line}:{column}")?)?;
    }
    shown_words(alloc, words)
}

/// How many units the text has.
fn made(alloc: Global, units: &[u16]) -> Result<String, Fault> {
    match Text::from_units(alloc, units) {
        Ok(text) => Ok(format!(in alloc; "{}", text.units().len())?),
        Err(TextFault::TooLong) => Ok(String::from_str(alloc, "too long")?),
        Err(TextFault::NoMemory) => Err(Fault::NoMemory),
    }
}

fn shown(alloc: Global, outcome: Result<Text, TextFault>) -> Result<String, Fault> {
    match outcome {
        Ok(text) => shown_units(alloc, text.units()),
        Err(TextFault::TooLong) => Ok(String::from_str(alloc, "too long")?),
        Err(TextFault::NoMemory) => Err(Fault::NoMemory),
    }
}

fn of_two(alloc: Global, call: &str, a: Text, b: Text) -> Result<String, Fault> {
    match call {
        "concat" => shown(alloc, Text::concat(alloc, &a, &b)),
        "compare" => Ok(format!(in alloc; "{:?}", Text::compare(&a, &b))?),
        _ => Err(Fault::Unreadable),
    }
}

fn sliced(alloc: Global, text: Text, from: usize, to: usize) -> Result<String, Fault> {
    if from > to || to > text.units().len() {
        return Err(Fault::Unreadable);
    }
    shown_units(alloc, text.slice(alloc, from, to)?.units())
}

fn found(alloc: Global, call: &str, text: Text, part: Text, at: usize) -> Result<String, Fault> {
    let found = match call {
        "find" => text.find(&part, at),
        "find_last" => text.find_last(&part, at),
        _ => return Err(Fault::Unreadable),
    };
    match found {
        Some(at) => Ok(format!(in alloc; "{at}")?),
        None => Ok(String::from_str(alloc, "none")?),
    }
}
