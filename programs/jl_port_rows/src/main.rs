//! Calls of jl_port with the answers that are due: standard input has a row for each, `CALL WORDS => ANSWER`, and other
//! lines are passed over. A row that is answered otherwise is printed, and at the end how many rows there were and how
//! many of them differed.
#![tactic(auto)]

mod streams;

use anyhow::{Result, bail};
use jl_port::{
    InSource, MemSink, MemSource, OutSink, ReadRefusal, Same, Shelf, Sink, Source, Swapped,
    read_all, write_all,
};
use std::alloc::Global;
use streams::{BrokenReader, ClosedWriter};

fn main(rt: HostRuntime) -> Result<()> {
    let alloc = rt.alloc();
    let mut rows = 0u32;
    let mut differ = 0u32;
    for line in rt.lines(alloc) {
        let line = line?;
        if let Some((row, due)) = line.split_once(" => ") {
            rows = rows.wrapping_add(1);
            let given = answer(alloc, row)?;
            if given.as_str() != due {
                differ = differ.wrapping_add(1);
                println!(rt; "{row} => {given}, where {due} is due")?;
            }
        }
    }
    println!(rt; "{rows} rows, of which {differ} are answered otherwise")?;
    Ok(())
}

fn answer(alloc: Global, row: &str) -> Result<String> {
    let words: Vec<&str> = row.split(' ').collect(alloc)?;
    match words.as_slice() {
        ["read", length, limit, fails] => read(
            alloc,
            number(length)?,
            number(limit)?,
            number(fails)?,
        ),
        ["write", room, fails] => write(alloc, number(room)?, number(fails)?),
        ["reader"] => reader(alloc),
        ["writer"] => writer(alloc),
        ["same"] => same(alloc),
        ["swapped"] => swapped(alloc),
        _ => bail!("no call is written so: {row}"),
    }
}

fn number(word: &str) -> Result<u16> {
    Ok(word.parse::<u16>()?)
}

/// What is read of so many bytes in memory, at most `limit`, where the read with this number fails.
fn read(alloc: Global, length: u16, limit: u16, fails: u16) -> Result<String> {
    let bytes = vec![in alloc; 7u8; usize::from(length)]?;
    let mut source = MemSource::new(bytes, vec![in alloc; u64::from(fails)]?);
    read_of(alloc, &mut source, limit)
}

/// How many bytes are read of a source, or why none are.
fn read_of<S: Source>(alloc: Global, source: &mut S, limit: u16) -> Result<String> {
    let told = match read_all(alloc, source, usize::from(limit)) {
        Ok(bytes) => format!(in alloc; "{}", bytes.len())?,
        Err(refusal) => format!(in alloc; "{refusal:?}")?,
    };
    Ok(told)
}

/// How many of 28 bytes a sink took that takes ten in a write and so many in all, where the write with this number
/// fails.
fn write(alloc: Global, room: u16, fails: u16) -> Result<String> {
    let text = b"a sink that takes ten a call";
    let mut sink = MemSink::new(
        alloc,
        10,
        usize::from(room),
        vec![in alloc; u64::from(fails)]?,
    )?;
    let told = written_to(alloc, &mut sink, text)?;
    if !text.starts_with(sink.written()) {
        bail!("other bytes were written");
    }
    Ok(told)
}

/// Of how many bytes a sink tells that it took them.
fn written_to<K: Sink>(alloc: Global, sink: &mut K, text: &[u8]) -> Result<String> {
    let count = match write_all(sink, text) {
        Ok(()) => text.len(),
        Err(fault) => fault.written,
    };
    Ok(format!(in alloc; "{count}")?)
}

/// What is read first, and then, of a reader that fails between two texts.
fn reader(alloc: Global) -> Result<String> {
    let mut source = InSource::new(BrokenReader::new());
    let first = read_of(alloc, &mut source, 100)?;
    let second = read_of(alloc, &mut source, 100)?;
    Ok(format!(in alloc; "{first} {second}")?)
}

/// How many of five bytes are written first, and then, to a writer that fails after its first write; and of none.
fn writer(alloc: Global) -> Result<String> {
    let mut sink = OutSink::new(ClosedWriter::new());
    let first = written_to(alloc, &mut sink, b"abcde")?;
    let second = written_to(alloc, &mut sink, b"abcde")?;
    let third = written_to(alloc, &mut sink, b"")?;
    Ok(format!(in alloc; "{first} {second} {third}")?)
}

/// What a shelf lends before and after it was handed two units.
fn same(alloc: Global) -> Result<String> {
    let mut shelf = Same::new();
    let before = lent(alloc, &shelf)?;
    shelf.put(vec![in alloc; 1u16, 2]?);
    let after = lent(alloc, &shelf)?;
    Ok(format!(in alloc; "{before}{after}")?)
}

/// What a shelf lends that keeps another text than it was handed.
fn swapped(alloc: Global) -> Result<String> {
    let mut shelf = Swapped::new(vec![in alloc; 3u16]?);
    shelf.put(vec![in alloc; 1u16, 2]?);
    lent(alloc, &shelf)
}

/// The units that a shelf lends, in brackets.
fn lent<H: Shelf>(alloc: Global, shelf: &H) -> Result<String> {
    let mut all = String::from_str(alloc, "[")?;
    for unit in shelf.lend() {
        write!(all, " {unit}")?;
    }
    all.push_str(" ]")?;
    Ok(all)
}
