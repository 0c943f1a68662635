//! Sources whose reads fail, and sinks that take little, or whose writes fail.
use crate::commands::{command_of, run, source_of, told, wide_sink, written};
use crate::escapes::bytes_of;
use crate::fault::Fault;
use jl_app::Status;
use jl_port::{MemSink, MemSource, Same};
use std::alloc::Global;
use std::hash::RandomState;

/// `FAILS [WORDS] TEXT`: the status of a command that reads this text, and what it writes, where the read with this
/// number fails, from 1.
pub fn source(alloc: Global, keys: RandomState, row: &str) -> Result<String, Fault> {
    let (fails, row) = row.split_once(' ').ok_or(Fault::Unreadable)?;
    let command = command_of(alloc, row)?;
    let bytes = bytes_of(alloc, command.rest)?;
    let mut source = MemSource::new(bytes, one(alloc, number(fails)?)?);
    let mut sink = wide_sink(alloc)?;
    let mut shelf = Same::new();
    let status = run(
        alloc,
        keys,
        &command.words,
        &mut source,
        &mut sink,
        &mut shelf,
    )?;
    told(alloc, status, &sink)
}

/// `MOST ROOM FAILS [WORDS] TEXT`: the status of a command that reads this text, and what it writes, where a write
/// takes at most so many bytes, there is room for so many, and the write with this number fails, from 1.
pub fn sink(alloc: Global, keys: RandomState, row: &str) -> Result<String, Fault> {
    let (most, row) = row.split_once(' ').ok_or(Fault::Unreadable)?;
    let (room, row) = row.split_once(' ').ok_or(Fault::Unreadable)?;
    let (fails, row) = row.split_once(' ').ok_or(Fault::Unreadable)?;
    let command = command_of(alloc, row)?;
    let most = size(most)?;
    if most == 0 {
        return Err(Fault::Unreadable);
    }
    let mut sink = MemSink::new(alloc, most, size(room)?, one(alloc, number(fails)?)?)?;
    let bytes = bytes_of(alloc, command.rest)?;
    let status = run_into(alloc, keys, &command.words, bytes, &mut sink)?;
    told(alloc, status, &sink)
}

/// `[WORDS] TEXT`: how many bytes a command writes that reads this text, and how often it tells of the failure with
/// just the bytes before written, where a sink takes one byte in a write and each write fails in turn.
pub fn each_write(alloc: Global, keys: RandomState, row: &str) -> Result<String, Fault> {
    let command = command_of(alloc, row)?;
    let bytes = bytes_of(alloc, command.rest)?;
    let whole = written(alloc, keys, &command.words, bytes)?;
    let mut told = 0u32;
    for before in 0..whole.len() {
        let bytes = bytes_of(alloc, command.rest)?;
        if tells(alloc, keys, &command.words, bytes, &whole, before)? {
            told = told.saturating_add(1);
        }
    }
    Ok(format!(in alloc; "{} {told}", whole.len())?)
}

/// Whether a command whose write fails after so many bytes tells so, with just these bytes of the whole answer written.
fn tells(
    alloc: Global,
    keys: RandomState,
    words: &[&str],
    bytes: Vec<u8>,
    whole: &[u8],
    before: usize,
) -> Result<bool, Fault> {
    let fails = (before as u64).saturating_add(1);
    let mut sink = MemSink::new(alloc, 1, whole.len(), one(alloc, fails)?)?;
    let status = run_into(alloc, keys, words, bytes, &mut sink)?;
    let told = sink.written();
    Ok(status == Status::WriteFault && told.len() == before && whole.starts_with(told))
}

/// The status of a command over this sink, where the source holds these bytes.
fn run_into(
    alloc: Global,
    keys: RandomState,
    words: &[&str],
    bytes: Vec<u8>,
    sink: &mut MemSink,
) -> Result<Status, Fault> {
    let mut source = source_of(alloc, bytes);
    let mut shelf = Same::new();
    run(alloc, keys, words, &mut source, sink, &mut shelf)
}

fn one(alloc: Global, number: u64) -> Result<Vec<u64>, Fault> {
    Ok(vec![in alloc; number]?)
}

fn number(word: &str) -> Result<u64, Fault> {
    word.parse::<u64>().ok().ok_or(Fault::Unreadable)
}

fn size(word: &str) -> Result<usize, Fault> {
    word.parse::<usize>().ok().ok_or(Fault::Unreadable)
}
