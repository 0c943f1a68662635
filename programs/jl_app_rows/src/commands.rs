//! Commands that read a text and write an answer.
use crate::checkers::{type_checkers, use_checkers};
use crate::escapes::{bytes_of, row_text};
use crate::fault::Fault;
use jl_analysis::{Analysis, Crowd};
use jl_app::{Status, jlint};
use jl_port::{MemSink, MemSource, Same, Shelf};
use std::alloc::Global;
use std::hash::RandomState;

/// The most bytes that a sink takes in a write, and in all, where a row names no others.
const ROOM: usize = 1_048_576;

/// A command of a row: its words, which stand between brackets, and what follows them.
#[derive(Drop)]
pub struct Command<'a> {
    pub words: Vec<&'a str>,
    pub rest: &'a str,
}

/// The command at the beginning of a row.
pub fn command_of<'a>(alloc: Global, row: &'a str) -> Result<Command<'a>, Fault> {
    let row = row.strip_prefix('[').ok_or(Fault::Unreadable)?;
    let (words, rest) = row.split_once("] ").ok_or(Fault::Unreadable)?;
    let words = if words.is_empty() {
        Vec::new(alloc)
    } else {
        words.split(' ').collect(alloc)?
    };
    Ok(Command { words, rest })
}

/// Runs a command over a source, a sink and a shelf, with a checker of each rule that was told of no operation.
pub fn run<H: Shelf>(
    alloc: Global,
    keys: RandomState,
    words: &[&str],
    source: &mut MemSource,
    sink: &mut MemSink,
    shelf: &mut H,
) -> Result<Status, Fault> {
    let types = type_checkers(alloc)?;
    let uses = use_checkers(alloc)?;
    let boxes: [Box<dyn Analysis>; 20] = [
        types.nan_made,
        types.undefined_joined,
        types.object_joined,
        types.undefined_key,
        types.put_on_primitive,
        types.wrapped_condition,
        types.loose_equal,
        types.odd_compare,
        types.typeof_text,
        types.bits_of_nothing,
        uses.shadow_write,
        uses.mixed_new,
        uses.object_prototype_write,
        uses.odd_prototype,
        uses.late_prototype,
        uses.for_in_array,
        uses.extra_arguments,
        uses.wrapper_made,
        uses.no_radix,
        uses.global_this,
    ];
    let mut crowd = Crowd::of(Vec::from_array(alloc, boxes)?);
    Ok(jlint(alloc, keys, words, source, sink, shelf, &mut crowd))
}

/// A source of these bytes in which no read fails.
pub fn source_of(alloc: Global, bytes: Vec<u8>) -> MemSource {
    MemSource::new(bytes, Vec::new(alloc))
}

/// A sink with room for an answer in which no write fails.
pub fn wide_sink(alloc: Global) -> Result<MemSink, Fault> {
    Ok(MemSink::new(alloc, ROOM, ROOM, Vec::new(alloc))?)
}

/// The number of a status, and what the sink was given.
pub fn told(alloc: Global, status: Status, sink: &MemSink) -> Result<String, Fault> {
    let written = row_text(alloc, sink.written())?;
    Ok(format!(in alloc; "{} {written}", status.code())?)
}

/// `[WORDS] TEXT`: the status of a command that reads this text, and what it writes.
pub fn answer(alloc: Global, keys: RandomState, row: &str) -> Result<String, Fault> {
    let command = command_of(alloc, row)?;
    answer_to(alloc, keys, &command.words, bytes_of(alloc, command.rest)?)
}

/// The same, where the source holds these bytes.
fn answer_to(
    alloc: Global,
    keys: RandomState,
    words: &[&str],
    bytes: Vec<u8>,
) -> Result<String, Fault> {
    let mut source = source_of(alloc, bytes);
    let mut sink = wide_sink(alloc)?;
    let mut shelf = Same::new();
    let status = run(alloc, keys, words, &mut source, &mut sink, &mut shelf)?;
    told(alloc, status, &sink)
}

/// The bytes that a command writes where the source holds these.
pub fn written(
    alloc: Global,
    keys: RandomState,
    words: &[&str],
    bytes: Vec<u8>,
) -> Result<Vec<u8>, Fault> {
    let mut source = source_of(alloc, bytes);
    let mut sink = wide_sink(alloc)?;
    let mut shelf = Same::new();
    run(alloc, keys, words, &mut source, &mut sink, &mut shelf)?;
    Ok(Vec::from_slice(alloc, sink.written())?)
}

/// `[WORDS] [WORDS] TEXT`: the status of a command that reads what another wrote of this text, and what it writes.
pub fn piped(alloc: Global, keys: RandomState, row: &str) -> Result<String, Fault> {
    let first = command_of(alloc, row)?;
    let second = command_of(alloc, first.rest)?;
    let between = written(alloc, keys, &first.words, bytes_of(alloc, second.rest)?)?;
    answer_to(alloc, keys, &second.words, between)
}
