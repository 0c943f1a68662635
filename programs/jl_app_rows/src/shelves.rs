//! Shelves that lend another text than they were handed.
use crate::commands::{command_of, run, source_of, told, wide_sink};
use crate::escapes::{bytes_of, row_text};
use crate::fault::Fault;
use jl_port::{Shelf, Swapped};
use jl_text::{from_utf8, to_utf8};
use std::alloc::Global;
use std::hash::RandomState;

/// A shelf that lends a text of its own, and keeps what it was handed, which a row asks for.
#[derive(Drop)]
struct Watched {
    handed: Vec<u16>,
    other: Vec<u16>,
}

impl Shelf for Watched {
    ghost handed = { λ s. s.handed.items };

    ghost lent = { λ s. s.other.items };

    fn put(&mut self, text: Vec<u16>) {
        self.handed = text;
    }

    fn lend(&self) -> &[u16] {
        self.other.as_slice()
    }
}

/// What stands before ` <- `, and the units of the text behind it, which a shelf lends.
fn parted<'a>(alloc: Global, rest: &'a str) -> Result<(&'a str, Vec<u16>), Fault> {
    let (script, lent) = rest.split_once(" <- ").ok_or(Fault::Unreadable)?;
    let units = from_utf8(alloc, &bytes_of(alloc, lent)?)?;
    Ok((script, units))
}

/// `[WORDS] SCRIPT <- TEXT`: the status of a command that reads a script, and what it writes, over a shelf that lends
/// this text.
pub fn swapped(alloc: Global, keys: RandomState, row: &str) -> Result<String, Fault> {
    let command = command_of(alloc, row)?;
    let (script, lent) = parted(alloc, command.rest)?;
    let mut source = source_of(alloc, bytes_of(alloc, script)?);
    let mut sink = wide_sink(alloc)?;
    let mut shelf = Swapped::new(lent);
    let status = run(
        alloc,
        keys,
        &command.words,
        &mut source,
        &mut sink,
        &mut shelf,
    )?;
    told(alloc, status, &sink)
}

/// The same words: what the shelf was handed, or nothing where the command did not touch it.
pub fn handed(alloc: Global, keys: RandomState, row: &str) -> Result<String, Fault> {
    let command = command_of(alloc, row)?;
    let (script, other) = parted(alloc, command.rest)?;
    let mut source = source_of(alloc, bytes_of(alloc, script)?);
    let mut sink = wide_sink(alloc)?;
    let mut shelf = Watched {
        handed: Vec::new(alloc),
        other,
    };
    run(
        alloc,
        keys,
        &command.words,
        &mut source,
        &mut sink,
        &mut shelf,
    )?;
    row_text(alloc, &to_utf8(alloc, &shelf.handed)?)
}
