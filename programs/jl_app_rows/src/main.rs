//! Commands with the answers that are due, over sources, sinks and shelves in memory: standard input has a row for
//! each, `CALL WORDS => ANSWER`, and other lines are passed over. A row that is answered otherwise is printed, and at
//! the end how many rows there were and how many of them differed.
#![tactic(auto)]

mod checkers;
mod commands;
mod devices;
mod escapes;
mod fault;
mod shelves;

use fault::Fault;
use std::alloc::Global;
use std::hash::RandomState;
use std::io;

fn main(rt: HostRuntime) -> io::Result<()> {
    let alloc = rt.alloc();
    let keys = RandomState::new(&rt)?;
    let mut rows = 0u32;
    let mut differ = 0u32;
    for line in rt.lines(alloc) {
        let line = line?;
        if let Some((row, wanted)) = line.split_once(" => ") {
            rows = rows.wrapping_add(1);
            if !is_answered(&rt, alloc, keys, row, wanted)? {
                differ = differ.wrapping_add(1);
            }
        }
    }
    println!(rt; "{rows} rows, of which {differ} are answered otherwise")
}

fn is_answered(
    rt: &impl Print,
    alloc: Global,
    keys: RandomState,
    row: &str,
    wanted: &str,
) -> io::Result<bool> {
    match answer(alloc, keys, row) {
        Ok(given) if agrees(given.as_str(), wanted) => return Ok(true),
        Ok(given) => println!(rt; "{row} => {given}, where {wanted} is due")?,
        Err(fault) => println!(rt; "{row} => {fault:?}, where {wanted} is due")?,
    }
    Ok(false)
}

/// Whether an answer is what is due, or begins with it where two dots follow.
fn agrees(given: &str, wanted: &str) -> bool {
    match wanted.strip_suffix(" ..") {
        Some(begin) => given.starts_with(begin),
        None => given == wanted,
    }
}

fn answer(alloc: Global, keys: RandomState, row: &str) -> Result<String, Fault> {
    let (call, rest) = row.split_once(' ').ok_or(Fault::Unreadable)?;
    match call {
        "answer" => commands::answer(alloc, keys, rest),
        "piped" => commands::piped(alloc, keys, rest),
        "swapped" => shelves::swapped(alloc, keys, rest),
        "handed" => shelves::handed(alloc, keys, rest),
        "source" => devices::source(alloc, keys, rest),
        "sink" => devices::sink(alloc, keys, rest),
        "each_write" => devices::each_write(alloc, keys, rest),
        _ => Err(Fault::Unreadable),
    }
}
