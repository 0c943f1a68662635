//! Calls that cross the crates below jl_app, with the answers that are due: standard input has a row
//! for each, `CALL WORDS => ANSWER`, and other lines are passed over. A row that is answered otherwise is printed, and
//! at the end how many rows there were and how many of them differed.
#![tactic(auto)]

mod escapes;
mod fault;
mod hoisting;
mod parsing;
mod reports;
mod running;
mod stores;

use fault::Fault;
use std::alloc::Global;
use std::hash::RandomState;
use std::io;

fn main(rt: HostRuntime) -> io::Result<()> {
    let alloc = rt.alloc();
    let keys = RandomState::new(&rt)?;
    let mut rows = 0u32;
    let mut differ = 0u32;
    for line in rt.lines(alloc) {
        let line = line?;
        if let Some((row, wanted)) = line.split_once(" => ") {
            rows = rows.wrapping_add(1);
            if !is_answered(&rt, alloc, keys, row, wanted)? {
                differ = differ.wrapping_add(1);
            }
        }
    }
    println!(rt; "{rows} rows, of which {differ} are answered otherwise")
}

fn is_answered(
    rt: &impl Print,
    alloc: Global,
    keys: RandomState,
    row: &str,
    wanted: &str,
) -> io::Result<bool> {
    match answer(alloc, keys, row) {
        Ok(given) if given.as_str() == wanted => return Ok(true),
        Ok(given) => println!(rt; "{row} => {given}, where {wanted} is due")?,
        Err(fault) => println!(rt; "{row} => {fault:?}, where {wanted} is due")?,
    }
    Ok(false)
}

fn answer(alloc: Global, keys: RandomState, row: &str) -> Result<String, Fault> {
    let (call, words) = row.split_once(' ').unwrap_or((row, ""));
    match call {
        "parse" => parsing::answer(alloc, words),
        "vars" | "arguments" | "strict" => hoisting::answer(alloc, call, words),
        "budget" | "output" | "hooks" => running::answer(alloc, keys, call, words),
        "bind" => stores::answer(alloc, keys, words),
        "report" => reports::answer(alloc, words),
        _ => Err(Fault::Unreadable),
    }
}
