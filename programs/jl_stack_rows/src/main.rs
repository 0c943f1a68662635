//! Calls of the stacks of jl_state, with the answers that are due: standard input has a row for each, `CALL WORDS =>
//! ANSWER`, and other lines are passed over. A row that is answered otherwise is printed, and at the end how many rows
//! there were and how many of them differed.
#![tactic(auto)]

mod calls;
mod fault;
mod frames;
mod stacks;

use fault::Fault;
use std::alloc::Global;
use std::io;

fn main(rt: HostRuntime) -> io::Result<()> {
    let alloc = rt.alloc();
    let mut rows = 0u32;
    let mut differ = 0u32;
    for line in rt.lines(alloc) {
        let line = line?;
        if let Some((row, wanted)) = line.split_once(" => ") {
            rows = rows.wrapping_add(1);
            if !is_answered(&rt, alloc, row, wanted)? {
                differ = differ.wrapping_add(1);
            }
        }
    }
    println!(rt; "{rows} rows, of which {differ} are answered otherwise")
}

fn is_answered(rt: &impl Print, alloc: Global, row: &str, wanted: &str) -> io::Result<bool> {
    match answer(alloc, row) {
        Ok(given) if given.as_str() == wanted => return Ok(true),
        Ok(given) => println!(rt; "{row} => {given}, where {wanted} is due")?,
        Err(fault) => println!(rt; "{row} => {fault:?}, where {wanted} is due")?,
    }
    Ok(false)
}

fn answer(alloc: Global, row: &str) -> Result<String, Fault> {
    let (call, words) = row.split_once(' ').ok_or(Fault::Unreadable)?;
    match call {
        "stack" => stacks::answer(alloc, words),
        "deep" => stacks::answer_deep(alloc, words),
        "calls" => calls::answer(alloc, words),
        _ => Err(Fault::Unreadable),
    }
}
