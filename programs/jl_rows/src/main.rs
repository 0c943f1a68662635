//! Calls of the libraries with the answers that are due: standard input has a row for each, `CRATE CALL WORDS =>
//! ANSWER`, and other lines are passed over. A row that is answered otherwise is printed, and at the end how many
//! rows there were and how many of them differed.
#![tactic(auto)]

mod fault;
mod heap;
mod inner;
mod numbers;
mod plain_list;
mod sources;
mod store;
mod texts;
mod values;
mod words;

use fault::Fault;
use jl_heap::Heap;
use jl_props::Store;
use jl_text::Text;
use std::alloc::Global;
use std::hash::RandomState;
use std::io;

/// What rows before a row have made.
#[derive(Drop)]
struct Made {
    keys: RandomState,
    store: Store<Text>,
    heap: Heap,
}

fn main(rt: HostRuntime) -> io::Result<()> {
    let alloc = rt.alloc();
    let keys = RandomState::new(&rt)?;
    let mut made = Made {
        keys,
        store: Store::new(alloc, keys),
        heap: Heap::new(alloc, keys),
    };
    let mut rows = 0u32;
    let mut differ = 0u32;
    for line in rt.lines(alloc) {
        let line = line?;
        if let Some((call, wanted)) = line.split_once(" => ") {
            rows = rows.wrapping_add(1);
            if !is_answered(&rt, alloc, &mut made, call, wanted)? {
                differ = differ.wrapping_add(1);
            }
        }
    }
    println!(rt; "{rows} rows, of which {differ} are answered otherwise")
}

fn is_answered(
    rt: &impl Print,
    alloc: Global,
    made: &mut Made,
    row: &str,
    wanted: &str,
) -> io::Result<bool> {
    match answer(alloc, made, row) {
        Ok(given) if given.as_str() == wanted => return Ok(true),
        Ok(given) => println!(rt; "{row} => {given}, where {wanted} is due")?,
        Err(fault) => println!(rt; "{row} => {fault:?}, where {wanted} is due")?,
    }
    Ok(false)
}

fn answer(alloc: Global, made: &mut Made, row: &str) -> Result<String, Fault> {
    if let Some(row) = row.strip_prefix("source ") {
        let (call, source) = row.split_once(' ').unwrap_or((row, ""));
        return sources::answer(alloc, call, source);
    }
    let all: Vec<&str> = row.split(' ').collect(alloc)?;
    match all.as_slice() {
        ["num", call, words @ ..] => numbers::answer(alloc, call, words),
        ["text", call, words @ ..] => texts::answer(alloc, call, words),
        ["value", call, words @ ..] => values::answer(alloc, call, words),
        ["store", call, words @ ..] => store::answer(alloc, made.keys, &mut made.store, call, words),
        ["heap", call, words @ ..] => heap::answer(alloc, made.keys, &mut made.heap, call, words),
        _ => Err(Fault::Unreadable),
    }
}
