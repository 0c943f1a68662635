//! Lexes the script that it reads from standard input as often as its one argument says, and prints how many tokens
//! it has or where it is refused. `bench/lexing.py` takes the times.
#![tactic(auto)]

use anyhow::{Result, bail};
use jl_lex::{LexRefusal, lex};
use jl_text::{Utf8Fault, from_utf8};
use std::env;
use std::io::Read;

fn main(rt: HostRuntime) -> Result<()> {
    let alloc = rt.alloc();
    let mut turns = 1u32;
    for word in env::args(&rt)?.skip(1) {
        turns = word.as_str().parse::<u32>()?;
    }
    let mut bytes = Vec::new(alloc);
    rt.stdin().read_to_end(&mut bytes)?;
    let units = match from_utf8(alloc, bytes.as_slice()) {
        Ok(units) => units,
        Err(Utf8Fault::NotUtf8 { at }) => bail!("not UTF-8 at {at}"),
        Err(Utf8Fault::NoMemory) => bail!("no memory"),
    };
    if units.len() >= 4_294_967_296 {
        bail!("too long");
    }
    let mut count = 0;
    for _turn in 0..turns {
        match lex(alloc, units.as_slice()) {
            Ok(tokens) => count = tokens.len(),
            Err(LexRefusal::BadInput { at, kind }) => bail!("{kind:?} at {at}"),
            Err(LexRefusal::NoMemory) => bail!("no memory"),
        }
    }
    println!(rt; "{count}")?;
    Ok(())
}
