//! What texts read as.
use crate::escapes::bytes_of;
use crate::fault::Fault;
use jl_ast::{Program, function_table, height};
use jl_lex::lex;
use jl_parse::{ParseRefusal, parse};
use jl_text::from_utf8;
use std::alloc::Global;

/// What the bytes read as, of at most so many levels.
fn parse_bytes(
    alloc: Global,
    source: &[u8],
    limit: u32,
) -> Result<Result<Program, ParseRefusal>, Fault> {
    let units = from_utf8(alloc, source)?;
    if units.len() > 1_000_000 {
        return Err(Fault::Unreadable);
    }
    let tokens = lex(alloc, units.as_slice())?;
    let tokens = tokens.items();
    if tokens.len() > 1_000_000 {
        return Err(Fault::Unreadable);
    }
    Ok(parse(alloc, tokens, limit))
}

/// The program that a text reads as.
pub fn program(alloc: Global, source: &str) -> Result<Program, Fault> {
    Ok(parse_bytes(alloc, &bytes_of(alloc, source)?, 200)??)
}

/// `LIMIT SOURCE`: the number of functions, of statements of the program itself, and the height of what is read, and
/// whether it is strict code, or the unit at which no more can be read.
pub fn answer(alloc: Global, words: &str) -> Result<String, Fault> {
    let (limit, source) = words.split_once(' ').ok_or(Fault::Unreadable)?;
    let limit = limit.parse::<u32>().ok().ok_or(Fault::Unreadable)?;
    match parse_bytes(alloc, &bytes_of(alloc, source)?, limit)? {
        Ok(program) => {
            let functions = function_table(alloc, &program)?.len();
            let statements = program.body.statements.len();
            let strict = if program.body.strict { " strict" } else { "" };
            let height = height(&program);
            Ok(format!(in alloc; "{functions} {statements} {height}{strict}")?)
        }
        Err(ParseRefusal::Unreadable { at }) => Ok(format!(in alloc; "at {at}")?),
        Err(ParseRefusal::NoMemory) => Err(Fault::NoMemory),
    }
}
