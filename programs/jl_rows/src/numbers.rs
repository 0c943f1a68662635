//! Calls of jl_num.
use crate::fault::Fault;
use crate::words::{number_of, shown_number};
use jl_num::{
    Num, NumberOutside, add, and, compare, digits, div, mul, neg, not, or, pow, rem, sar, shl, shr,
    sub, to_int32, to_uint16, to_uint32, xor,
};
use std::alloc::Global;
use std::cmp::Ordering;

pub fn answer(alloc: Global, call: &str, words: &[&str]) -> Result<String, Fault> {
    match words {
        [a] => unary(alloc, call, a),
        [a, radix] if call == "digits" => written(alloc, number_of(a)?, radix),
        [a, b] if call == "compare" => ordered(alloc, number_of(a)?, number_of(b)?),
        [a, b] => shown(alloc, binary(call, number_of(a)?, number_of(b)?)?),
        _ => Err(Fault::Unreadable),
    }
}

fn unary(alloc: Global, call: &str, word: &str) -> Result<String, Fault> {
    if call == "new" {
        return shown(alloc, made(word)?);
    }
    let a = number_of(word)?;
    match call {
        "to_int32" => Ok(format!(in alloc; "{}", to_int32(a))?),
        "to_uint32" => Ok(format!(in alloc; "{}", to_uint32(a))?),
        "to_uint16" => Ok(format!(in alloc; "{}", to_uint16(a))?),
        "neg" => shown_number(alloc, neg(a)),
        "not" => shown_number(alloc, not(a)),
        _ => Err(Fault::Unreadable),
    }
}

fn made(word: &str) -> Result<Result<Num, NumberOutside>, Fault> {
    Ok(Num::new(word.parse::<i64>().ok().ok_or(Fault::Unreadable)?))
}

fn binary(call: &str, a: Num, b: Num) -> Result<Result<Num, NumberOutside>, Fault> {
    Ok(match call {
        "add" => add(a, b),
        "sub" => sub(a, b),
        "mul" => mul(a, b),
        "div" => div(a, b),
        "pow" => pow(a, b),
        "rem" => Ok(rem(a, b)),
        "shl" => Ok(shl(a, b)),
        "sar" => Ok(sar(a, b)),
        "shr" => Ok(shr(a, b)),
        "and" => Ok(and(a, b)),
        "or" => Ok(or(a, b)),
        "xor" => Ok(xor(a, b)),
        _ => return Err(Fault::Unreadable),
    })
}

fn shown(alloc: Global, outcome: Result<Num, NumberOutside>) -> Result<String, Fault> {
    match outcome {
        Ok(number) => shown_number(alloc, number),
        Err(NumberOutside) => Ok(String::from_str(alloc, "outside")?),
    }
}

fn ordered(alloc: Global, a: Num, b: Num) -> Result<String, Fault> {
    let order = match compare(a, b) {
        Some(Ordering::Less) => "less",
        Some(Ordering::Equal) => "equal",
        Some(Ordering::Greater) => "greater",
        None => "undefined",
    };
    Ok(String::from_str(alloc, order)?)
}

fn written(alloc: Global, a: Num, radix: &str) -> Result<String, Fault> {
    let radix = radix.parse::<u32>().ok().ok_or(Fault::Unreadable)?;
    if radix < 2 || radix > 36 {
        return Err(Fault::Unreadable);
    }
    Ok(String::from_utf8_lossy(alloc, digits(alloc, a, radix)?.as_slice())?)
}
