//! The calls that are running.
use crate::fault::Fault;
use jl_state::{Call, Calls};
use jl_value::Value;
use std::alloc::Global;

/// `calls WORDS`: a number begins a call of the function of this number, `innermost` answers the number of the function
/// whose call is the innermost one, and `pop` that of the call that it ends; both answer `none` where no call is
/// running.
pub fn answer(alloc: Global, words: &str) -> Result<String, Fault> {
    let mut calls = Calls::new(alloc);
    let mut answers = String::new(alloc);
    for word in words.split(' ') {
        match word {
            "innermost" => add_number(&mut answers, innermost(&calls))?,
            "pop" => add_number(&mut answers, pop(&mut calls))?,
            _ => begin(&mut calls, word)?,
        }
    }
    Ok(answers)
}

fn begin(calls: &mut Calls, word: &str) -> Result<(), Fault> {
    let function = word.parse::<u32>().ok().ok_or(Fault::Unreadable)?;
    Ok(calls.push(Call {
        function,
        this: Value::Undefined,
        args: 0,
        by_new: false,
    })?)
}

fn innermost(calls: &Calls) -> Option<u32> {
    Some(calls.innermost()?.function)
}

fn pop(calls: &mut Calls) -> Option<u32> {
    Some(calls.pop()?.function)
}

fn add_number(answers: &mut String, number: Option<u32>) -> Result<(), Fault> {
    if !answers.is_empty() {
        answers.push(' ')?;
    }
    match number {
        Some(number) => write!(answers, "{number}")?,
        None => answers.push_str("none")?,
    }
    Ok(())
}
