//! The stack of frames.
use crate::fault::Fault;
use crate::frames::{Name, completion_of, frame_giving, frame_of, name_of, word_of};
use jl_num::Num;
use jl_state::Stack;
use std::alloc::Global;

/// `stack WORDS`: on a new stack each word pushes the frame of this name, but `pop`, which answers the frame that it
/// took off, or `none`, and the words of completions, which answer the depth to which they unwound it, or `none`.
pub fn answer(alloc: Global, words: &str) -> Result<String, Fault> {
    let mut stack = Stack::new(alloc);
    let mut popped = Stack::new(alloc);
    let mut answers = String::new(alloc);
    for word in words.split(' ') {
        if word == "pop" {
            let name = pop(&mut stack, &mut popped)?;
            add_name(&mut answers, name)?;
        } else if let Some(how) = completion_of(word) {
            let depth = stack.unwind(&how);
            drop(how);
            add_depth(&mut answers, depth)?;
        } else {
            push(&mut stack, word)?;
        }
    }
    Ok(answers)
}

fn push(stack: &mut Stack<'_>, word: &str) -> Result<(), Fault> {
    Ok(stack.push(frame_of(word)?)?)
}

/// Takes a frame off. It is pushed on another stack, since the proof of a function that lets a frame go takes up every
/// kind of frame.
fn pop<'p>(stack: &mut Stack<'p>, popped: &mut Stack<'p>) -> Result<Option<Name>, Fault> {
    match stack.pop() {
        Some(frame) => {
            let name = name_of(&frame);
            popped.push(frame)?;
            Ok(Some(name))
        }
        None => Ok(None),
    }
}

fn add_name(answers: &mut String, name: Option<Name>) -> Result<(), Fault> {
    if !answers.is_empty() {
        answers.push(' ')?;
    }
    match name {
        Some(Name::Number(number)) => write!(answers, "{number}")?,
        other => answers.push_str(word_of(other))?,
    }
    Ok(())
}

fn add_depth(answers: &mut String, depth: Option<usize>) -> Result<(), Fault> {
    if !answers.is_empty() {
        answers.push(' ')?;
    }
    match depth {
        Some(depth) => write!(answers, "{depth}")?,
        None => answers.push_str("none")?,
    }
    Ok(())
}

/// `deep COUNT`: on a new stack this many numbered frames are pushed, and popped again. The answer is how many of them
/// came off in the order due, and then what one more `pop` answers.
pub fn answer_deep(alloc: Global, words: &str) -> Result<String, Fault> {
    let count = words.parse::<u32>().ok().ok_or(Fault::Unreadable)?;
    let mut stack = Stack::new(alloc);
    push_numbers(&mut stack, count)?;
    let mut popped = Stack::new(alloc);
    let in_order = pop_numbers(&mut stack, &mut popped, count)?;
    let last = word_of(pop(&mut stack, &mut popped)?);
    Ok(format!(in alloc; "{in_order} {last}")?)
}

/// Pushes the frames of the numbers from 1 to this one.
fn push_numbers(stack: &mut Stack<'_>, count: u32) -> Result<(), Fault> {
    for before in 0..count {
        let number = Num::new(i64::from(before) + 1)?;
        stack.push(frame_giving(number))?;
    }
    Ok(())
}

/// Pops this many frames, of which those of the numbers from this one down to 1 are due, and counts those that are.
fn pop_numbers<'p>(
    stack: &mut Stack<'p>,
    popped: &mut Stack<'p>,
    count: u32,
) -> Result<u32, Fault> {
    let mut in_order = 0u32;
    for before in 0..count {
        let name = pop(stack, popped)?;
        if is_number(name, count.wrapping_sub(before)) {
            in_order = in_order.wrapping_add(1);
        }
    }
    Ok(in_order)
}

fn is_number(name: Option<Name>, due: u32) -> bool {
    match name {
        Some(Name::Number(number)) => number == i64::from(due),
        _ => false,
    }
}
