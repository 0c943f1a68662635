//! Frames by their words, for each kind of frame one that needs no script.
use crate::fault::Fault;
use jl_num::Num;
use jl_state::{AlgorithmFrame, CompletionFrame, Frame, StatementFrame, ValueFrame};
use jl_value::{Completion, Value};

/// Which frame it is.
#[derive(Clone, Copy)]
pub enum Name {
    /// The one that gives this number once the observer has been told.
    Number(i64),
    Delete,
    Typeof,
    Return,
    Throw,
    Switch,
    Body,
    /// One that no row pushes.
    Another,
}

/// The frame of this word; that of a number gives it.
pub fn frame_of<'p>(word: &str) -> Result<Frame<'p>, Fault> {
    match word {
        "delete" => Ok(Frame::Value(ValueFrame::DeleteValue)),
        "typeof" => Ok(Frame::Algorithm(AlgorithmFrame::TypeOf)),
        "return" => Ok(Frame::Statement(StatementFrame::Return)),
        "throw" => Ok(Frame::Statement(StatementFrame::Throw)),
        "switch" => Ok(Frame::Completion(CompletionFrame::Switch)),
        "body" => Ok(Frame::Body),
        _ => frame_of_number(word),
    }
}

/// The completion of this word. What it gives is undefined, and it has no label.
pub fn completion_of(word: &str) -> Option<Completion> {
    match word {
        "to-normal" => Some(Completion::Normal),
        "to-return" => Some(Completion::Return(Value::Undefined)),
        "to-throw" => Some(Completion::Throw(Value::Undefined)),
        "to-break" => Some(Completion::Break(None)),
        "to-continue" => Some(Completion::Continue(None)),
        _ => None,
    }
}

fn frame_of_number<'p>(word: &str) -> Result<Frame<'p>, Fault> {
    let number = word.parse::<i64>().ok().ok_or(Fault::Unreadable)?;
    Ok(frame_giving(Num::new(number)?))
}

/// The frame that gives this number.
pub fn frame_giving<'p>(number: Num) -> Frame<'p> {
    Frame::Give(Value::Num(number))
}

/// The name of this frame.
pub fn name_of(frame: &Frame<'_>) -> Name {
    match frame {
        Frame::Value(ValueFrame::DeleteValue) => Name::Delete,
        Frame::Algorithm(AlgorithmFrame::TypeOf) => Name::Typeof,
        Frame::Statement(StatementFrame::Return) => Name::Return,
        Frame::Statement(StatementFrame::Throw) => Name::Throw,
        Frame::Completion(CompletionFrame::Switch) => Name::Switch,
        Frame::Give(Value::Num(number)) => Name::Number(value_of(*number)),
        Frame::Body => Name::Body,
        _ => Name::Another,
    }
}

/// The number, which is not NaN in any row.
fn value_of(number: Num) -> i64 {
    number.value().unwrap_or(0)
}

/// The word of a frame that gives no number, or `none`.
pub fn word_of(name: Option<Name>) -> &'static str {
    match name {
        None => "none",
        Some(Name::Number(_)) => "number",
        Some(Name::Delete) => "delete",
        Some(Name::Typeof) => "typeof",
        Some(Name::Return) => "return",
        Some(Name::Throw) => "throw",
        Some(Name::Switch) => "switch",
        Some(Name::Body) => "body",
        Some(Name::Another) => "another",
    }
}
