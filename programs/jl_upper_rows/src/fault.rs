use jl_lex::LexRefusal;
use jl_num::NumberOutside;
use jl_parse::ParseRefusal;
use jl_text::{NoMemory, TextFault, Utf8Fault};
use std::alloc::AllocFailed;

/// Why a row has no answer.
#[derive(Debug, Drop)]
pub enum Fault {
    /// No call is written so.
    Unreadable,
    NoMemory,
}

impl From<NoMemory> for Fault {
    fn from(_error: NoMemory) -> Fault {
        Fault::NoMemory
    }
}

impl<T: Drop> From<AllocFailed<T>> for Fault {
    fn from(_error: AllocFailed<T>) -> Fault {
        Fault::NoMemory
    }
}

impl From<NumberOutside> for Fault {
    fn from(_error: NumberOutside) -> Fault {
        Fault::Unreadable
    }
}

impl From<TextFault> for Fault {
    fn from(error: TextFault) -> Fault {
        match error {
            TextFault::TooLong => Fault::Unreadable,
            TextFault::NoMemory => Fault::NoMemory,
        }
    }
}

impl From<Utf8Fault> for Fault {
    fn from(error: Utf8Fault) -> Fault {
        match error {
            Utf8Fault::NotUtf8 { .. } => Fault::Unreadable,
            Utf8Fault::NoMemory => Fault::NoMemory,
        }
    }
}

impl From<LexRefusal> for Fault {
    fn from(error: LexRefusal) -> Fault {
        match error {
            LexRefusal::BadInput { .. } => Fault::Unreadable,
            LexRefusal::NoMemory => Fault::NoMemory,
        }
    }
}

impl From<ParseRefusal> for Fault {
    fn from(error: ParseRefusal) -> Fault {
        match error {
            ParseRefusal::Unreadable { .. } => Fault::Unreadable,
            ParseRefusal::NoMemory => Fault::NoMemory,
        }
    }
}
