use jl_num::NumberOutside;
use jl_text::NoMemory;
use std::alloc::AllocFailed;

/// Why a row has no answer.
#[derive(Debug, Drop)]
pub enum Fault {
    /// No call is written so.
    Unreadable,
    NoMemory,
}

impl From<NoMemory> for Fault {
    fn from(_error: NoMemory) -> Fault {
        Fault::NoMemory
    }
}

impl<T: Drop> From<AllocFailed<T>> for Fault {
    fn from(_error: AllocFailed<T>) -> Fault {
        Fault::NoMemory
    }
}

impl From<NumberOutside> for Fault {
    fn from(_error: NumberOutside) -> Fault {
        Fault::Unreadable
    }
}
