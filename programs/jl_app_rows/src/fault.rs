use jl_text::{NoMemory, Utf8Fault};
use std::alloc::AllocFailed;

/// Why a row has no answer.
#[derive(Debug, Drop)]
pub enum Fault {
    /// No call is written so.
    Unreadable,
    NoMemory,
}

impl From<NoMemory> for Fault {
    fn from(_error: NoMemory) -> Fault {
        Fault::NoMemory
    }
}

impl<T: Drop> From<AllocFailed<T>> for Fault {
    fn from(_error: AllocFailed<T>) -> Fault {
        Fault::NoMemory
    }
}

impl From<Utf8Fault> for Fault {
    fn from(error: Utf8Fault) -> Fault {
        match error {
            Utf8Fault::NotUtf8 { .. } => Fault::Unreadable,
            Utf8Fault::NoMemory => Fault::NoMemory,
        }
    }
}
