//! The variables of a body, whether it mentions `arguments`, and whether it is strict (10.1.1, 10.5, 10.6).
use crate::fault::Fault;
use crate::parsing::program;
use jl_scope::{is_strict, mentions_arguments, vars};
use jl_text::Text;
use std::alloc::Global;

pub fn answer(alloc: Global, call: &str, source: &str) -> Result<String, Fault> {
    let body = program(alloc, source)?.body;
    match call {
        "vars" => names_text(alloc, vars(alloc, &body)?.as_slice()),
        "arguments" => Ok(format!(in alloc; "{}", mentions_arguments(&body))?),
        "strict" => {
            let (alone, within) = (is_strict(false, &body), is_strict(true, &body));
            Ok(format!(in alloc; "{alone} and {within} within strict code")?)
        }
        _ => Err(Fault::Unreadable),
    }
}

/// The names with a space between them.
fn names_text(alloc: Global, names: &[Text]) -> Result<String, Fault> {
    let mut all = String::new(alloc);
    for name in names {
        if !all.is_empty() {
            all.push(' ')?;
        }
        all.push_str(String::from_utf16_lossy(alloc, name.units())?.as_str())?;
    }
    Ok(all)
}
