//! Names that are bound in an environment (10.2).
use crate::fault::Fault;
use jl_store::Store;
use jl_text::word;
use jl_value::Value;
use std::alloc::Global;
use std::hash::RandomState;

/// `bind NAMES NAME`: the index of a new environment in which each of some names is bound to its own text, and what the
/// last name is bound to there.
pub fn answer(alloc: Global, keys: RandomState, words: &str) -> Result<String, Fault> {
    let (names, asked) = words.split_once(' ').ok_or(Fault::Unreadable)?;
    let mut store = Store::new(alloc, keys)?;
    let env = store.new_environment(0)?;
    for name in names.split(',') {
        bind(alloc, &mut store, env, name)?;
    }
    let bound = bound_text(alloc, &store, env, asked)?;
    Ok(format!(in alloc; "{env} {bound}")?)
}

/// Binds a name to its own text.
fn bind(alloc: Global, store: &mut Store, env: usize, name: &str) -> Result<(), Fault> {
    let text = word(alloc, name)?;
    let value = Value::Text(text.share(alloc)?);
    Ok(store.declare_binding(env, &text, value)?)
}

fn bound_text(alloc: Global, store: &Store, env: usize, name: &str) -> Result<String, Fault> {
    let name = word(alloc, name)?;
    let value = store.binding_value(env, &name)?;
    match &value {
        Value::Text(text) => Ok(String::from_utf16_lossy(alloc, text.units())?),
        _ => Ok(String::from_str(alloc, "undefined")?),
    }
}
