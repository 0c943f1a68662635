//! What an object holds beside its properties, as a word and as an answer.
use crate::fault::Fault;
use crate::values::{told, value_of};
use crate::words::{shown_units, shown_words, size_of, text_of};
use jl_heap::Inner;
use jl_text::{List, Text};
use jl_value::{Builtin, ObjId, Value};
use std::alloc::Global;

/// `-`, a value, or words with `/` between them, of which the first tells what it is.
pub fn inner_of(alloc: Global, word: &str) -> Result<Inner, Fault> {
    let parts: Vec<&str> = word.split('/').collect(alloc)?;
    match parts.as_slice() {
        ["-"] => Ok(Inner::Nothing),
        ["script", function, env] => Ok(Inner::Script {
            function: function.parse::<u32>().ok().ok_or(Fault::Unreadable)?,
            env: size_of(env)?,
        }),
        ["native", path] => Ok(Inner::Native(Builtin::named(path).ok_or(Fault::Unreadable)?)),
        ["bound", target, this, args @ ..] => Ok(Inner::Bound {
            target: ObjId(size_of(target)?),
            this: value_of(alloc, this)?,
            args: values_of(alloc, args)?,
        }),
        ["mapped", env, names @ ..] => Ok(Inner::Mapped {
            env: size_of(env)?,
            names: names_of(alloc, names)?,
        }),
        [word] => Ok(Inner::Wrapped(value_of(alloc, word)?)),
        _ => Err(Fault::Unreadable),
    }
}

fn values_of(alloc: Global, words: &[&str]) -> Result<List<Value>, Fault> {
    let mut values = List::new(alloc);
    for word in words {
        values.push(value_of(alloc, word)?)?;
    }
    Ok(values)
}

fn names_of(alloc: Global, words: &[&str]) -> Result<List<Option<Text>>, Fault> {
    let mut names = List::new(alloc);
    for word in words {
        names.push(Some(text_of(alloc, word)?))?;
    }
    Ok(names)
}

pub fn shown_inner(alloc: Global, inner: &Inner) -> Result<String, Fault> {
    match inner {
        Inner::Nothing => Ok(String::from_str(alloc, "nothing")?),
        Inner::Wrapped(value) => told(alloc, value),
        Inner::Script { function, env } => Ok(format!(in alloc; "script {function} {env}")?),
        Inner::Native(builtin) => Ok(format!(in alloc; "native {}", builtin.name())?),
        Inner::Bound { target, this, args } => {
            let this = told(alloc, this)?;
            let args = shown_values(alloc, args.items())?;
            Ok(format!(in alloc; "bound #{} {this}: {args}", target.0)?)
        }
        Inner::Mapped { env, names } => {
            let names = shown_mapped(alloc, names.items())?;
            Ok(format!(in alloc; "mapped {env}: {names}")?)
        }
    }
}

fn shown_values(alloc: Global, values: &[Value]) -> Result<String, Fault> {
    let mut words = Vec::new(alloc);
    for value in values {
        words.push(told(alloc, value)?)?;
    }
    shown_words(alloc, words)
}

fn shown_mapped(alloc: Global, names: &[Option<Text>]) -> Result<String, Fault> {
    let mut words = Vec::new(alloc);
    for name in names {
        let word = match name {
            Some(name) => shown_units(alloc, name.units())?,
            None => String::from_str(alloc, "none")?,
        };
        words.push(word)?;
    }
    shown_words(alloc, words)
}
