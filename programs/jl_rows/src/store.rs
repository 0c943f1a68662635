//! Calls of jl_props, on one store of texts.
use crate::fault::Fault;
use crate::plain_list::compared;
use crate::words::{shown_units, shown_words, size_of, text_of};
use jl_props::Store;
use jl_text::{List, Text};
use std::alloc::Global;
use std::hash::RandomState;

pub fn answer(
    alloc: Global,
    keys: RandomState,
    store: &mut Store<Text>,
    call: &str,
    words: &[&str],
) -> Result<String, Fault> {
    match words {
        [] if call == "new" => {
            *store = Store::new(alloc, keys);
            Ok(String::from_str(alloc, "empty")?)
        }
        [seed, steps] if call == "random" => {
            let steps = steps.parse::<u32>().ok().ok_or(Fault::Unreadable)?;
            compared(
                alloc,
                keys,
                seed.parse::<u64>().ok().ok_or(Fault::Unreadable)?,
                steps,
            )
        }
        [obj] if call == "names" => shown_names(alloc, store.in_order(alloc, size_of(obj)?)?),
        [obj, name] => of_name(alloc, store, call, size_of(obj)?, text_of(alloc, name)?),
        [obj, name, item] => changed(
            alloc,
            store,
            call,
            size_of(obj)?,
            text_of(alloc, name)?,
            text_of(alloc, item)?,
        ),
        _ => Err(Fault::Unreadable),
    }
}

/// Each name with its serial.
pub fn shown_names(alloc: Global, names: List<(Text, u64)>) -> Result<String, Fault> {
    let mut words = Vec::new(alloc);
    for (name, serial) in names.items() {
        let name = shown_units(alloc, name.units())?;
        words.push(format!(in alloc; "{name}@{serial}")?)?;
    }
    shown_words(alloc, words)
}

fn of_name(
    alloc: Global,
    store: &mut Store<Text>,
    call: &str,
    obj: usize,
    name: Text,
) -> Result<String, Fault> {
    match call {
        "get" => shown_item(alloc, store.get(obj, &name)),
        "remove" => shown_item(alloc, store.remove(obj, &name).as_ref()),
        "serial" => match store.serial_of(obj, &name) {
            Some(serial) => Ok(format!(in alloc; "{serial}")?),
            None => Ok(String::from_str(alloc, "none")?),
        },
        _ => Err(Fault::Unreadable),
    }
}

fn shown_item(alloc: Global, item: Option<&Text>) -> Result<String, Fault> {
    match item {
        Some(item) => shown_units(alloc, item.units()),
        None => Ok(String::from_str(alloc, "none")?),
    }
}

fn changed(
    alloc: Global,
    store: &mut Store<Text>,
    call: &str,
    obj: usize,
    name: Text,
    item: Text,
) -> Result<String, Fault> {
    let is_there = store.get(obj, &name).is_some();
    let answer = match call {
        "put" if !is_there => match store.put_new(obj, name, item) {
            Ok(()) => "put",
            Err(_) => "out of memory",
        },
        "set" if is_there => {
            store.set(obj, &name, item);
            "set"
        }
        _ => return Err(Fault::Unreadable),
    };
    Ok(String::from_str(alloc, answer)?)
}
