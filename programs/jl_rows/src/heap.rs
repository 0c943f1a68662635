//! Calls of jl_heap, on one heap.
use crate::fault::Fault;
use crate::inner::{inner_of, shown_inner};
use crate::store::shown_names;
use crate::values::{told, value_of};
use crate::words::{shown_units, size_of, text_of};
use jl_heap::{Change, Heap, Prop};
use jl_text::Text;
use jl_value::{Class, ObjId, Value};
use std::alloc::Global;
use std::hash::RandomState;

pub fn answer(
    alloc: Global,
    keys: RandomState,
    heap: &mut Heap,
    call: &str,
    words: &[&str],
) -> Result<String, Fault> {
    match words {
        [] if call == "new" => {
            *heap = Heap::new(alloc, keys);
            Ok(String::from_str(alloc, "empty")?)
        }
        [word] => of_word(alloc, heap, call, word),
        [id, name] => of_name(
            alloc,
            heap,
            call,
            ObjId(size_of(id)?),
            &text_of(alloc, name)?,
        ),
        [class, proto, inner] if call == "object" => made(alloc, heap, class, proto, inner),
        [id, name, value] => put(
            alloc,
            heap,
            call,
            ObjId(size_of(id)?),
            &text_of(alloc, name)?,
            value_of(alloc, value)?,
        ),
        [id, name, value, flags] => with_flags(
            alloc,
            heap,
            call,
            ObjId(size_of(id)?),
            &text_of(alloc, name)?,
            holding(alloc, value, flags)?,
        ),
        [id, name, get, set, flags] if call == "accessor" => {
            let change = calling(get, set, flags)?;
            defined(
                alloc,
                heap,
                ObjId(size_of(id)?),
                &text_of(alloc, name)?,
                change,
            )
        }
        _ => Err(Fault::Unreadable),
    }
}

fn of_word(alloc: Global, heap: &mut Heap, call: &str, word: &str) -> Result<String, Fault> {
    match call {
        "describe" => shown_units(alloc, heap.describe(&value_of(alloc, word)?)?.as_slice()),
        "seen" => seen(alloc, heap, &value_of(alloc, word)?),
        _ => of_object(alloc, heap, call, ObjId(size_of(word)?)),
    }
}

/// The class that a value is seen with, and its text.
fn seen(alloc: Global, heap: &Heap, v: &Value) -> Result<String, Fault> {
    let seen = heap.seen(v)?;
    let text = shown_units(alloc, seen.text(alloc)?.as_slice())?;
    Ok(format!(in alloc; "{} {text}", seen.class.name())?)
}

fn of_object(alloc: Global, heap: &mut Heap, call: &str, id: ObjId) -> Result<String, Fault> {
    match call {
        "class" => Ok(String::from_str(alloc, heap.class_of(id).name())?),
        "proto" => shown_id(alloc, heap.proto_of(id)),
        "inner" => shown_inner(alloc, heap.inner_of(id)),
        "names" => shown_names(alloc, heap.names(id)?),
        "extensible" => Ok(format!(in alloc; "{}", heap.is_extensible(id))?),
        "prevent" => {
            heap.prevent_extensions(id);
            Ok(String::from_str(alloc, "prevented")?)
        }
        _ => Err(Fault::Unreadable),
    }
}

fn shown_id(alloc: Global, id: Option<ObjId>) -> Result<String, Fault> {
    match id {
        Some(ObjId(address)) => Ok(format!(in alloc; "#{address}")?),
        None => Ok(String::from_str(alloc, "none")?),
    }
}

fn of_name(
    alloc: Global,
    heap: &mut Heap,
    call: &str,
    id: ObjId,
    name: &Text,
) -> Result<String, Fault> {
    match call {
        "own" => shown_property(alloc, heap.own(id, name)),
        "serial" => match heap.serial_of(id, name) {
            Some(serial) => Ok(format!(in alloc; "{serial}")?),
            None => Ok(String::from_str(alloc, "none")?),
        },
        "find" => found(alloc, heap, id, name),
        "can_put" => Ok(format!(in alloc; "{}", heap.can_put(id, name))?),
        "delete" => Ok(format!(in alloc; "{}", heap.delete(id, name))?),
        "unit" => Ok(format!(in alloc; "{:?}", heap.unit_at(id, name))?),
        "unmap" => {
            let index = shown_units(alloc, name.units())?
                .parse::<u32>()
                .ok()
                .ok_or(Fault::Unreadable)?;
            heap.unmap(id, index);
            Ok(String::from_str(alloc, "unmapped")?)
        }
        _ => Err(Fault::Unreadable),
    }
}

fn found(alloc: Global, heap: &Heap, id: ObjId, name: &Text) -> Result<String, Fault> {
    match heap.find(id, name) {
        Some((ObjId(address), property)) => {
            let property = shown_property(alloc, Some(property))?;
            Ok(format!(in alloc; "#{address} {property}")?)
        }
        None => Ok(String::from_str(alloc, "none")?),
    }
}

/// A value or a getter and a setter, and which of writable, enumerable and configurable the property is.
fn shown_property(alloc: Global, property: Option<&Prop>) -> Result<String, Fault> {
    match property {
        None => Ok(String::from_str(alloc, "none")?),
        Some(
            Prop::Plain {
                value,
                writable,
                enumerable,
                configurable,
            },
        ) => {
            let value = told(alloc, value)?;
            let (w, e, c) = (
                letter(*writable),
                letter(*enumerable),
                letter(*configurable),
            );
            Ok(format!(in alloc; "{value} {w}{e}{c}")?)
        }
        Some(
            Prop::Accessor {
                get,
                set,
                enumerable,
                configurable,
            },
        ) => {
            let (get, set) = (shown_id(alloc, *get)?, shown_id(alloc, *set)?);
            let (e, c) = (letter(*enumerable), letter(*configurable));
            Ok(format!(in alloc; "get {get} set {set} -{e}{c}")?)
        }
    }
}

fn letter(truth: bool) -> char {
    if truth { 'y' } else { 'n' }
}

fn made(
    alloc: Global,
    heap: &mut Heap,
    class: &str,
    proto: &str,
    inner: &str,
) -> Result<String, Fault> {
    let class = class_of(class)?;
    let proto = id_of(proto)?;
    let inner = inner_of(alloc, inner)?;
    let id = heap.new_object(class, proto, inner)?;
    shown_id(alloc, Some(id))
}

fn class_of(word: &str) -> Result<Class, Fault> {
    Ok(match word {
        "Object" => Class::Object,
        "Function" => Class::Function,
        "Array" => Class::Array,
        "String" => Class::String,
        "Error" => Class::Error,
        "Arguments" => Class::Arguments,
        _ => return Err(Fault::Unreadable),
    })
}

/// An object, or none.
fn id_of(word: &str) -> Result<Option<ObjId>, Fault> {
    match word.strip_prefix('#') {
        Some(address) => Ok(Some(ObjId(size_of(address)?))),
        None if word == "none" => Ok(None),
        None => Err(Fault::Unreadable),
    }
}

fn flag(flags: &str, at: usize) -> Option<bool> {
    match flags.as_bytes().get(at) {
        Some(b'y') => Some(true),
        Some(b'n') => Some(false),
        _ => None,
    }
}

/// A change to a value, if one is given, and of flags: `y` and `n` for writable, enumerable and configurable, `-` for
/// what isn't given.
fn holding(alloc: Global, value: &str, flags: &str) -> Result<Change, Fault> {
    let value = if value == "-" {
        None
    } else {
        Some(value_of(alloc, value)?)
    };
    Ok(Change {
        value,
        writable: flag(flags, 0),
        get: None,
        set: None,
        enumerable: flag(flags, 1),
        configurable: flag(flags, 2),
    })
}

/// A change to a getter and a setter, each an object, `none` or not given.
fn calling(get: &str, set: &str, flags: &str) -> Result<Change, Fault> {
    Ok(Change {
        value: None,
        writable: None,
        get: function_of(get)?,
        set: function_of(set)?,
        enumerable: flag(flags, 1),
        configurable: flag(flags, 2),
    })
}

fn function_of(word: &str) -> Result<Option<Option<ObjId>>, Fault> {
    if word == "-" {
        Ok(None)
    } else {
        Ok(Some(id_of(word)?))
    }
}

fn with_flags(
    alloc: Global,
    heap: &mut Heap,
    call: &str,
    id: ObjId,
    name: &Text,
    change: Change,
) -> Result<String, Fault> {
    match call {
        "define" => defined(alloc, heap, id, name, change),
        "add" => added(alloc, heap, id, name, change),
        _ => Err(Fault::Unreadable),
    }
}

fn defined(
    alloc: Global,
    heap: &mut Heap,
    id: ObjId,
    name: &Text,
    change: Change,
) -> Result<String, Fault> {
    if !change.is_one_kind() || !heap.fits_length(id, name, &change) {
        return Err(Fault::Unreadable);
    }
    Ok(format!(in alloc; "{:?}", heap.define(id, name, change)?)?)
}

/// A data property of a name that an object has none of is made.
fn added(
    alloc: Global,
    heap: &mut Heap,
    id: ObjId,
    name: &Text,
    change: Change,
) -> Result<String, Fault> {
    let property = Prop::Plain {
        value: change.value.unwrap_or(Value::Undefined),
        writable: change.writable.unwrap_or(false),
        enumerable: change.enumerable.unwrap_or(false),
        configurable: change.configurable.unwrap_or(false),
    };
    if !heap.is_there(id) || heap.own(id, name).is_some() {
        return Err(Fault::Unreadable);
    }
    heap.add_property(id, name, property)?;
    Ok(String::from_str(alloc, "added")?)
}

/// A value is put on a property, or comes back.
fn put(
    alloc: Global,
    heap: &mut Heap,
    call: &str,
    id: ObjId,
    name: &Text,
    value: Value,
) -> Result<String, Fault> {
    match call {
        "put" => match heap.set_value(id, name, value) {
            Ok(()) => Ok(String::from_str(alloc, "put")?),
            Err(value) => {
                let value = told(alloc, &value)?;
                Ok(format!(in alloc; "{value} came back")?)
            }
        },
        "fits" => {
            let change = Change {
                value: Some(value),
                writable: None,
                get: None,
                set: None,
                enumerable: None,
                configurable: None,
            };
            Ok(format!(in alloc; "{}", heap.fits_length(id, name, &change))?)
        }
        _ => Err(Fault::Unreadable),
    }
}
