//! Calls of jl_value and jl_conv.
ghost use Rattle.std.specs.Prelude.{◌≡◌, false, not};
ghost use Rattle.jl_value.specs.Tests.{is_object};

use crate::fault::Fault;
use crate::words::{number_of, repeated, shown_number, shown_units, size_of, text_of, units_of};
use jl_conv::{
    primitive_equal, primitive_less, primitive_to_num, primitive_to_text, strict_equal,
    text_to_num, to_boolean, type_name,
};
use jl_num::{Num, NumberOutside};
use jl_value::{
    Builtin, Class, Fault as RunFault, ObjId, Seen, Value, array_index, same_value, share,
};
use std::alloc::Global;

pub fn answer(alloc: Global, call: &str, words: &[&str]) -> Result<String, Fault> {
    match words {
        [word] => of_word(alloc, call, word),
        [a, b] => of_two(alloc, call, value_of(alloc, a)?, value_of(alloc, b)?),
        [before, unit, count, after] if call == "long_number" => {
            let mut units = units_of(alloc, before)?;
            units.extend_from_slice(repeated(alloc, unit, count)?.as_slice())?;
            units.extend_from_slice(units_of(alloc, after)?.as_slice())?;
            shown(alloc, text_to_num(units.as_slice()))
        }
        _ => Err(Fault::Unreadable),
    }
}

/// `undefined`, `null`, `true`, `false`, a number, a text between `'`, or `#` and the address of an object.
pub fn value_of(alloc: Global, word: &str) -> Result<Value, Fault> {
    if let Some(text) = word.strip_prefix('\'') {
        let text = text.strip_suffix('\'').ok_or(Fault::Unreadable)?;
        return Ok(Value::Text(text_of(alloc, text)?));
    }
    if let Some(id) = word.strip_prefix('#') {
        return Ok(Value::Obj(ObjId(size_of(id)?)));
    }
    Ok(match word {
        "undefined" => Value::Undefined,
        "null" => Value::Null,
        "true" => Value::Bool(true),
        "false" => Value::Bool(false),
        number => Value::Num(number_of(number)?),
    })
}

fn of_word(alloc: Global, call: &str, word: &str) -> Result<String, Fault> {
    match call {
        "builtin" => builtin(alloc, word),
        "builtin_at" => placed(alloc, word),
        "row" => row(alloc, size_of(word)?),
        "fault" => fault(alloc, word),
        "index" => index(alloc, units_of(alloc, word)?.as_slice()),
        "number" => shown(alloc, text_to_num(units_of(alloc, word)?.as_slice())),
        "text" => told(alloc, &value_of(alloc, word)?),
        "function" => Ok(String::from_str(alloc, type_name(&value_of(alloc, word)?, true))?),
        "convert" => conversions(alloc, &value_of(alloc, word)?),
        _ => Err(Fault::Unreadable),
    }
}

fn builtin(alloc: Global, path: &str) -> Result<String, Fault> {
    match Builtin::named(path) {
        Some(builtin) => Ok(format!(in alloc; "{}", builtin.length())?),
        None => Ok(String::from_str(alloc, "none")?),
    }
}

fn row(alloc: Global, row: usize) -> Result<String, Fault> {
    let row = u16::try_from(row).ok().ok_or(Fault::Unreadable)?;
    match Builtin::at(row) {
        Some(builtin) => Ok(format!(in alloc; "{} {}", builtin.row(), builtin.name())?),
        None => Ok(String::from_str(alloc, "none")?),
    }
}

fn placed(alloc: Global, path: &str) -> Result<String, Fault> {
    let builtin = Builtin::named(path).ok_or(Fault::Unreadable)?;
    if builtin == Builtin::BOUND {
        return Err(Fault::Unreadable);
    }
    Ok(format!(in alloc; "{}", builtin.place().0)?)
}

fn fault(alloc: Global, word: &str) -> Result<String, Fault> {
    let fault = match word {
        "number" => RunFault::NumberOutside,
        "string" => RunFault::StringTooLong,
        "output" => RunFault::OutputTooLong,
        "code" => RunFault::CodeFromText,
        "misuse" => RunFault::Misuse,
        path => RunFault::Unsupported(Builtin::named(path).ok_or(Fault::Unreadable)?),
    };
    Ok(format!(in alloc; "{fault}")?)
}

fn index(alloc: Global, units: &[u16]) -> Result<String, Fault> {
    match array_index(units) {
        Some(index) => Ok(format!(in alloc; "{index}")?),
        None => Ok(String::from_str(alloc, "none")?),
    }
}

/// The text of a value, as an object of class Math if it is one.
pub fn told(alloc: Global, value: &Value) -> Result<String, Fault> {
    let seen = Seen {
        value: share(alloc, value)?,
        class: Class::Math,
    };
    shown_units(alloc, seen.text(alloc)?.as_slice())
}

fn shown(alloc: Global, outcome: Result<Num, NumberOutside>) -> Result<String, Fault> {
    match outcome {
        Ok(number) => shown_number(alloc, number),
        Err(NumberOutside) => Ok(String::from_str(alloc, "outside")?),
    }
}

fn is_primitive(v: &Value) -> bool
    ensures { is_object v.now ≡ not result }
{
    match v {
        Value::Obj(_) => false,
        _ => true,
    }
}

/// Its boolean and its type, and of a primitive value the number and the text too.
fn conversions(alloc: Global, v: &Value) -> Result<String, Fault> {
    let truth = to_boolean(v);
    let name = type_name(v, false);
    if !is_primitive(v) {
        return Ok(format!(in alloc; "{truth} {name}")?);
    }
    let number = shown(alloc, primitive_to_num(v))?;
    let text = shown_units(alloc, primitive_to_text(alloc, v)?.units())?;
    Ok(format!(in alloc; "{truth} {name} {number} '{text}'")?)
}

fn of_two(alloc: Global, call: &str, a: Value, b: Value) -> Result<String, Fault> {
    match call {
        "same" => Ok(format!(in alloc; "{}", same_value(&a, &b))?),
        "compare" if is_primitive(&a) && is_primitive(&b) => comparisons(alloc, &a, &b),
        "equal" => objects(alloc, &a, &b),
        _ => Err(Fault::Unreadable),
    }
}

/// Whether the first is `===`, `==` and `<` to the second.
fn comparisons(alloc: Global, a: &Value, b: &Value) -> Result<String, Fault>
    requires left { is_object a.now ≡ false }
    requires right { is_object b.now ≡ false }
{
    let strict = strict_equal(a, b);
    let equal = match primitive_equal(a, b) {
        Ok(equal) => shown_truth(Some(equal)),
        Err(NumberOutside) => "outside",
    };
    let less = match primitive_less(a, b) {
        Ok(less) => shown_truth(less),
        Err(NumberOutside) => "outside",
    };
    Ok(format!(in alloc; "{strict} {equal} {less}")?)
}

fn shown_truth(truth: Option<bool>) -> &'static str {
    match truth {
        Some(true) => "true",
        Some(false) => "false",
        None => "undefined",
    }
}

/// Whether an object is `===` and `==` to another.
fn objects(alloc: Global, a: &Value, b: &Value) -> Result<String, Fault> {
    if is_primitive(a) || is_primitive(b) {
        return Err(Fault::Unreadable);
    }
    let strict = strict_equal(a, b);
    match primitive_equal(a, b) {
        Ok(equal) => Ok(format!(in alloc; "{strict} {equal}")?),
        Err(NumberOutside) => Ok(format!(in alloc; "{strict} outside")?),
    }
}
