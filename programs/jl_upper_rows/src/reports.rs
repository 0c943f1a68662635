//! Reports of operations that a row names, on one source.
ghost use Rattle.std.specs.Prelude.{◌≤◌, All, IfOk};

use crate::fault::Fault;
use jl_analysis::{Analysis, Crowd, RuleSet, rule_named};
use jl_ast::BinOp;
use jl_lex::comments;
use jl_num::Num;
use jl_op::{Observer, Op, OpId, OpKind, OpMap, UnKind};
use jl_report::{Line, Off, off, report};
use jl_rules_type::{LooseEqual, NanMade};
use jl_rules_use::ForInArray;
use jl_text::{Lines, Span, Text, from_utf8};
use jl_value::{Class, ObjId, Seen, Value};
use std::alloc::Global;

const SOURCE: &str = "print(1 == 2);\nx; // jlint-off nan-made\n";

/// Where the parts with the ids from 1 on begin, in units.
const BEGINS: [u32; 9] = [0, 0, 0, 0, 0, 6, 6, 11, 15];

/// `CHECKERS RULES COMMENTS ID:OPERATION ..`: what a crowd of checkers, one of NaN made or also those of loose equality
/// and of `for-in` over arrays, reports of these operations for the rules, with or without what comments switch off.
pub fn answer(alloc: Global, words: &str) -> Result<String, Fault> {
    let words: Vec<&str> = words.split(' ').collect(alloc)?;
    let [checkers, rules, comments, operations @ ..] = words.as_slice() else {
        return Err(Fault::Unreadable);
    };
    let chosen = rules_of(rules)?;
    let switched = match *comments {
        "comments" => true,
        "no-comments" => false,
        _ => return Err(Fault::Unreadable),
    };
    match *checkers {
        "one" => of_one(alloc, operations, chosen, switched),
        "three" => of_three(alloc, operations, chosen, switched),
        _ => Err(Fault::Unreadable),
    }
}

/// `all`, or names of rules with commas between them.
fn rules_of(names: &str) -> Result<RuleSet, Fault> {
    if names == "all" {
        return Ok(RuleSet::all());
    }
    let mut chosen = RuleSet::none();
    for name in names.split(',') {
        let Some(rule) = rule_named(name) else {
            return Err(Fault::Unreadable);
        };
        chosen = chosen.with(rule);
    }
    Ok(chosen)
}

fn of_one(
    alloc: Global,
    operations: &[&str],
    chosen: RuleSet,
    switched: bool,
) -> Result<String, Fault> {
    let mut boxes: Vec<Box<dyn Analysis>> = Vec::new(alloc);
    boxes.push(Box::new(alloc, NanMade::fresh(alloc))?)?;
    let mut crowd = Crowd::of(boxes);
    tell(alloc, &mut crowd, operations)?;
    lines_text(alloc, &report_of(alloc, &crowd, chosen, switched)?)
}

fn of_three(
    alloc: Global,
    operations: &[&str],
    chosen: RuleSet,
    switched: bool,
) -> Result<String, Fault> {
    let mut boxes: Vec<Box<dyn Analysis>> = Vec::new(alloc);
    boxes.push(Box::new(alloc, LooseEqual::fresh(alloc))?)?;
    boxes.push(Box::new(alloc, ForInArray::fresh(alloc))?)?;
    boxes.push(Box::new(alloc, NanMade::fresh(alloc))?)?;
    let mut crowd = Crowd::of(boxes);
    tell(alloc, &mut crowd, operations)?;
    lines_text(alloc, &report_of(alloc, &crowd, chosen, switched)?)
}

fn tell<O: Observer>(alloc: Global, observer: &mut O, operations: &[&str]) -> Result<(), Fault> {
    for word in operations {
        let (id, name) = word.split_once(':').ok_or(Fault::Unreadable)?;
        let id = id.parse::<u32>().ok().ok_or(Fault::Unreadable)?;
        observer.see(OpId(id), &operation(alloc, name)?)?;
    }
    Ok(())
}

fn operation(alloc: Global, name: &str) -> Result<Op, Fault> {
    match name {
        "minus-undefined" => Ok(Op::Unary {
            op: UnKind::Minus,
            operand: primitive(Value::Undefined),
            result: primitive(Value::Num(Num::NAN)),
        }),
        "a==true" => Ok(Op::Binary {
            op: BinOp::Equal,
            left: primitive(Value::Text(Text::from_units(alloc, &[97])?)),
            right: primitive(Value::Bool(true)),
            result: primitive(Value::Bool(false)),
        }),
        "0/0" => Ok(Op::Binary {
            op: BinOp::Div,
            left: primitive(Value::Num(Num::new(0)?)),
            right: primitive(Value::Num(Num::new(0)?)),
            result: primitive(Value::Num(Num::NAN)),
        }),
        "for-in-array" => Ok(Op::ForIn {
            object: Seen {
                value: Value::Obj(ObjId(99)),
                class: Class::Array,
            },
        }),
        _ => Err(Fault::Unreadable),
    }
}

fn primitive(value: Value) -> Seen {
    Seen {
        value,
        class: Class::Primitive,
    }
}

/// The map of a source of so many units.
fn map_of(alloc: Global, units: u32) -> Result<OpMap, Fault>
    ensures { IfOk result (λ map. All (λ row. row.1.from ≤ units) map) }
{
    let mut map = OpMap::new(alloc);
    for at in BEGINS {
        let from = at.min(units);
        map.add(OpKind::Read, Span { from, to: units })?;
    }
    Ok(map)
}

/// The report of a crowd on the source.
fn report_of(
    alloc: Global,
    crowd: &Crowd,
    chosen: RuleSet,
    switched: bool,
) -> Result<Vec<Line>, Fault> {
    let units = from_utf8(alloc, SOURCE.as_bytes())?;
    if units.len() > 1000 {
        return Err(Fault::Unreadable);
    }
    let lines = Lines::new(alloc, &units)?;
    let map = map_of(alloc, units.len() as u32)?;
    let off = if switched {
        off(alloc, &units, &comments(alloc, &units)?, &lines)?
    } else {
        Off::none(alloc)
    };
    Ok(report(alloc, crowd, &map, &lines, chosen, &off)?)
}

/// Line, column, rule and count of each line, with a comma between lines.
fn lines_text(alloc: Global, lines: &[Line]) -> Result<String, Fault> {
    let mut all = String::new(alloc);
    for line in lines {
        if !all.is_empty() {
            all.push_str(", ")?;
        }
        write!(
            all,
            "{}:{} {} {}",
            line.line, line.column, line.rule, line.count
        )?;
    }
    Ok(all)
}
