//! Runs of programs with other budgets than that of the command `run`.
use crate::escapes::row_text;
use crate::fault::Fault;
use crate::parsing::program;
use jl_machine::{Run, run};
use jl_op::{KindSet, Nobody};
use jl_value::Outcome;
use std::alloc::Global;
use std::hash::RandomState;

/// `BUDGET SCRIPT`: of `budget` what the script prints, how it ends and how many steps it takes, of `output` how it
/// ends and how many bytes it prints, and of `hooks` how many operations its hooks tell of, with each budget from 0 on.
pub fn answer(alloc: Global, keys: RandomState, call: &str, words: &str) -> Result<String, Fault> {
    let (budget, script) = words.split_once(' ').ok_or(Fault::Unreadable)?;
    let budget = budget.parse::<u64>().ok().ok_or(Fault::Unreadable)?;
    if call == "hooks" {
        return hooks(alloc, keys, script, budget);
    }
    let run = run_of(alloc, keys, script, budget)?;
    let end = ending(alloc, &run.outcome)?;
    match call {
        "budget" => {
            let printed = row_text(alloc, run.output.items())?;
            Ok(format!(in alloc; "{printed} {end} steps={}", run.steps)?)
        }
        "output" => Ok(format!(in alloc; "{end} bytes={}", run.output.len())?),
        _ => Err(Fault::Unreadable),
    }
}

/// How many operations the hooks of a script tell of, with each number of steps up to this one.
fn hooks(alloc: Global, keys: RandomState, script: &str, most: u64) -> Result<String, Fault> {
    let mut told = String::new(alloc);
    for budget in 0..most {
        write!(told, "{} ", run_of(alloc, keys, script, budget)?.hooks)?;
    }
    write!(told, "{}", run_of(alloc, keys, script, most)?.hooks)?;
    Ok(told)
}

/// The run of a script with so many steps.
fn run_of(alloc: Global, keys: RandomState, script: &str, budget: u64) -> Result<Run, Fault> {
    let program = program(alloc, script)?;
    Ok(run(alloc, keys, &program, budget, KindSet::all(), &mut Nobody)?)
}

fn ending(alloc: Global, outcome: &Outcome) -> Result<String, Fault> {
    match outcome {
        Outcome::Normal => Ok(String::from_str(alloc, "normal")?),
        Outcome::Thrown(_) => Ok(String::from_str(alloc, "thrown")?),
        Outcome::Fault(fault) => Ok(format!(in alloc; "fault {fault}")?),
        Outcome::Spent => Ok(String::from_str(alloc, "spent")?),
    }
}
