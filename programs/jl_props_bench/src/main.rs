//! Does one kind of call of jl_props as often as its four arguments say: the call, the kind of names, how many of them,
//! and how many turns over them. `bench/properties.py` counts and times the calls.
#![tactic(auto)]

use anyhow::{Result, bail};
use indexmap::IndexMap;
use jl_props::Store;
use jl_text::{List, Text, Utf8Fault, from_utf8};
use std::alloc::Global;
use std::env;
use std::hash::{FoldHasher, Hasher, RandomState};

const PREFIX: &str =
    "abcdefghijklmnopqrstuvwxyzabcdefghijklmnopqrstuvwxyzabcdefghijklmnopqrstuvwxyzabcdefghijklmnopqrstuv";

/// As large as a property of jl_heap.
type Item = [u64; 6];

fn main(rt: HostRuntime) -> Result<()> {
    let alloc = rt.alloc();
    let mut words = Vec::new(alloc);
    for word in env::args(&rt)?.skip(1) {
        words.push(word)?;
    }
    let [call, kind, count, turns] = words.as_slice() else {
        bail!("the arguments are: CALL KIND COUNT TURNS");
    };
    let call = call.as_str();
    let count = count.as_str().parse::<u32>()?;
    let turns = turns.as_str().parse::<u32>()?;
    let names = names(alloc, kind.as_str(), count)?;
    let keys = RandomState::new(&rt)?;
    let mut store = Store::new(alloc, keys);
    if matches!(call, "get" | "again" | "order") {
        put_all(alloc, &mut store, 0, names.as_slice())?;
    }
    let mut found = 0u64;
    for turn in 0..turns {
        let more = if matches!(call, "put" | "remove") {
            put_first(alloc, call, Store::new(alloc, keys), names.as_slice())?
        } else {
            made(alloc, call, &mut store, turn, names.as_slice())?
        };
        found = found.wrapping_add(more);
    }
    println!(rt; "{found}")?;
    Ok(())
}

/// So many names: short ones in their order, short ones in another order, ones that have a hundred units in common, or
/// ones that the default hasher can't tell from one another.
fn names(alloc: Global, kind: &str, count: u32) -> Result<Vec<Text>> {
    let mut names = Vec::new(alloc);
    for at in 0..count {
        let other = u64::from(at).wrapping_mul(7919) % u64::from(count);
        let name = match kind {
            "rising" => text(alloc, format!(in alloc; "p{at:07}")?.as_bytes())?,
            "mixed" => text(alloc, format!(in alloc; "p{other:07}")?.as_bytes())?,
            "nested" => text(alloc, format!(in alloc; "{PREFIX}{at:06}")?.as_bytes())?,
            "crafted" => Text::from_units(alloc, &crafted(at))?,
            _ => bail!("the kinds of names are rising, mixed, nested and crafted"),
        };
        names.push(name)?;
    }
    Ok(names)
}

fn text(alloc: Global, bytes: &[u8]) -> Result<Text> {
    match from_utf8(alloc, bytes) {
        Ok(units) => Ok(Text::from_units(alloc, units.as_slice())?),
        Err(Utf8Fault::NotUtf8 { at }) => bail!("not UTF-8 at {at}"),
        Err(Utf8Fault::NoMemory) => bail!("no memory"),
    }
}

/// Eight units, of which the last four undo what the first four made of the default hasher's state, so that all hash
/// alike. The seed of that hasher is fixed.
fn crafted(at: u32) -> [u16; 8] {
    let mut hasher = FoldHasher::default();
    let first = u64::from(at);
    hasher.write_u64(first);
    let last = hasher.finish() ^ 0x6a09_e667_f3bc_c908;
    [
        (first & 0xffff) as u16,
        (first >> 16 & 0xffff) as u16,
        0,
        0,
        (last & 0xffff) as u16,
        (last >> 16 & 0xffff) as u16,
        (last >> 32 & 0xffff) as u16,
        (last >> 48 & 0xffff) as u16,
    ]
}

/// Each name is put into an object of an empty store, and taken out again where the call is `remove`.
fn put_first(alloc: Global, call: &str, mut empty: Store<Item>, names: &[Text]) -> Result<u64> {
    let made = put_all(alloc, &mut empty, 0, names)?;
    if call == "put" {
        Ok(made)
    } else {
        remove_all(&mut empty, names)
    }
}

/// One turn of a call over all names.
fn made(
    alloc: Global,
    call: &str,
    store: &mut Store<Item>,
    turn: u32,
    names: &[Text],
) -> Result<u64> {
    match call {
        "again" => put_again(alloc, store, names),
        "get" => Ok(got(store, 0, names)),
        "order" => Ok(store.in_order(alloc, 0)?.len() as u64),
        "share" => share_all(alloc, names),
        "default" => put_by_default(alloc, names),
        "make" => put_all(alloc, store, turn as usize, names),
        _ => bail!("the calls are put, remove, again, get, order, share, default and make"),
    }
}

/// Each name is looked up in an object and put into it.
fn put_all(alloc: Global, store: &mut Store<Item>, object: usize, names: &[Text]) -> Result<u64> {
    let mut made = 0u64;
    for name in names {
        if store.get(object, name).is_none() {
            store.put_new(object, name.share(alloc)?, [made; 6])?;
            made = made.wrapping_add(1);
        }
    }
    Ok(made)
}

fn remove_all(store: &mut Store<Item>, names: &[Text]) -> Result<u64> {
    let mut sum = 0u64;
    for name in names {
        let Some(item) = store.remove(0, name) else {
            bail!("a name is gone");
        };
        sum = sum.wrapping_add(item[0]);
    }
    Ok(sum)
}

/// Each name is taken out and put again.
fn put_again(alloc: Global, store: &mut Store<Item>, names: &[Text]) -> Result<u64> {
    let mut again = 0u64;
    for name in names {
        let Some(item) = store.remove(0, name) else {
            bail!("a name is gone");
        };
        if store.get(0, name).is_none() {
            store.put_new(0, name.share(alloc)?, item)?;
            again = again.wrapping_add(1);
        }
    }
    Ok(again)
}

fn got(store: &Store<Item>, object: usize, names: &[Text]) -> u64 {
    let mut sum = 0u64;
    for name in names {
        if let Some(item) = store.get(object, name) {
            sum = sum.wrapping_add(item[0]);
        }
    }
    sum
}

/// The least that a list of all names costs: the same list, out of a slice of the names. No property is looked at.
fn share_all(alloc: Global, names: &[Text]) -> Result<u64> {
    let mut shared = List::new(alloc);
    for name in names {
        shared.push((name.share(alloc)?, 0u64))?;
    }
    Ok(shared.len() as u64)
}

/// Each name is put into a map by the default hasher.
fn put_by_default(alloc: Global, names: &[Text]) -> Result<u64> {
    let mut map = IndexMap::new(alloc);
    for name in names {
        if map.insert(name.share(alloc)?, 0u64).is_err() {
            bail!("no memory");
        }
    }
    Ok(map.len() as u64)
}
