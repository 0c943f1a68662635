//! A store beside a plain list of the same entries: calls by chance, each answered by both.
use crate::fault::Fault;
use jl_props::Store;
use jl_text::{Text, from_utf8};
use std::alloc::Global;
use std::hash::RandomState;

/// How many names there are, and how many objects.
const NAMES: u64 = 40;

const OBJECTS: u64 = 3;

/// An entry of the plain list, by the number of its name.
#[derive(Clone, Copy)]
struct PlainEntry {
    obj: u64,
    name: u64,
    serial: u64,
    item: u64,
}

#[derive(Drop)]
struct Pair {
    names: Vec<Text>,
    store: Store<u64>,
    list: Vec<PlainEntry>,
    made: u64,
}

/// Whether both answer alike at each of so many steps that begin with a seed, or the first step at which they don't.
pub fn compared(
    alloc: Global,
    keys: RandomState,
    seed: u64,
    steps: u32,
) -> Result<String, Fault> {
    let mut names = Vec::new(alloc);
    for number in 0..NAMES {
        let written = format!(in alloc; "name{number}")?;
        let units = from_utf8(alloc, written.as_bytes())?;
        names.push(Text::from_units(alloc, units.as_slice())?)?;
    }
    let mut pair = Pair {
        names,
        store: Store::new(alloc, keys),
        list: Vec::new(alloc),
        made: 0,
    };
    let mut state = seed;
    for step in 0..steps {
        state = state
            .wrapping_mul(6_364_136_223_846_793_005)
            .wrapping_add(1_442_695_040_888_963_407);
        let drawn = state >> 33;
        if !pair.is_alike(alloc, drawn)? {
            return Ok(format!(in alloc; "step {step} differs")?);
        }
    }
    Ok(format!(in alloc; "{steps} steps alike")?)
}

impl Pair {
    /// Makes one call, and answers whether both lists are the same afterwards and gave the same.
    fn is_alike(&mut self, alloc: Global, drawn: u64) -> Result<bool, Fault> {
        let obj = drawn % OBJECTS;
        let number = drawn / 8 % NAMES;
        let name = match self.names.get(number as usize) {
            Some(name) => name.share(alloc)?,
            None => return Ok(false),
        };
        let place = self
            .list
            .iter()
            .position(|entry| entry.obj == obj && entry.name == number);
        let alike = match place {
            None => self.put(obj, number, name, drawn)?,
            Some(at) => self.change(obj, name, drawn, at),
        };
        Ok(alike && self.same_order(alloc, obj)?)
    }

    fn put(&mut self, obj: u64, number: u64, name: Text, item: u64) -> Result<bool, Fault> {
        let alike = self.store.get(obj as usize, &name).is_none()
            && self.store.serial_of(obj as usize, &name).is_none()
            && self.store.remove(obj as usize, &name).is_none();
        if self.store.get(obj as usize, &name).is_some() {
            return Ok(false);
        }
        self.store.put_new(obj as usize, name, item)?;
        self.list.push(PlainEntry {
            obj,
            name: number,
            serial: self.made,
            item,
        })?;
        self.made = self.made.wrapping_add(1);
        Ok(alike)
    }

    /// Removes the entry that stands at this place of the list, or gives it another item.
    fn change(&mut self, obj: u64, name: Text, drawn: u64, at: usize) -> bool {
        let obj = obj as usize;
        let Some(entry) = self.list.get(at).copied() else {
            return false;
        };
        let alike = self.store.get(obj, &name) == Some(&entry.item)
            && self.store.serial_of(obj, &name) == Some(entry.serial);
        if drawn / 4 % 2 == 0 {
            self.list.remove(at);
            return alike && self.store.remove(obj, &name) == Some(entry.item);
        }
        if let Some(place) = self.list.get_mut(at) {
            place.item = drawn;
        }
        if self.store.get(obj, &name).is_some() {
            self.store.set(obj, &name, drawn);
        }
        alike && self.store.get(obj, &name) == Some(&drawn)
    }

    fn same_order(&self, alloc: Global, obj: u64) -> Result<bool, Fault> {
        let listed = self.store.in_order(alloc, obj as usize)?;
        let mut rest = listed.items();
        for entry in self.list.iter().filter(|entry| entry.obj == obj) {
            let [(name, serial), more @ ..] = rest else {
                return Ok(false);
            };
            let number = entry.name as usize;
            let same = self
                .names
                .get(number)
                .is_some_and(|due| due.units() == name.units());
            if !same || *serial != entry.serial {
                return Ok(false);
            }
            rest = more;
        }
        Ok(rest.is_empty())
    }
}
