//! Calls that go by an entry.

use crate::counts::{within, Guard};
use crate::hasher::BuildKeyHasher;
use crate::key::Key;
use crate::line::Line;
use crate::value::{Value, Values};
use crate::{Known, Map};
use linked_hash_map::{Entry, OccupiedEntry, VacantEntry};
use std::fmt::{Result, Write};
use std::mem;

type Occupied<'m> = OccupiedEntry<'m, Key, Value, BuildKeyHasher>;

type Vacant<'m> = VacantEntry<'m, Key, Value, BuildKeyHasher>;

/// Inserts a value by an entry, and appends the one that it replaces.
fn insert(entry: &mut Occupied<'_>, value: Value, text: &mut String) -> Result {
    write!(text, "{:?} ", within(|| entry.insert(value)))
}

/// Shows an entry, and writes the value at `w`, inserts it at `i`, inserts it and then 0 at `t`,
/// removes the pair at `r`, or writes what the entry turns into at `m`. An entry that is dropped or
/// forgotten is the same, since it owns nothing.
fn edit_occupied(
    mut entry: Occupied<'_>,
    edit: u8,
    values: &mut Values,
    text: &mut String,
) -> Result {
    write!(text, "{:?}={:?} ", entry.key(), entry.get())?;
    match edit {
        b'w' => *within(|| entry.get_mut()) = values.take(),
        b'i' => insert(&mut entry, values.take(), text)?,
        b't' => {
            insert(&mut entry, values.take(), text)?;
            insert(&mut entry, values.zero(), text)?;
        }
        b'r' => write!(text, "{:?} ", within(|| entry.remove()))?,
        b'm' => *within(|| entry.into_mut()) = values.take(),
        _ => {}
    }
    Ok(())
}

/// Inserts at `i`, inserts 0 that is then written at `m`, or forgets the entry at `o`.
fn edit_vacant(entry: Vacant<'_>, edit: u8, values: &mut Values, text: &mut String) -> Result {
    write!(text, "vacant {:?} ", entry.key())?;
    match edit {
        b'i' => {
            let value = values.take();
            write!(text, "{:?} ", within(|| entry.insert(value)))?;
        }
        b'm' => {
            let zero = values.zero();
            *within(|| entry.insert(zero)) = values.take();
        }
        b'o' => mem::forget(entry),
        _ => within(|| drop(entry)),
    }
    Ok(())
}

/// Makes an edit by the entry of a key.
fn edit(line: &mut Line<'_>, map: &mut Map, text: &mut String) -> Result {
    let key = line.key();
    let edit = line.word().bytes().next().unwrap_or(0);
    let mut values = line.values();
    match within(|| map.entry(key)) {
        Entry::Occupied(entry) => edit_occupied(entry, edit, &mut values, text),
        Entry::Vacant(entry) => edit_vacant(entry, edit, &mut values, text),
    }
}

/// Makes an edit by each entry of a cursor, up to the end of the word. A cursor that is dropped or
/// forgotten is the same.
fn visit(line: &mut Line<'_>, map: &mut Map, text: &mut String) -> Result {
    let (edits, mut values) = (line.word(), line.values());
    let mut entries = map.entries();
    for edit in edits.bytes() {
        write!(text, "{} ", entries.size_hint().0)?;
        match within(|| entries.next()) {
            Some(entry) => edit_occupied(entry, edit, &mut values, text)?,
            None => write!(text, "end ")?,
        }
    }
    Ok(())
}

/// Appends a value that is lent, and writes the number after it.
fn show_and_increase(lent: &mut Value, text: &mut String) -> Result {
    write!(text, "{lent:?} ")?;
    lent.add(1);
    Ok(())
}

/// Writes a value that an entry lends, or inserts 0.
fn and_modify(line: &mut Line<'_>, map: &mut Map, text: &mut String) -> Result {
    let (key, value) = (line.key(), line.value());
    let guard = Guard::new();
    let zero = Value::new(0);
    let modify = move |lent: &mut Value| guard.with(|| *lent = value);
    let lent = within(|| map.entry(key).and_modify(modify).or_insert(zero));
    show_and_increase(lent, text)
}

/// Runs the call of this name, and tells whether there is one.
pub fn run(name: &str, line: &mut Line<'_>, map: &mut Map, text: &mut String) -> Known {
    match name {
        "entry" => edit(line, map, text)?,
        "entry_key" => {
            let key = line.key();
            let entry = within(|| map.entry(key));
            write!(text, "{:?} ", entry.key())?;
            within(|| drop(entry));
        }
        "or_insert" => {
            let (key, value) = (line.key(), line.value());
            show_and_increase(within(|| map.entry(key).or_insert(value)), text)?;
        }
        "or_insert_with" => {
            let (key, value) = (line.key(), line.value());
            let guard = Guard::new();
            let make = move || guard.with(|| value);
            show_and_increase(within(|| map.entry(key).or_insert_with(make)), text)?;
        }
        "or_default" => {
            let key = line.key();
            show_and_increase(within(|| map.entry(key).or_default()), text)?;
        }
        "and_modify" => and_modify(line, map, text)?,
        "entries" => visit(line, map, text)?,
        _ => return Ok(false),
    }
    Ok(true)
}
