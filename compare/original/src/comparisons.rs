//! Calls that compare two maps, hash one or show it.

use crate::hasher::BuildKeyHasher;
use crate::line::Line;
use crate::{Known, Map};
use linked_hash_map::LinkedHashMap;
use std::fmt::Write;
use std::hash::{BuildHasher, Hash, Hasher};

/// A map whose keys are compared as they are.
type Plain = LinkedHashMap<u64, u64>;

/// Makes a map of the same pairs whose keys are compared as they are.
fn plain(map: &Map) -> Plain {
    let mut plain = Plain::with_capacity(map.len());
    for (key, value) in map.iter() {
        plain.insert(key.number(), value.number);
    }
    plain
}

/// Makes a map with the default hasher, puts in the pair of a number, and shows it.
fn show_new(number: u64, text: &mut String) -> std::fmt::Result {
    let mut map = Plain::new();
    map.insert(number, number);
    write!(text, "{map:?} ")
}

/// Appends which of two maps is less.
fn compare(map: &Plain, other: &Plain, text: &mut String) -> std::fmt::Result {
    write!(text, "{:?} ", map.cmp(other))?;
    partial_compare(map, other, text)
}

/// Appends which of two maps is less, if they have an order.
fn partial_compare<M: PartialOrd>(map: &M, other: &M, text: &mut String) -> std::fmt::Result {
    write!(text, "{:?} ", map.partial_cmp(other))?;
    write!(text, "{} {} ", *map < *other, *map <= *other)?;
    write!(text, "{} {} ", *map > *other, *map >= *other)
}

/// Returns the hash that the default hasher gives a map.
fn hash_of(map: &Map) -> u64 {
    let mut hasher = BuildKeyHasher::default().build_hasher();
    map.hash(&mut hasher);
    hasher.finish()
}

/// Runs the call of this name, and tells whether there is one.
pub fn run(name: &str, line: &mut Line<'_>, map: &Map, other: &Map, text: &mut String) -> Known {
    match name {
        "eq" => write!(text, "{} {} ", *map == *other, *map != *other)?,
        "cmp" => compare(&plain(map), &plain(other), text)?,
        "partial_cmp" => partial_compare(map, other, text)?,
        "new" => show_new(line.number(), text)?,
        "hash" => write!(text, "{} ", hash_of(map))?,
        "debug" => write!(text, "{map:?} ")?,
        "debug_pretty" => write!(text, "{:?} ", format!("{map:#?}"))?,
        _ => return Ok(false),
    }
    Ok(true)
}
