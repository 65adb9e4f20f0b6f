//! Calls that make a map, and those that take in the pairs of another.

use crate::counts::within;
use crate::line::Line;
use crate::{Known, Map};
use std::fmt::Write;
use std::mem;

/// Makes the map that this name says, if it does.
fn new(name: &str, line: &mut Line<'_>, other: &Map) -> Option<Map> {
    Some(match name {
        "with_hasher" => {
            let hasher = line.hasher();
            within(|| Map::with_hasher(hasher))
        }
        "with_capacity" => {
            let (hasher, capacity) = (line.hasher(), line.size());
            within(|| Map::with_capacity_and_hasher(capacity, hasher))
        }
        "default" => within(Map::default),
        "from_iter" | "collect" => {
            let pairs = line.pairs();
            within(|| Map::from_iter(pairs))
        }
        "clone" => within(|| other.clone()),
        _ => return None,
    })
}

/// Runs the call of this name, and tells whether there is one.
pub fn run(
    name: &str,
    line: &mut Line<'_>,
    map: &mut Map,
    other: &mut Map,
    text: &mut String,
) -> Known {
    match name {
        "extend" | "extend_trait" => {
            let pairs = line.pairs();
            within(|| map.extend(pairs));
        }
        "extend_refs" => within(|| map.extend(other.iter().map(|(k, v)| (k.clone(), v.clone())))),
        "extend_drain" => within(|| map.extend(other.drain())),
        "swap" => mem::swap(map, other),
        _ => match new(name, line, other) {
            Some(new) => *map = new,
            None => return Ok(false),
        },
    }
    write!(text, "{:?} ", map.hasher())?;
    Ok(true)
}
