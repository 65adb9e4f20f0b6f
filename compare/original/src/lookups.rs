//! Calls that look up, and those that write one value.

use crate::counts::within;
use crate::line::Line;
use crate::value::Value;
use crate::{Known, Map};
use std::fmt::{Result, Write};

/// Writes a value that is lent, and appends what it was.
pub fn write_lent(lent: Option<&mut Value>, value: Value, text: &mut String) -> Result {
    match lent {
        Some(lent) => {
            write!(text, "{lent:?} ")?;
            *lent = value;
            Ok(())
        }
        None => write!(text, "absent "),
    }
}

/// Reads by index, if the key is present.
fn index(line: &mut Line<'_>, map: &Map, text: &mut String) -> Result {
    let key = line.key();
    if map.contains_key(&key) {
        write!(text, "{:?} ", within(|| &map[&key]))
    } else {
        write!(text, "absent ")
    }
}

/// Writes by index, if the key is present.
fn index_mut(line: &mut Line<'_>, map: &mut Map, text: &mut String) -> Result {
    let (key, value) = (line.key(), line.value());
    if map.contains_key(&key) {
        *within(|| &mut map[&key]) = value;
        write!(text, "written ")
    } else {
        write!(text, "absent ")
    }
}

/// Runs the call of this name by a key, and tells whether there is one.
fn run_by_key(name: &str, line: &mut Line<'_>, map: &mut Map, text: &mut String) -> Known {
    match name {
        "get" => {
            let key = line.key();
            write!(text, "{:?} ", within(|| map.get(&key)))?;
        }
        "contains_key" => {
            let key = line.key();
            write!(text, "{} ", within(|| map.contains_key(&key)))?;
        }
        "index" => index(line, map, text)?,
        "index_mut" => index_mut(line, map, text)?,
        "get_mut" => {
            let (key, value) = (line.key(), line.value());
            write_lent(within(|| map.get_mut(&key)), value, text)?;
        }
        "get_refresh" => {
            let (key, value) = (line.key(), line.value());
            write_lent(within(|| map.get_refresh(&key)), value, text)?;
        }
        _ => return Ok(false),
    }
    Ok(true)
}

/// Runs the call of this name, and tells whether there is one.
pub fn run(name: &str, line: &mut Line<'_>, map: &mut Map, text: &mut String) -> Known {
    match name {
        "front" => write!(text, "{:?} ", within(|| map.front()))?,
        "back" => write!(text, "{:?} ", within(|| map.back()))?,
        "len" => write!(text, "{} {} ", map.len(), map.is_empty())?,
        "hasher" => write!(text, "{:?} ", map.hasher())?,
        _ => return run_by_key(name, line, map, text),
    }
    Ok(true)
}
