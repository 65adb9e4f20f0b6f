//! Calls that change what pairs there are.

use crate::counts::within;
use crate::line::Line;
use crate::{Known, Map};
use std::fmt::Write;

/// Runs the call of this name, and tells whether there is one.
pub fn run(name: &str, line: &mut Line<'_>, map: &mut Map, text: &mut String) -> Known {
    match name {
        "insert" => {
            let (key, value) = (line.key(), line.value());
            write!(text, "{:?} ", within(|| map.insert(key, value)))?;
        }
        "remove" => {
            let key = line.key();
            write!(text, "{:?} ", within(|| map.remove(&key)))?;
        }
        "pop_front" => write!(text, "{:?} ", within(|| map.pop_front()))?,
        "pop_back" => write!(text, "{:?} ", within(|| map.pop_back()))?,
        "clear" => within(|| map.clear()),
        "reserve" => {
            let count = line.size();
            within(|| map.reserve(count));
        }
        "shrink_to_fit" => within(|| map.shrink_to_fit()),
        "drop" => {
            let dropped = std::mem::take(map);
            within(|| drop(dropped));
        }
        _ => return Ok(false),
    }
    Ok(true)
}
