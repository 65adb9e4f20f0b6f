//! Runs calls of the public API of linked-hash-map 0.5.6, of the caches of lru-cache 0.1.2 and
//! hashlink 0.8.0, and of hashlink's set, from standard input to standard output, one a line: what
//! `crates/driver` does with the ports.

mod caches;
mod changes;
mod comparisons;
mod copied;
mod counts;
mod entries;
mod hasher;
mod iterators;
mod key;
mod line;
mod list;
mod lookups;
mod making;
mod sets;
mod value;

use caches::Cache;
use hasher::BuildKeyHasher;
use key::Key;
use line::Line;
use linked_hash_map::LinkedHashMap;
use sets::Set;
use std::fmt::Write as _;
use std::io::{self, Read, Write};
use value::Value;

/// The maps that the lines speak of.
type Map = LinkedHashMap<Key, Value, BuildKeyHasher>;

/// Whether there is a call of a name. If there is one, it has run.
type Known = Result<bool, std::fmt::Error>;

/// Two of a kind, which the lines call `a` and `b`.
#[derive(Default)]
struct Both<T> {
    a: T,
    b: T,
}

impl<T> Both<T> {
    /// Returns the one of a name, and then the other.
    fn named(&mut self, name: &str) -> (&mut T, &mut T) {
        match name {
            "b" => (&mut self.b, &mut self.a),
            _ => (&mut self.a, &mut self.b),
        }
    }
}

/// What the lines speak of.
#[derive(Default)]
struct All {
    maps: Both<Map>,
    caches: Both<Cache>,
    sets: Both<Set>,
}

/// Runs the call of this name on `map` and, if it takes two, on `other` too, appends what it
/// returns and the list of `map`, and tells whether there is such a call.
fn run_on_map(
    name: &str,
    line: &mut Line<'_>,
    map: &mut Map,
    other: &mut Map,
    text: &mut String,
) -> Known {
    let known = lookups::run(name, line, map, text)?
        || changes::run(name, line, map, text)?
        || making::run(name, line, map, other, text)?
        || entries::run(name, line, map, text)?
        || iterators::run(name, line, map, text)?
        || comparisons::run(name, line, map, other, text)?
        || copied::run(name, map, other, text)?;
    if known {
        list::push_pairs(map.iter(), text)?;
    }
    Ok(known)
}

/// Runs the call of a line, and appends what it returns and what it leaves. For a line that is no
/// call it appends `unknown`.
fn run_call(line: &mut Line<'_>, all: &mut All, text: &mut String) -> std::fmt::Result {
    let (call, name) = (line.word(), line.word());
    let known = if let Some(call) = call.strip_prefix("cache_") {
        let (cache, other) = all.caches.named(name);
        caches::run(call, line, cache, other, text)?
    } else if let Some(call) = call.strip_prefix("set_") {
        let (set, other) = all.sets.named(name);
        sets::run(call, line, set, other, text)?
    } else {
        let (map, other) = all.maps.named(name);
        run_on_map(call, line, map, other, text)?
    };
    if !known {
        writeln!(text, "unknown")?;
    }
    Ok(())
}

/// Runs the lines on new maps, caches and sets, and returns the whole text of the output. At a
/// heading, a line that begins with `#`, it makes them anew.
fn respond(lines: &str) -> Result<String, std::fmt::Error> {
    let mut text = String::new();
    let mut all = All::default();
    for line in lines.lines() {
        if line.starts_with('#') {
            all = All::default();
            writeln!(text, "{line}")?;
        } else {
            run_call(&mut Line::new(line), &mut all, &mut text)?;
        }
    }
    Ok(text)
}

fn main() -> io::Result<()> {
    let mut lines = String::new();
    io::stdin().read_to_string(&mut lines)?;
    let text = respond(&lines).expect("a string takes what is written to it");
    io::stdout().write_all(text.as_bytes())
}
