//! Calls of a set, made on hashlink 0.8.0.

use crate::counts::{within, Calls, Guard};
use crate::hasher::BuildKeyHasher;
use crate::iterators::{iterate_and_clone, iterate_to_the_end, make_forward_steps};
use crate::key::Key;
use crate::line::Line;
use crate::list::push_items;
use crate::Known;
use std::fmt::{Result, Write};
use std::hash::{BuildHasher, Hash, Hasher};
use std::mem;

/// The sets that the lines speak of.
pub type Set = hashlink::LinkedHashSet<Key, BuildKeyHasher>;

/// Appends the items of an iterator.
fn show_all<'s>(items: impl Iterator<Item = &'s Key>, text: &mut String) -> Result {
    for item in items {
        write!(text, "{item:?} ")?;
    }
    Ok(())
}

/// Appends all items of an iterator, or makes the steps of the words, if there are any: then by a
/// clone and by the iterator itself.
fn show_steps<'s>(
    mut items: impl Iterator<Item = &'s Key> + Clone,
    line: &mut Line<'_>,
    text: &mut String,
) -> Result {
    let (first, steps) = (line.word(), line.word());
    if first.is_empty() {
        return show_all(items, text);
    }
    make_forward_steps(&mut items, first, text)?;
    make_forward_steps(&mut items.clone(), steps, text)?;
    write!(text, "/ ")?;
    make_forward_steps(&mut items, steps, text)
}

/// Makes a set with the default hasher, inserts a number twice, and shows it.
fn show_new(number: u64, text: &mut String) -> Result {
    let mut set = hashlink::LinkedHashSet::new();
    write!(text, "{} {} ", set.insert(number), set.insert(number))?;
    write!(text, "{set:?} ")
}

/// Makes the set that this name says, if it does.
fn new(name: &str, line: &mut Line<'_>, other: &Set) -> Option<Set> {
    Some(match name {
        "with_hasher" => {
            let hasher = line.hasher();
            within(|| Set::with_hasher(hasher))
        }
        "with_capacity" => {
            let (hasher, capacity) = (line.hasher(), line.size());
            within(|| Set::with_capacity_and_hasher(capacity, hasher))
        }
        "from_iter" | "collect" => {
            let items = line.items();
            within(|| Set::from_iter(items))
        }
        "clone" => within(|| other.clone()),
        _ => return None,
    })
}

/// Runs the call of this name that makes a set or takes items in, and tells whether there is one.
fn make(name: &str, line: &mut Line<'_>, set: &mut Set, other: &Set, text: &mut String) -> Known {
    match name {
        "new" => show_new(line.number(), text)?,
        "extend" => {
            let items = line.items();
            within(|| set.extend(items));
        }
        "extend_refs" => within(|| set.extend(other.iter().cloned())),
        _ => match new(name, line, other) {
            Some(new) => *set = new,
            None => return Ok(false),
        },
    }
    write!(text, "{:?} ", set.hasher())?;
    Ok(true)
}

/// Runs the call of this name that is handed an item, and tells whether there is one.
fn run_by_given(name: &str, line: &mut Line<'_>, set: &mut Set, text: &mut String) -> Known {
    match name {
        "insert" => {
            let item = line.key();
            write!(text, "{} ", within(|| set.insert(item)))?;
        }
        "replace" => {
            let item = line.key();
            write!(text, "{:?} ", within(|| set.replace(item)))?;
        }
        "get_or_insert" => {
            let item = line.key();
            write!(text, "{:?} ", within(|| set.get_or_insert(item)))?;
        }
        _ => return Ok(false),
    }
    Ok(true)
}

/// Makes the call of this name by a key, appends what it returns, and tells whether there is one.
fn run_by_key(name: &str, line: &mut Line<'_>, set: &mut Set, text: &mut String) -> Known {
    const NAMES: [&str; 7] = [
        "get_or_insert_with",
        "contains",
        "get",
        "take",
        "remove",
        "to_front",
        "to_back",
    ];
    if !NAMES.contains(&name) {
        return Ok(false);
    }
    let key = line.key();
    match name {
        "get_or_insert_with" => {
            let guard = Guard::new();
            let make = move |key: &Key| guard.with(|| key.again());
            write!(text, "{:?} ", within(|| set.get_or_insert_with(&key, make)))?;
        }
        "contains" => write!(text, "{} ", within(|| set.contains(&key)))?,
        "get" => write!(text, "{:?} ", within(|| set.get(&key)))?,
        "take" => write!(text, "{:?} ", within(|| set.take(&key)))?,
        "remove" => write!(text, "{} ", within(|| set.remove(&key)))?,
        "to_front" => write!(text, "{} ", within(|| set.to_front(&key)))?,
        _ => write!(text, "{} ", within(|| set.to_back(&key)))?,
    }
    Ok(true)
}

/// Keeps the items that, as numbers, are not this number modulo 7.
fn retain(set: &mut Set, number: u64, text: &mut String) -> Result {
    let guard = Guard::new();
    let calls = Calls::default();
    let noted = &calls;
    let is_kept = move |item: &Key| {
        noted.note();
        guard.with(|| item.number() % 7 != number % 7)
    };
    within(|| set.retain(is_kept));
    calls.show(text)
}

/// Runs the call of this name on a whole set, and tells whether there is one.
fn run_on_all(name: &str, line: &mut Line<'_>, set: &mut Set, text: &mut String) -> Known {
    match name {
        "front" => write!(text, "{:?} ", within(|| set.front()))?,
        "back" => write!(text, "{:?} ", within(|| set.back()))?,
        "pop_front" => write!(text, "{:?} ", within(|| set.pop_front()))?,
        "pop_back" => write!(text, "{:?} ", within(|| set.pop_back()))?,
        "len" => write!(text, "{} {} ", set.len(), set.is_empty())?,
        "clear" => within(|| set.clear()),
        // With items it panics, since it hashes them by a hasher that is never to be called.
        "reserve" if set.is_empty() => {
            let count = line.size();
            within(|| set.reserve(count));
        }
        "reserve" => {}
        "shrink_to_fit" => within(|| set.shrink_to_fit()),
        "hasher" => write!(text, "{:?} ", set.hasher())?,
        "drop" => {
            let dropped = mem::take(set);
            within(|| drop(dropped));
        }
        "retain" => retain(set, line.number(), text)?,
        "iter" => iterate_and_clone(set.iter(), line, text)?,
        "drain" => iterate_to_the_end(within(|| set.drain()), line, text)?,
        "into_iter" => iterate_to_the_end(within(|| set.clone().into_iter()), line, text)?,
        "loop" => show_all((&*set).into_iter(), text)?,
        "debug" => write!(text, "{set:?} ")?,
        _ => return Ok(false),
    }
    Ok(true)
}

/// Returns the hash that the default hasher gives a set.
fn hash_of(set: &Set) -> u64 {
    let mut hasher = BuildKeyHasher::default().build_hasher();
    set.hash(&mut hasher);
    hasher.finish()
}

/// Runs the call of this name on two sets, and tells whether there is one.
fn run_on_both(
    name: &str,
    line: &mut Line<'_>,
    set: &Set,
    other: &Set,
    text: &mut String,
) -> Known {
    match name {
        "difference" => show_steps(set.difference(other), line, text)?,
        "symmetric_difference" => show_steps(set.symmetric_difference(other), line, text)?,
        "intersection" => show_steps(set.intersection(other), line, text)?,
        "union" => show_steps(set.union(other), line, text)?,
        "is_subset" => write!(text, "{} ", set.is_subset(other))?,
        "is_superset" => write!(text, "{} ", set.is_superset(other))?,
        "is_disjoint" => write!(text, "{} ", set.is_disjoint(other))?,
        "eq" => write!(text, "{} {} ", *set == *other, *set != *other)?,
        "hash" => write!(text, "{} ", hash_of(set))?,
        _ => return Ok(false),
    }
    Ok(true)
}

/// Runs the call of this name, appends what it returns and the list, and tells whether there is
/// such a call.
pub fn run(
    name: &str,
    line: &mut Line<'_>,
    set: &mut Set,
    other: &Set,
    text: &mut String,
) -> Known {
    let known = make(name, line, set, other, text)?
        || run_by_given(name, line, set, text)?
        || run_by_key(name, line, set, text)?
        || run_on_all(name, line, set, text)?
        || run_on_both(name, line, set, other, text)?;
    if known {
        push_items(set.iter(), text)?;
    }
    Ok(known)
}
