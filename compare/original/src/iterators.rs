//! Iterators and loops over the pairs.

use crate::counts::within;
use crate::key::Key;
use crate::line::Line;
use crate::value::Value;
use crate::{Known, Map};
use std::fmt::{Debug, Result, Write};
use std::mem;

/// Returns the next item, from the back at a `b`.
fn step<T>(items: &mut impl DoubleEndedIterator<Item = T>, letter: u8) -> Option<T> {
    if letter == b'b' {
        items.next_back()
    } else {
        items.next()
    }
}

/// Makes a step for each letter, and appends what each gives and how much is left.
fn make_steps<T: Debug>(
    items: &mut (impl DoubleEndedIterator<Item = T> + ExactSizeIterator),
    steps: &str,
    text: &mut String,
) -> Result {
    for letter in steps.bytes() {
        let item = within(|| step(items, letter));
        write!(text, "{item:?} {:?} {} ", items.size_hint(), items.len())?;
    }
    Ok(())
}

/// Iterates, and drops the iterator.
fn iterate<T: Debug>(
    mut items: impl DoubleEndedIterator<Item = T> + ExactSizeIterator,
    steps: &str,
    text: &mut String,
) -> Result {
    make_steps(&mut items, steps, text)?;
    within(|| drop(items));
    Ok(())
}

/// Makes a step forwards for each letter, and appends what each gives.
pub fn make_forward_steps<T: Debug>(
    items: &mut impl Iterator<Item = T>,
    steps: &str,
    text: &mut String,
) -> Result {
    for _letter in steps.bytes() {
        write!(text, "{:?} ", within(|| items.next()))?;
    }
    Ok(())
}

/// Iterates, and drops the iterator, or forgets it if the next word says so.
pub fn iterate_to_the_end<T: Debug>(
    mut items: impl DoubleEndedIterator<Item = T> + ExactSizeIterator,
    line: &mut Line<'_>,
    text: &mut String,
) -> Result {
    make_steps(&mut items, line.word(), text)?;
    if line.word() == "forget" {
        mem::forget(items);
    } else {
        within(|| drop(items));
    }
    Ok(())
}

/// Iterates, clones the iterator, and iterates by the clone and then by the iterator itself.
pub fn iterate_and_clone<T: Debug>(
    mut items: impl DoubleEndedIterator<Item = T> + ExactSizeIterator + Clone,
    line: &mut Line<'_>,
    text: &mut String,
) -> Result {
    make_steps(&mut items, line.word(), text)?;
    let copy = within(|| items.clone());
    let steps = line.word();
    iterate(copy, steps, text)?;
    write!(text, "/ ")?;
    iterate(items, steps, text)
}

/// Iterates by `iter_mut`, and writes each value that is lent.
pub fn iterate_and_write<'m>(
    mut pairs: impl DoubleEndedIterator<Item = (&'m Key, &'m mut Value)> + ExactSizeIterator,
    line: &mut Line<'_>,
    text: &mut String,
) -> Result {
    let (steps, mut values) = (line.word(), line.values());
    for letter in steps.bytes() {
        match within(|| step(&mut pairs, letter)) {
            Some((key, lent)) => {
                write!(text, "{key:?}={lent:?} ")?;
                *lent = values.take();
            }
            None => write!(text, "end ")?,
        }
        write!(text, "{:?} {} ", pairs.size_hint(), pairs.len())?;
    }
    Ok(())
}

/// Appends the pairs of a loop.
pub fn show_all<'m>(
    pairs: impl Iterator<Item = (&'m Key, &'m Value)>,
    text: &mut String,
) -> Result {
    for (key, value) in pairs {
        write!(text, "{key:?}={value:?} ")?;
    }
    Ok(())
}

/// Runs the call of this name, and tells whether there is one.
pub fn run(name: &str, line: &mut Line<'_>, map: &mut Map, text: &mut String) -> Known {
    match name {
        "iter" => iterate_and_clone(map.iter(), line, text)?,
        "keys" => iterate_and_clone(map.keys(), line, text)?,
        "values" => iterate_and_clone(map.values(), line, text)?,
        "iter_mut" => iterate_and_write(map.iter_mut(), line, text)?,
        "into_iter" => {
            let taken = mem::take(map);
            iterate_and_clone(within(|| taken.into_iter()), line, text)?;
        }
        "into_iter_forget" => {
            let taken = mem::take(map);
            let mut pairs = within(|| taken.into_iter());
            make_steps(&mut pairs, line.word(), text)?;
            mem::forget(pairs);
        }
        "drain" => iterate_to_the_end(within(|| map.drain()), line, text)?,
        "loop" => show_all((&*map).into_iter(), text)?,
        "loop_mut" => {
            let number = line.number();
            for (_key, value) in map {
                value.add(number);
            }
        }
        _ => return Ok(false),
    }
    Ok(true)
}
