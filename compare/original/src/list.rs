//! The list of a map, a cache or a set, at the end of each line of the output.

use crate::counts::end_line;
use crate::key::Key;
use crate::value::Value;
use std::fmt::{Result, Write};

/// The longest list that is shown whole.
const SHOWN: usize = 100;

/// Returns a digest of the numbers of some items, by their positions.
fn digest(numbers: impl Iterator<Item = u64>) -> u64 {
    (1_u64..).zip(numbers).fold(0, |sum, (position, number)| {
        sum.wrapping_add(position.wrapping_mul(number))
    })
}

/// Returns the number of a pair, for a digest.
fn mixed(key: &Key, value: &Value) -> u64 {
    key.number() ^ value.number.wrapping_mul(1_099_511_628_211)
}

/// Appends the items in order. If they are many, it appends the first, the last and a digest.
fn push_list<T>(
    mut items: impl ExactSizeIterator<Item = T> + DoubleEndedIterator + Clone,
    push: impl Fn(T, &mut String) -> Result,
    number: impl Fn(T) -> u64,
    text: &mut String,
) -> Result {
    write!(text, "| {}", items.len())?;
    if items.len() <= SHOWN {
        return items.try_for_each(|item| push(item, text));
    }
    let digest = digest(items.clone().map(number));
    for item in [items.next(), items.next_back()].into_iter().flatten() {
        push(item, text)?;
    }
    write!(text, " {digest}")
}

/// Appends the pairs in order and what was dropped, and ends the line.
pub fn push_pairs<'m>(
    pairs: impl ExactSizeIterator<Item = (&'m Key, &'m Value)> + DoubleEndedIterator + Clone,
    text: &mut String,
) -> Result {
    let push = |(key, value): (&Key, &Value), text: &mut String| write!(text, " {key:?}:{value:?}");
    push_list(pairs, push, |(key, value)| mixed(key, value), text)?;
    end_line(text)
}

/// Appends the items in order and what was dropped, and ends the line.
pub fn push_items<'m>(
    items: impl ExactSizeIterator<Item = &'m Key> + DoubleEndedIterator + Clone,
    text: &mut String,
) -> Result {
    let push = |item: &Key, text: &mut String| write!(text, " {item:?}");
    push_list(items, push, Key::number, text)?;
    end_line(text)
}
