//! Calls of a cache, each made on lru-cache 0.1.2 and on hashlink 0.8.0.

use crate::counts::{last_serial, set_last_serial, within};
use crate::hasher::BuildKeyHasher;
use crate::iterators::{iterate_and_clone, iterate_and_write, iterate_to_the_end, show_all};
use crate::key::Key;
use crate::line::Line;
use crate::list::push_pairs;
use crate::lookups::write_lent;
use crate::value::Value;
use crate::Known;
use std::fmt::Write;

type LruCache = lru_cache::LruCache<Key, Value, BuildKeyHasher>;

type Hashlink = hashlink::LruCache<Key, Value, BuildKeyHasher>;

/// A cache of each of the two crates.
pub struct Cache {
    lru_cache: LruCache,
    hashlink: Hashlink,
}

impl Default for Cache {
    fn default() -> Cache {
        Cache {
            lru_cache: LruCache::with_hasher(0, BuildKeyHasher::default()),
            hashlink: Hashlink::with_hasher(0, BuildKeyHasher::default()),
        }
    }
}

/// Defines the function that runs a call on the cache of a crate, and appends its limit and list.
/// A call that lru-cache does not have is run by another function.
macro_rules! define_run {
    ($run:ident, $cache:ident, $package:ident, $run_by_key:ident, $run_other:ident) => {
        /// Runs the call of this name by a key, and tells whether there is one.
        fn $run_by_key(
            name: &str,
            line: &mut Line<'_>,
            cache: &mut $cache,
            text: &mut String,
        ) -> Known {
            match name {
                "insert" => {
                    let (key, value) = (line.key(), line.value());
                    write!(text, "{:?} ", within(|| cache.insert(key, value)))?;
                }
                "get_mut" => {
                    let (key, value) = (line.key(), line.value());
                    write_lent(within(|| cache.get_mut(&key)), value, text)?;
                }
                "contains_key" => {
                    let key = line.key();
                    write!(text, "{} ", within(|| cache.contains_key(&key)))?;
                }
                "remove" => {
                    let key = line.key();
                    write!(text, "{:?} ", within(|| cache.remove(&key)))?;
                }
                _ => return $run_other(name, line, cache, text),
            }
            Ok(true)
        }

        fn $run(
            name: &str,
            line: &mut Line<'_>,
            cache: &mut $cache,
            other: &$cache,
            text: &mut String,
        ) -> Known {
            match name {
                "with_hasher" => {
                    let (hasher, limit) = (line.hasher(), line.size());
                    let new = within(|| $cache::with_hasher(limit, hasher));
                    *cache = new;
                }
                "remove_lru" => write!(text, "{:?} ", within(|| cache.remove_lru()))?,
                "set_capacity" => {
                    let limit = line.size();
                    within(|| cache.set_capacity(limit));
                }
                "len" => write!(text, "{} {} ", cache.len(), cache.is_empty())?,
                "clear" => within(|| cache.clear()),
                "drop" => {
                    let new = $cache::with_hasher(0, BuildKeyHasher::default());
                    let dropped = std::mem::replace(cache, new);
                    within(|| drop(dropped));
                }
                "extend" => {
                    let pairs = line.pairs();
                    within(|| cache.extend(pairs));
                }
                "clone" => {
                    let copy = within(|| other.clone());
                    *cache = copy;
                }
                "iter" => iterate_and_clone(cache.iter(), line, text)?,
                "iter_mut" => iterate_and_write(cache.iter_mut(), line, text)?,
                "into_iter" => {
                    iterate_to_the_end(within(|| cache.clone().into_iter()), line, text)?;
                }
                "loop" => show_all((&*cache).into_iter(), text)?,
                "loop_mut" => {
                    let number = line.number();
                    for (_key, value) in &mut *cache {
                        value.add(number);
                    }
                }
                "debug" => write!(text, "{cache:?} ")?,
                "new" => {
                    let mut new = $package::LruCache::new(1);
                    new.extend([(0, 0), (line.number(), 1)]);
                    write!(text, "{new:?} ")?;
                }
                _ => {
                    if !$run_by_key(name, line, cache, text)? {
                        return Ok(false);
                    }
                }
            }
            write!(text, "| {} ", cache.capacity())?;
            push_pairs(cache.iter(), text)?;
            Ok(true)
        }
    };
}

define_run!(
    run_on_lru_cache,
    LruCache,
    lru_cache,
    run_by_key_on_lru_cache,
    run_by_others
);
define_run!(
    run_on_hashlink,
    Hashlink,
    hashlink,
    run_by_key_on_hashlink,
    run_of_hashlink
);

/// Runs a call of hashlink on lru-cache, by calls that it has.
fn run_by_others(
    name: &str,
    line: &mut Line<'_>,
    cache: &mut LruCache,
    text: &mut String,
) -> Known {
    match name {
        "get" => {
            let key = line.key();
            write!(text, "{:?} ", within(|| cache.get_mut(&key)))?;
        }
        "peek" => {
            let key = line.key();
            let pair = within(|| cache.iter().find(|pair| *pair.0 == key));
            write!(text, "{:?} ", pair.map(|pair| pair.1))?;
        }
        "peek_mut" => {
            let (key, value) = (line.key(), line.value());
            let pair = within(|| cache.iter_mut().find(|pair| *pair.0 == key));
            write_lent(pair.map(|pair| pair.1), value, text)?;
        }
        "drain" => {
            // What is left of the vector is dropped as what is left of a drain is.
            let pairs: Vec<_> = std::iter::from_fn(|| cache.remove_lru()).collect();
            iterate_to_the_end(pairs.into_iter(), line, text)?;
        }
        _ => return Ok(false),
    }
    Ok(true)
}

/// An iterator that has no `len` of its own.
struct Counted<I>(I);

impl<I: Iterator> Iterator for Counted<I> {
    type Item = I::Item;

    fn next(&mut self) -> Option<I::Item> {
        self.0.next()
    }

    fn size_hint(&self) -> (usize, Option<usize>) {
        self.0.size_hint()
    }
}

impl<I: DoubleEndedIterator> DoubleEndedIterator for Counted<I> {
    fn next_back(&mut self) -> Option<I::Item> {
        self.0.next_back()
    }
}

impl<I: Iterator> ExactSizeIterator for Counted<I> {}

/// Runs a call that only hashlink has.
fn run_of_hashlink(
    name: &str,
    line: &mut Line<'_>,
    cache: &mut Hashlink,
    text: &mut String,
) -> Known {
    match name {
        "get" => {
            let key = line.key();
            write!(text, "{:?} ", within(|| cache.get(&key)))?;
        }
        "peek" => {
            let key = line.key();
            write!(text, "{:?} ", within(|| cache.peek(&key)))?;
        }
        "peek_mut" => {
            let (key, value) = (line.key(), line.value());
            write_lent(within(|| cache.peek_mut(&key)), value, text)?;
        }
        "drain" => iterate_to_the_end(Counted(within(|| cache.drain())), line, text)?,
        _ => return Ok(false),
    }
    Ok(true)
}

/// Runs the call of this name on the caches of both crates, appends what it returns, the limit and
/// the list, and tells whether there is such a call. If hashlink does not do the same as lru-cache,
/// that is appended too.
pub fn run(
    name: &str,
    line: &mut Line<'_>,
    cache: &mut Cache,
    other: &Cache,
    text: &mut String,
) -> Known {
    let (mut same_line, mut by_hashlink) = (line.clone(), String::new());
    let (one, other_one) = (&mut cache.lru_cache, &other.lru_cache);
    let (two, other_two) = (&mut cache.hashlink, &other.hashlink);
    let begin = text.len();
    // The words of the line are the same objects for both.
    let serial = last_serial();
    let known = run_on_lru_cache(name, line, one, other_one, text)?;
    set_last_serial(serial);
    run_on_hashlink(name, &mut same_line, two, other_two, &mut by_hashlink)?;
    if text[begin..] != by_hashlink {
        text.truncate(text.trim_end().len());
        write!(text, " / hashlink: {by_hashlink}")?;
    }
    Ok(known)
}
