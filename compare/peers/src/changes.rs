//! The workloads of calls that change many pairs, or one by its entry, as
//! `crates/bench/src/changes.rt` has them.

use crate::hasher::Build;
use crate::order::{mix, Order};

/// A map from keys to counts.
pub trait Counts {
    fn new() -> Self;
    fn with_capacity(capacity: usize) -> Self;
    fn len(&self) -> usize;
    fn insert(&mut self, key: u64, count: u32);

    /// Returns the count of the entry of a key, which is inserted if it is absent.
    fn or_insert(&mut self, key: u64, count: u32) -> &mut u32;
    fn insert_all(&mut self, pairs: impl Iterator<Item = (u64, u32)>);
}

/// A map that keeps some of its pairs.
pub trait Retain: Counts {
    fn retain(&mut self, keep: impl FnMut(&u64, &mut u32) -> bool);
}

/// A map that removes a pair and keeps the order of the others.
pub trait Remove: Counts {
    fn remove(&mut self, key: u64) -> Option<u32>;

    /// Returns the keys, in order.
    fn keys(&self) -> Vec<u64>;
}

/// Makes a `Counts` of a crate's map.
macro_rules! counts {
    ($($map:ident)::+) => {
        impl<S: Build> Counts for $($map)::+<u64, u32, S> {
            fn new() -> Self {
                Self::with_hasher(S::default())
            }

            fn with_capacity(capacity: usize) -> Self {
                Self::with_capacity_and_hasher(capacity, S::default())
            }

            fn len(&self) -> usize {
                self.len()
            }

            fn insert(&mut self, key: u64, count: u32) {
                self.insert(key, count);
            }

            fn or_insert(&mut self, key: u64, count: u32) -> &mut u32 {
                self.entry(key).or_insert(count)
            }

            fn insert_all(&mut self, pairs: impl Iterator<Item = (u64, u32)>) {
                self.extend(pairs);
            }
        }
    };
}

/// Makes a crate's map keep some of its pairs.
macro_rules! retain {
    ($($map:ident)::+) => {
        impl<S: Build> Retain for $($map)::+<u64, u32, S> {
            fn retain(&mut self, keep: impl FnMut(&u64, &mut u32) -> bool) {
                self.retain(keep);
            }
        }
    };
}

/// Makes a crate's map remove pairs.
macro_rules! remove {
    ($($map:ident)::+) => {
        impl<S: Build> Remove for $($map)::+<u64, u32, S> {
            fn remove(&mut self, key: u64) -> Option<u32> {
                self.remove(&key)
            }

            fn keys(&self) -> Vec<u64> {
                self.keys().copied().collect()
            }
        }
    };
}

counts!(linked_hash_map::LinkedHashMap);
counts!(hashlink::LinkedHashMap);
counts!(indexmap::IndexMap);
retain!(hashlink::LinkedHashMap);
retain!(indexmap::IndexMap);
remove!(linked_hash_map::LinkedHashMap);
remove!(hashlink::LinkedHashMap);

pub fn entry_new<M: Counts>(start: u64, n: u64) -> M {
    let mut map = M::new();
    for i in 0..n {
        map.or_insert(mix(start.wrapping_add(i)), 1);
    }
    map
}

pub fn entry_present<M: Counts, O: Order>(map: &mut M, order: &mut O, n: u64) -> u64 {
    let mut sink = 0;
    for i in 0..n {
        let count = map.or_insert(mix(order.index(i, n)), 0);
        *count = count.wrapping_add(1);
        sink ^= u64::from(*count);
    }
    sink
}

pub fn retain_half<M: Retain>(map: &mut M) -> u64 {
    map.retain(|key, _| *key % 2 == 0);
    map.len() as u64
}

pub fn empty_refill<M: Remove>(map: &mut M) -> u64 {
    let keys = map.keys();
    let mut count = 0;
    for key in &keys {
        count ^= map.remove(*key).unwrap_or(0);
    }
    for key in &keys {
        map.insert(*key, count);
    }
    u64::from(count)
}

pub fn extend<M: Counts>(start: u64, n: u64) -> M {
    let mut map = M::new();
    map.insert_all((0..n).map(|i| (mix(start.wrapping_add(i)), 1)));
    map
}

pub fn with_capacity<M: Counts>(start: u64, n: u64) -> M {
    let mut map = M::with_capacity(n as usize);
    for i in 0..n {
        map.insert(mix(start.wrapping_add(i)), 1);
    }
    map
}
