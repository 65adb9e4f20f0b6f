//! The workloads of caches and sets, as `crates/bench/src/products.rt` has them.

use crate::hasher::Build;
use crate::order::{mix, Order};

/// A cache whose calls are timed.
pub trait Cache {
    fn with_limit(limit: usize) -> Self;
    fn len(&self) -> usize;
    fn insert(&mut self, key: u64, value: u64) -> Option<u64>;
    fn get_mut(&mut self, key: u64) -> Option<&mut u64>;
}

/// A set whose calls are timed.
pub trait Set {
    fn new() -> Self;
    fn len(&self) -> usize;
    fn insert(&mut self, item: u64) -> bool;
    fn contains(&self, item: u64) -> bool;

    /// Goes over the items in order.
    fn for_each(&self, visit: impl FnMut(u64));
}

macro_rules! cache {
    ($($cache:ident)::+) => {
        impl<S: Build> Cache for $($cache)::+<u64, u64, S> {
            fn with_limit(limit: usize) -> Self {
                Self::with_hasher(limit, S::default())
            }

            fn len(&self) -> usize {
                self.len()
            }

            fn insert(&mut self, key: u64, value: u64) -> Option<u64> {
                self.insert(key, value)
            }

            fn get_mut(&mut self, key: u64) -> Option<&mut u64> {
                self.get_mut(&key)
            }
        }
    };
}

cache!(lru_cache::LruCache);
cache!(hashlink::LruCache);

impl<S: Build> Set for hashlink::LinkedHashSet<u64, S> {
    fn new() -> Self {
        Self::with_hasher(S::default())
    }

    fn len(&self) -> usize {
        self.len()
    }

    fn insert(&mut self, item: u64) -> bool {
        self.insert(item)
    }

    fn contains(&self, item: u64) -> bool {
        self.contains(&item)
    }

    fn for_each(&self, mut visit: impl FnMut(u64)) {
        for item in self.iter() {
            visit(*item);
        }
    }
}

/// Makes a cache of at most `limit` pairs, and inserts `n`, with the keys of the indexes from
/// `start` on.
pub fn fill_cache<C: Cache>(start: u64, limit: u64, n: u64) -> C {
    let mut cache = C::with_limit(limit as usize);
    for i in 0..n {
        cache.insert(mix(start.wrapping_add(i)), i);
    }
    cache
}

pub fn cache_hit<C: Cache, O: Order>(cache: &mut C, order: &mut O, n: u64) -> u64 {
    let mut sink = 0;
    for i in 0..n {
        if let Some(value) = cache.get_mut(mix(order.index(i, n))) {
            sink ^= *value;
        }
    }
    sink
}

/// Makes a set of `n` items, those of the indexes from `start` on.
pub fn fill_set<S: Set>(start: u64, n: u64) -> S {
    let mut set = S::new();
    for i in 0..n {
        set.insert(mix(start.wrapping_add(i)));
    }
    set
}

pub fn set_contains<S: Set, O: Order>(set: &S, order: &mut O, n: u64) -> u64 {
    let mut count = 0;
    for i in 0..n {
        if set.contains(mix(order.index(i, n))) {
            count += 1;
        }
    }
    count
}

pub fn set_iterate<S: Set>(set: &S) -> u64 {
    let mut sink = 0;
    set.for_each(|item| sink ^= item);
    sink
}
