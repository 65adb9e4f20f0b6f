//! The workloads of the calls that change or follow the order of the pairs, as
//! `crates/bench/src/moves.rt` has them, and the sort of a vector.

use crate::order::{mix, Order};
use crate::peer::{Moves, Sort};

/// How many pairs an iteration from a key goes over at most.
const PAIRS: usize = 10;

/// Moves pairs before others, and returns how often both were there.
pub fn move_beside<M: Moves, O: Order>(map: &mut M, order: &mut O, n: u64) -> u64 {
    let mut count = 0;
    for i in 0..n {
        let key = mix(order.index(i, n));
        let other = mix(order.index(i.wrapping_mul(31), n));
        if map.move_before(key, other) {
            count += 1;
        }
    }
    count
}

/// Goes over a few pairs from each key on, and returns the exclusive or of what it saw.
pub fn iter_from<M: Moves, O: Order>(map: &M, order: &mut O, n: u64) -> u64 {
    let mut sink = 0;
    for i in 0..n {
        let key = mix(order.index(i, n));
        map.for_each_from(key, PAIRS, |key, value| sink ^= key ^ value);
    }
    sink
}

/// Puts the pairs in the order in which they were inserted, and in random order many of them behind
/// the others, as they are drawn: so that there is something to sort.
pub fn unsort<M: Sort, O: Order>(map: &mut M, order: &mut O, n: u64) {
    for i in 0..n {
        map.refresh(mix(i));
    }
    if order.is_random() {
        for i in 0..n {
            map.refresh(mix(order.index(i, n)));
        }
    }
}

/// Sorts the pairs by their keys, and returns the exclusive or of the first key and the last.
pub fn sort<M: Sort>(map: &mut M) -> u64 {
    map.sort_keys();
    map.ends().map_or(0, |(first, last)| first ^ last)
}

/// Collects the pairs into a vector, sorts that by the keys, and returns the exclusive or of the
/// first key and the last.
pub fn sort_vector<M: Sort>(map: &M) -> u64 {
    let mut pairs = Vec::with_capacity(map.len());
    map.for_each(|key, value| pairs.push((key, value)));
    pairs.sort_by_key(|pair| pair.0);
    match (pairs.first(), pairs.last()) {
        (Some(first), Some(last)) => first.0 ^ last.0,
        _ => 0,
    }
}
