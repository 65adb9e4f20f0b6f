//! Times the calls of other maps, caches and sets: what `crates/bench` does with the ports.
//!
//! `peers PEER ORDER ROUNDS N ..` prints for each size N a line `workload n ns_per_op check` for
//! each workload: the nanoseconds of processor time of this thread that the best of the rounds
//! took, divided by the number of pairs, and the sum of what the rounds returned. Up to 64 pairs
//! the workloads are those of small maps, many of N pairs each; with more they are those of one map
//! of N pairs, of caches, of sets and of texts. ORDER is `repeated` or `random`. PEER is one of:
//!
//! - `original`, which has maps and, by lru-cache, caches;
//! - `hashlink`, which has sets and a sort too;
//! - `indexmap`, which has small maps, a sort, changes of many pairs and texts;
//! - `std` and `lru`, which have texts alone;
//! - `twin`, which has maps of numbers alone, and times the sort of a vector.
//!
//! All have the default hasher of the port. After a first word `--defaults` each has its own, but
//! for the twin.

mod changes;
mod clock;
mod hasher;
mod moves;
mod nested;
mod order;
mod peer;
mod products;
mod small;
mod texts;
mod twin;
mod workloads;

use changes::{Counts, Remove, Retain};
use hasher::{Build, Fold};
use order::{Order, Random, Repeated};
use peer::{Map, Moves, Peer, Sort};
use products::{Cache, Set};
use small::{MAPS, MOST_PAIRS};
use std::collections::hash_map::RandomState;
use std::collections::HashMap;
use std::process::ExitCode;
use texts::TextMap;
use twin::Twin;
use workloads::Workload;

type Original<S> = linked_hash_map::LinkedHashMap<u64, u64, S>;

type Hashlink<S> = hashlink::LinkedHashMap<u64, u64, S>;

type Indexmap<S> = indexmap::IndexMap<u64, u64, S>;

type OriginalCounts<S> = linked_hash_map::LinkedHashMap<u64, u32, S>;

type HashlinkCounts<S> = hashlink::LinkedHashMap<u64, u32, S>;

type IndexmapCounts<S> = indexmap::IndexMap<u64, u32, S>;

/// What makes the hashers of hashlink and lru, if nothing else does.
type Ahash = lru::DefaultHasher;

/// Returns the nanoseconds that a call takes, and what it returns.
fn timed(call: impl FnOnce() -> u64) -> (u64, u64) {
    let start = clock::thread_cpu_time();
    let returned = call();
    (clock::thread_cpu_time() - start, returned)
}

/// Does the rounds of a workload, each of which is timed, and prints the best time, divided by how
/// many maps of `n` pairs there are, and the sum of what they returned.
fn time_maps(
    workload: &str,
    rounds: u64,
    n: u64,
    maps: u64,
    mut round: impl FnMut() -> (u64, u64),
) {
    let mut best = u64::MAX;
    let mut check: u64 = 0;
    for _ in 0..rounds {
        let (nanoseconds, returned) = round();
        best = best.min(nanoseconds);
        check = check.wrapping_add(returned);
    }
    let time = best as f64 / (n * maps) as f64;
    println!("{workload} {n} {time:.2} {check}");
}

/// Does the rounds of a workload with one map, cache or set.
fn time(workload: &str, rounds: u64, n: u64, round: impl FnMut() -> (u64, u64)) {
    time_maps(workload, rounds, n, 1, round);
}

/// Times each workload of small maps.
fn bench_small<M: Map>(order: &mut impl Order, rounds: u64, n: u64) {
    time_maps("small_fill", rounds, n, MAPS, || {
        timed(|| small::count(&small::fill_all::<M>(order.start(), n)))
    });
    let maps: Vec<M> = small::fill_all(0, n);
    time_maps("small_lookup", rounds, n, MAPS, || {
        timed(|| small::lookup(&maps, order, n))
    });
    time_maps("small_iterate", rounds, n, MAPS, || {
        timed(|| small::iterate(&maps))
    });
}

/// Times each workload of a map.
fn bench_map<P: Peer>(order: &mut impl Order, rounds: u64, n: u64) {
    let mut map = P::new();
    for workload in Workload::ALL {
        time(workload.name(), rounds, n, || {
            workload.prepare(&mut map, order, n);
            timed(|| workload.run(&mut map, order, n))
        });
        // The others' map is filled only now, so that its nodes lie in memory that was used before.
        if workload == Workload::InsertNew {
            map = small::fill(0, n);
        }
    }
}

/// Times each workload of a cache.
fn bench_cache<C: Cache>(order: &mut impl Order, rounds: u64, n: u64) {
    time("cache_insert", rounds, n, || {
        timed(|| products::fill_cache::<C>(order.start(), n / 2, n).len() as u64)
    });
    let mut cache: C = products::fill_cache(0, n, n);
    time("cache_hit", rounds, n, || {
        timed(|| products::cache_hit(&mut cache, order, n))
    });
}

/// Times each workload of a set.
fn bench_set<S: Set>(order: &mut impl Order, rounds: u64, n: u64) {
    time("set_insert", rounds, n, || {
        timed(|| products::fill_set::<S>(order.start(), n).len() as u64)
    });
    let set: S = products::fill_set(0, n);
    time("set_contains", rounds, n, || {
        timed(|| products::set_contains(&set, order, n))
    });
    time("set_iterate", rounds, n, || {
        timed(|| products::set_iterate(&set))
    });
}

/// Times each workload of the calls that the original has not, but for the sort.
fn bench_moves<M: Moves>(order: &mut impl Order, rounds: u64, n: u64) {
    order.restart();
    let mut map: M = small::fill(0, n);
    time("move_beside", rounds, n, || {
        timed(|| moves::move_beside(&mut map, order, n))
    });
    time("iter_from", rounds, n, || {
        timed(|| moves::iter_from(&map, order, n))
    });
}

/// Times each sort.
fn bench_sort<M: Sort>(order: &mut impl Order, rounds: u64, n: u64) {
    let mut map: M = small::fill(0, n);
    time("sort", rounds, n, || {
        moves::unsort(&mut map, order, n);
        timed(|| moves::sort(&mut map))
    });
    time("sort_falling", rounds, n, || {
        map.fall();
        timed(|| moves::sort(&mut map))
    });
    time("sort_sorted", rounds, n, || timed(|| moves::sort(&mut map)));
}

/// Times each sort of a vector of the pairs of a map.
fn bench_sort_vector<M: Sort>(order: &mut impl Order, rounds: u64, n: u64) {
    let mut map: M = small::fill(0, n);
    time("sort_vector", rounds, n, || {
        moves::unsort(&mut map, order, n);
        timed(|| moves::sort_vector(&map))
    });
    time("sort_vector_falling", rounds, n, || {
        map.fall();
        timed(|| moves::sort_vector(&map))
    });
    moves::sort(&mut map);
    time("sort_vector_sorted", rounds, n, || {
        timed(|| moves::sort_vector(&map))
    });
}

/// Times each workload of the calls that change many pairs, or one by its entry, but for those that
/// keep some pairs.
fn bench_changes<M: Counts>(order: &mut impl Order, rounds: u64, n: u64) {
    order.restart();
    time("entry_new", rounds, n, || {
        timed(|| changes::entry_new::<M>(order.start(), n).len() as u64)
    });
    let mut map: M = changes::entry_new(0, n);
    time("entry_present", rounds, n, || {
        timed(|| changes::entry_present(&mut map, order, n))
    });
    drop(map);
    time("extend", rounds, n, || {
        timed(|| changes::extend::<M>(order.start(), n).len() as u64)
    });
    time("with_capacity", rounds, n, || {
        timed(|| changes::with_capacity::<M>(order.start(), n).len() as u64)
    });
}

/// Times the calls that keep some pairs.
fn bench_retain<M: Retain>(order: &mut impl Order, rounds: u64, n: u64) {
    order.restart();
    // The port has drawn as much before.
    for _ in 0..rounds {
        order.start();
    }
    for i in 0..rounds * n {
        order.index(i, n);
    }
    time("retain_half", rounds, n, || {
        let mut map: M = changes::entry_new(order.start(), n);
        timed(|| changes::retain_half(&mut map))
    });
}

/// Times the removal of all pairs in order, and their insertion.
fn bench_empty_refill<M: Remove>(rounds: u64, n: u64) {
    let mut map: M = changes::entry_new(0, n);
    time("empty_refill", rounds, n, || {
        timed(|| changes::empty_refill(&mut map))
    });
}

/// Times each workload of texts, the moves to the back if there is a call.
fn bench_texts<M: TextMap<u64>>(
    order: &mut impl Order,
    rounds: u64,
    n: u64,
    refresh: Option<fn(&mut M, &[String]) -> u64>,
) -> M {
    order.restart();
    time("text_insert", rounds, n, || {
        let texts = texts::texts_from(order.start(), n);
        timed(|| texts::fill_texts::<M>(&texts).len() as u64)
    });
    let mut map: M = texts::fill_texts(&texts::texts_from(0, n));
    time("text_hit", rounds, n, || {
        let texts = texts::draw_texts(order, n);
        timed(|| texts::hit(&map, &texts))
    });
    time("text_miss", rounds, n, || {
        let texts = texts::texts_from(order.start().wrapping_add(n), n);
        timed(|| texts::miss(&map, &texts))
    });
    if let Some(refresh) = refresh {
        time("text_refresh", rounds, n, || {
            let texts = texts::draw_texts(order, n);
            timed(|| refresh(&mut map, &texts))
        });
    } else {
        for _ in 0..rounds {
            texts::draw_texts(order, n);
        }
    }
    time("text_present", rounds, n, || {
        let texts = texts::draw_texts(order, n);
        timed(|| texts::insert_present(&mut map, &texts))
    });
    time("text_reinsert", rounds, n, || {
        let texts = texts::draw_texts(order, n);
        timed(|| texts::remove_reinsert(&mut map, &texts))
    });
    map
}

/// Times a clone of a map of texts.
fn bench_text_clone<M: TextMap<u64> + Clone>(map: &M, rounds: u64, n: u64) {
    time("text_clone", rounds, n, || {
        timed(|| map.clone().len() as u64)
    });
}

/// Times each workload of documents.
fn bench_documents<M: TextMap<String>>(order: &mut impl Order, rounds: u64, n: u64) {
    let mut held: Vec<M> = Vec::new();
    let mut texts = Vec::new();
    time("document_build", rounds, n, || {
        texts = texts::texts_from(order.start(), n);
        held = Vec::new();
        timed(|| {
            held = texts::documents(&texts);
            held.len() as u64
        })
    });
    time("document_read", rounds, n, || timed(|| texts::read(&held)));
    time("document_drop", rounds, n, || {
        held = texts::documents(&texts);
        timed(|| {
            held = Vec::new();
            0
        })
    });
    time("document_with_capacity", rounds, n, || {
        texts = texts::texts_from(order.start(), n);
        held = Vec::new();
        timed(|| {
            held = texts::all_with_capacity(&texts);
            held.len() as u64
        })
    });
    time("document_cycle", rounds, n, || {
        texts = texts::texts_from(order.start(), n);
        timed(|| texts::cycle::<M>(&texts))
    });
}

/// Times each workload of documents that nest.
fn bench_nested<V: nested::Value>(order: &mut impl Order, rounds: u64, n: u64) {
    let mut texts = Vec::new();
    time("nested_build", rounds, n, || {
        texts = texts::texts_from(order.start(), n);
        timed(|| nested::build::<V>(&texts))
    });
    let held: Vec<V::Object> = nested::documents::<V>(&texts);
    time("nested_read", rounds, n, || timed(|| nested::read::<V>(&held)));
}

/// Times what the original has.
fn bench_original<S: Build>(order: &mut impl Order, rounds: u64, n: u64) {
    if n <= MOST_PAIRS {
        return bench_small::<Original<S>>(order, rounds, n);
    }
    bench_map::<Original<S>>(order, rounds, n);
    bench_cache::<lru_cache::LruCache<u64, u64, S>>(order, rounds, n);
    bench_changes::<OriginalCounts<S>>(order, rounds, n);
    bench_empty_refill::<OriginalCounts<S>>(rounds, n);
    type Texts<V, S> = linked_hash_map::LinkedHashMap<String, V, S>;
    let map: Texts<u64, S> = bench_texts(order, rounds, n, Some(texts::refresh));
    bench_text_clone(&map, rounds, n);
    drop(map);
    bench_documents::<Texts<String, S>>(order, rounds, n);
    bench_nested::<nested::Original<S>>(order, rounds, n);
}

/// Times what hashlink has.
fn bench_hashlink<S: Build>(order: &mut impl Order, rounds: u64, n: u64) {
    if n <= MOST_PAIRS {
        return bench_small::<Hashlink<S>>(order, rounds, n);
    }
    bench_map::<Hashlink<S>>(order, rounds, n);
    bench_cache::<hashlink::LruCache<u64, u64, S>>(order, rounds, n);
    bench_set::<hashlink::LinkedHashSet<u64, S>>(order, rounds, n);
    bench_sort::<Hashlink<S>>(order, rounds, n);
    bench_changes::<HashlinkCounts<S>>(order, rounds, n);
    bench_retain::<HashlinkCounts<S>>(order, rounds, n);
    bench_empty_refill::<HashlinkCounts<S>>(rounds, n);
    type Texts<V, S> = hashlink::LinkedHashMap<String, V, S>;
    let map: Texts<u64, S> = bench_texts(order, rounds, n, Some(texts::refresh));
    bench_text_clone(&map, rounds, n);
    drop(map);
    bench_documents::<Texts<String, S>>(order, rounds, n);
    bench_nested::<nested::Hashlink<S>>(order, rounds, n);
}

/// Times what indexmap has.
fn bench_indexmap<S: Build>(order: &mut impl Order, rounds: u64, n: u64) {
    if n <= MOST_PAIRS {
        return bench_small::<Indexmap<S>>(order, rounds, n);
    }
    bench_sort::<Indexmap<S>>(order, rounds, n);
    bench_changes::<IndexmapCounts<S>>(order, rounds, n);
    bench_retain::<IndexmapCounts<S>>(order, rounds, n);
    type Texts<V, S> = indexmap::IndexMap<String, V, S>;
    let map: Texts<u64, S> = bench_texts(order, rounds, n, None);
    bench_text_clone(&map, rounds, n);
    drop(map);
    bench_documents::<Texts<String, S>>(order, rounds, n);
    bench_nested::<nested::Indexmap<S>>(order, rounds, n);
}

/// Times what std's map has.
fn bench_std<S: Build>(order: &mut impl Order, rounds: u64, n: u64) {
    if n <= MOST_PAIRS {
        return;
    }
    let map: HashMap<String, u64, S> = bench_texts(order, rounds, n, None);
    bench_text_clone(&map, rounds, n);
    drop(map);
    bench_documents::<HashMap<String, String, S>>(order, rounds, n);
    bench_nested::<nested::Std<S>>(order, rounds, n);
}

/// Times what lru has.
fn bench_lru<S: Build>(order: &mut impl Order, rounds: u64, n: u64) {
    if n <= MOST_PAIRS {
        return;
    }
    type Texts<V, S> = lru::LruCache<String, V, S>;
    let map: Texts<u64, S> = bench_texts(order, rounds, n, Some(texts::refresh));
    drop(map);
    bench_documents::<Texts<String, S>>(order, rounds, n);
    bench_nested::<nested::Lru<S>>(order, rounds, n);
}

/// Times what the twin has.
fn bench_twin(order: &mut impl Order, rounds: u64, n: u64) {
    if n <= MOST_PAIRS {
        return bench_small::<Twin>(order, rounds, n);
    }
    bench_map::<Twin>(order, rounds, n);
    bench_moves::<Twin>(order, rounds, n);
    bench_sort::<Twin>(order, rounds, n);
    bench_sort_vector::<Twin>(order, rounds, n);
}

/// Times what a peer has at a size, in an order, with the hasher of the port or with its own.
fn bench(peer: &str, has_own: bool, order: &mut impl Order, rounds: u64, n: u64) {
    match (peer, has_own) {
        ("original", false) => bench_original::<Fold>(order, rounds, n),
        ("original", true) => bench_original::<RandomState>(order, rounds, n),
        ("hashlink", false) => bench_hashlink::<Fold>(order, rounds, n),
        ("hashlink", true) => bench_hashlink::<Ahash>(order, rounds, n),
        ("indexmap", false) => bench_indexmap::<Fold>(order, rounds, n),
        ("indexmap", true) => bench_indexmap::<RandomState>(order, rounds, n),
        ("std", false) => bench_std::<Fold>(order, rounds, n),
        ("std", true) => bench_std::<RandomState>(order, rounds, n),
        ("lru", false) => bench_lru::<Fold>(order, rounds, n),
        ("lru", true) => bench_lru::<Ahash>(order, rounds, n),
        ("twin", _) => bench_twin(order, rounds, n),
        _ => {}
    }
}

/// Times a peer at each size, in an order.
fn run(peer: &str, has_own: bool, order: &str, rounds: u64, sizes: &[u64]) {
    let (mut repeated, mut random) = (Repeated, Random::new());
    for n in sizes {
        match order {
            "random" => bench(peer, has_own, &mut random, rounds, *n),
            _ => bench(peer, has_own, &mut repeated, rounds, *n),
        }
    }
}

fn main() -> ExitCode {
    let words: Vec<String> = std::env::args().skip(1).collect();
    let has_own = words.first().map_or(false, |word| word == "--defaults");
    let words = &words[usize::from(has_own)..];
    let numbers: Vec<u64> = words.iter().skip(2).flat_map(|word| word.parse()).collect();
    match (words, numbers.as_slice()) {
        ([peer, order, ..], [rounds, sizes @ ..]) => run(peer, has_own, order, *rounds, sizes),
        _ => {
            eprintln!(
                "usage: peers [--defaults] original|hashlink|indexmap|std|lru|twin \
                 repeated|random ROUNDS N .."
            );
            return ExitCode::from(2);
        }
    }
    ExitCode::SUCCESS
}
