//! The workloads of texts and documents, as `crates/bench/src/texts.rt` and `documents.rt` have
//! them.

use crate::hasher::Build;
use crate::order::{mix, Order};
use std::collections::HashMap;

/// A map whose keys are texts.
pub trait TextMap<V> {
    fn new() -> Self;
    fn with_capacity(capacity: usize) -> Self;
    fn len(&self) -> usize;
    fn get(&self, text: &str) -> Option<&V>;
    fn insert(&mut self, text: String, value: V) -> Option<V>;
    fn remove(&mut self, text: &str) -> Option<V>;
}

/// A map that moves pairs to the back.
pub trait Refresh: TextMap<u64> {
    fn get_refresh(&mut self, text: &str) -> Option<&mut u64>;
}

/// Makes a `TextMap` of a crate's map. `$remove` is its call that removes a pair.
macro_rules! text_map {
    ($($map:ident)::+, $remove:ident) => {
        impl<V, S: Build> TextMap<V> for $($map)::+<String, V, S> {
            fn new() -> Self {
                Self::with_hasher(S::default())
            }

            fn with_capacity(capacity: usize) -> Self {
                Self::with_capacity_and_hasher(capacity, S::default())
            }

            fn len(&self) -> usize {
                self.len()
            }

            fn get(&self, text: &str) -> Option<&V> {
                self.get(text)
            }

            fn insert(&mut self, text: String, value: V) -> Option<V> {
                self.insert(text, value)
            }

            fn remove(&mut self, text: &str) -> Option<V> {
                self.$remove(text)
            }
        }
    };
}

text_map!(linked_hash_map::LinkedHashMap, remove);
text_map!(hashlink::LinkedHashMap, remove);
text_map!(indexmap::IndexMap, swap_remove);
text_map!(HashMap, remove);

/// A cache with no limit, or with that for which it has memory.
impl<V, S: Build> TextMap<V> for lru::LruCache<String, V, S> {
    fn new() -> Self {
        Self::unbounded_with_hasher(S::default())
    }

    fn with_capacity(capacity: usize) -> Self {
        Self::with_hasher(capacity, S::default())
    }

    fn len(&self) -> usize {
        self.len()
    }

    fn get(&self, text: &str) -> Option<&V> {
        self.peek(text)
    }

    fn insert(&mut self, text: String, value: V) -> Option<V> {
        self.put(text, value)
    }

    fn remove(&mut self, text: &str) -> Option<V> {
        self.pop(text)
    }
}

/// Makes a crate's map move pairs to the back by its call `$refresh`.
macro_rules! refresh {
    ($($map:ident)::+, $refresh:ident) => {
        impl<S: Build> Refresh for $($map)::+<String, u64, S> {
            fn get_refresh(&mut self, text: &str) -> Option<&mut u64> {
                self.$refresh(text)
            }
        }
    };
}

refresh!(linked_hash_map::LinkedHashMap, get_refresh);
refresh!(hashlink::LinkedHashMap, to_back);
refresh!(lru::LruCache, get_mut);

/// Returns the text of an index. Different indexes have different texts.
fn text_of(i: u64) -> String {
    format!("user{:016x}", mix(i))
}

/// Returns the texts of `n` indexes, from `start` on.
pub fn texts_from(start: u64, n: u64) -> Vec<String> {
    (0..n).map(|i| text_of(start.wrapping_add(i))).collect()
}

/// Returns as many texts as there are, those of indexes that are looked up.
pub fn draw_texts<O: Order>(order: &mut O, n: u64) -> Vec<String> {
    (0..n).map(|i| text_of(order.index(i, n))).collect()
}

/// Makes a map of copies of some texts.
pub fn fill_texts<M: TextMap<u64>>(texts: &[String]) -> M {
    let mut map = M::new();
    for text in texts {
        let value = map.len() as u64;
        map.insert(text.clone(), value);
    }
    map
}

pub fn hit<M: TextMap<u64>>(map: &M, texts: &[String]) -> u64 {
    let mut sink = 0;
    for text in texts {
        if let Some(value) = map.get(text.as_str()) {
            sink ^= value;
        }
    }
    sink
}

pub fn miss<M: TextMap<u64>>(map: &M, texts: &[String]) -> u64 {
    let mut count = 0;
    for text in texts {
        if map.get(text.as_str()).is_some() {
            count += 1;
        }
    }
    count
}

pub fn refresh<M: Refresh>(map: &mut M, texts: &[String]) -> u64 {
    let mut sink = 0;
    for text in texts {
        if let Some(value) = map.get_refresh(text.as_str()) {
            sink ^= *value;
        }
    }
    sink
}

pub fn insert_present<M: TextMap<u64>>(map: &mut M, texts: &[String]) -> u64 {
    let mut sink = 0;
    for text in texts {
        if let Some(old) = map.insert(text.clone(), sink) {
            sink ^= old;
        }
    }
    sink
}

pub fn remove_reinsert<M: TextMap<u64>>(map: &mut M, texts: &[String]) -> u64 {
    let mut sink = 0;
    for text in texts {
        if let Some(value) = map.remove(text.as_str()) {
            sink ^= value;
            map.insert(text.clone(), value);
        }
    }
    sink
}

/// The names of the fields of a document.
const FIELDS: [&str; 5] = ["id", "name", "email", "city", "created_at"];

/// Makes a document whose fields have copies of some texts, one each.
fn document<M: TextMap<String>>(texts: &[String]) -> M {
    let mut document = M::new();
    for (field, text) in FIELDS.iter().zip(texts) {
        document.insert(field.to_string(), text.clone());
    }
    document
}

/// Makes such a document that has the capacity for its fields.
fn with_capacity<M: TextMap<String>>(texts: &[String]) -> M {
    let mut document = M::with_capacity(FIELDS.len());
    for (field, text) in FIELDS.iter().zip(texts) {
        document.insert(field.to_string(), text.clone());
    }
    document
}

/// Makes documents that have copies of all of some texts.
pub fn documents<M: TextMap<String>>(texts: &[String]) -> Vec<M> {
    let mut documents = Vec::new();
    for part in texts.chunks(FIELDS.len()) {
        documents.push(document(part));
    }
    documents
}

/// Makes such documents that have the capacity for their fields.
pub fn all_with_capacity<M: TextMap<String>>(texts: &[String]) -> Vec<M> {
    let mut documents = Vec::new();
    for part in texts.chunks(FIELDS.len()) {
        documents.push(with_capacity(part));
    }
    documents
}

/// Looks up the fields of a document, and adds the bytes of their texts to `sink`.
fn read_one<M: TextMap<String>>(document: &M, sink: u64) -> u64 {
    let mut sink = sink;
    for field in FIELDS {
        if let Some(text) = document.get(field) {
            sink = sink.wrapping_add(text.len() as u64);
        }
    }
    sink
}

/// Looks up the fields of each document, and returns the bytes of their texts.
pub fn read<M: TextMap<String>>(documents: &[M]) -> u64 {
    let mut sink = 0;
    for document in documents {
        sink = read_one(document, sink);
    }
    sink
}

/// Makes documents that have copies of all of some texts, looks up the fields of each and drops it
/// before the next. Returns the bytes of their texts.
pub fn cycle<M: TextMap<String>>(texts: &[String]) -> u64 {
    let mut sink = 0;
    for part in texts.chunks(FIELDS.len()) {
        sink = read_one(&document::<M>(part), sink);
    }
    sink
}
