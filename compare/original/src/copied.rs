//! Extensions by references to keys and values that are `Copy`.

use crate::hasher::BuildKeyHasher;
use crate::key::Text;
use crate::{Known, Map};
use linked_hash_map::LinkedHashMap;
use std::fmt::Write;

/// A map of keys and values that are `Copy`.
type Copied = LinkedHashMap<Text, u64, BuildKeyHasher>;

/// Makes a map of the same pairs, with a clone of the hasher.
fn copied(map: &Map) -> Copied {
    let mut copied = Copied::with_hasher(map.hasher().clone());
    for (key, value) in map.iter() {
        copied.insert(key.text(), value.number);
    }
    copied
}

/// Runs the call of this name, and tells whether there is one: it extends a copy of a map by
/// references to the pairs of a copy of another, and appends it.
pub fn run(name: &str, map: &Map, other: &Map, text: &mut String) -> Known {
    match name {
        "extend_copied_refs" | "extend_trait_refs" => {
            let (mut map, other) = (copied(map), copied(other));
            map.extend(other.iter());
            write!(text, "{map:?} ")?;
        }
        _ => return Ok(false),
    }
    Ok(true)
}
