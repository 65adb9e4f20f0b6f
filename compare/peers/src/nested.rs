//! The workloads of documents that nest, as `crates/bench/src/nested.rt` has them.

use crate::hasher::Build;
use crate::texts::TextMap;

/// What a field has: a text or further fields.
pub trait Value: Sized {
    type Object: TextMap<Self>;

    fn of_text(text: String) -> Self;
    fn of_object(object: Self::Object) -> Self;
    fn text(&self) -> Option<&str>;
    fn object(&self) -> Option<&Self::Object>;
}

/// Makes a `Value` of a crate's map.
macro_rules! value {
    ($name:ident, $($map:ident)::+) => {
        pub enum $name<S> {
            Text(String),
            Object($($map)::+<String, $name<S>, S>),
        }

        impl<S: Build> Value for $name<S> {
            type Object = $($map)::+<String, $name<S>, S>;

            fn of_text(text: String) -> Self {
                Self::Text(text)
            }

            fn of_object(object: Self::Object) -> Self {
                Self::Object(object)
            }

            fn text(&self) -> Option<&str> {
                match self {
                    Self::Text(text) => Some(text),
                    Self::Object(_) => None,
                }
            }

            fn object(&self) -> Option<&Self::Object> {
                match self {
                    Self::Text(_) => None,
                    Self::Object(object) => Some(object),
                }
            }
        }
    };
}

value!(Original, linked_hash_map::LinkedHashMap);
value!(Hashlink, hashlink::LinkedHashMap);
value!(Indexmap, indexmap::IndexMap);
value!(Std, std::collections::HashMap);
value!(Lru, lru::LruCache);

/// The names of the fields of a document that have texts, that of the one that has an object, and
/// the names of the fields of that.
const FIELDS: [&str; 3] = ["id", "name", "email"];
const OBJECT: &str = "address";
const FIELDS_OF_OBJECT: [&str; 3] = ["street", "city", "zip"];

/// How many texts a document has.
const TEXTS: usize = 6;

/// Makes an object whose fields have copies of some texts, one each.
fn object<V: Value>(fields: [&str; 3], texts: &[String]) -> V::Object {
    let mut object = V::Object::new();
    for (field, text) in fields.iter().zip(texts) {
        object.insert(field.to_string(), V::of_text(text.clone()));
    }
    object
}

/// Makes a document that has copies of some texts, those behind the third in an object.
fn document<V: Value>(texts: &[String]) -> V::Object {
    let mut document = object::<V>(FIELDS, texts);
    if let [_, _, _, rest @ ..] = texts {
        let inner = object::<V>(FIELDS_OF_OBJECT, rest);
        document.insert(OBJECT.to_string(), V::of_object(inner));
    }
    document
}

/// Makes documents that have copies of all of some texts, drops each before the next, and returns
/// how many fields they have, without those of objects.
pub fn build<V: Value>(texts: &[String]) -> u64 {
    let mut count = 0;
    for part in texts.chunks(TEXTS) {
        count += document::<V>(part).len() as u64;
    }
    count
}

/// Makes documents that have copies of all of some texts.
pub fn documents<V: Value>(texts: &[String]) -> Vec<V::Object> {
    texts.chunks(TEXTS).map(document::<V>).collect()
}

/// Looks up fields of an object, and adds the bytes of their texts to `sink`.
fn read_fields<V: Value>(object: &V::Object, fields: [&str; 3], sink: u64) -> u64 {
    let mut sink = sink;
    for field in fields {
        if let Some(text) = object.get(field).and_then(V::text) {
            sink = sink.wrapping_add(text.len() as u64);
        }
    }
    sink
}

/// Looks up each field of each document and of its object, and returns the bytes of the texts.
pub fn read<V: Value>(documents: &[V::Object]) -> u64 {
    let mut sink = 0;
    for document in documents {
        sink = read_fields::<V>(document, FIELDS, sink);
        if let Some(object) = document.get(OBJECT).and_then(V::object) {
            sink = read_fields::<V>(object, FIELDS_OF_OBJECT, sink);
        }
    }
    sink
}
