//! The values of the maps and caches.

use crate::counts::{Identity, Kind};
use std::fmt;
use std::hash::{Hash, Hasher};

/// A number, compared, hashed and shown as one.
#[derive(Clone)]
pub struct Value {
    pub number: u64,
    _identity: Identity,
}

impl Value {
    pub fn new(number: u64) -> Value {
        Value {
            number,
            _identity: Identity::new(Kind::Value),
        }
    }

    /// Adds a number, in place.
    pub fn add(&mut self, number: u64) {
        self.number = self.number.wrapping_add(number);
    }
}

/// 0, which is not counted.
impl Default for Value {
    fn default() -> Value {
        Value {
            number: 0,
            _identity: Identity::uncounted(Kind::Value),
        }
    }
}

impl PartialEq for Value {
    fn eq(&self, other: &Value) -> bool {
        self.number == other.number
    }
}

impl Eq for Value {}

impl PartialOrd for Value {
    fn partial_cmp(&self, other: &Value) -> Option<std::cmp::Ordering> {
        self.number.partial_cmp(&other.number)
    }
}

impl Hash for Value {
    fn hash<H: Hasher>(&self, state: &mut H) {
        state.write_u64(self.number);
    }
}

impl fmt::Debug for Value {
    fn fmt(&self, f: &mut fmt::Formatter<'_>) -> fmt::Result {
        write!(f, "{}", self.number)
    }
}

/// The values of a word: first the one that the word made, and then further ones of its number.
pub struct Values {
    first: Option<Value>,
    number: u64,
}

impl Values {
    pub fn new(first: Value) -> Values {
        Values {
            number: first.number,
            first: Some(first),
        }
    }

    pub fn take(&mut self) -> Value {
        self.first.take().unwrap_or_else(|| Value::new(self.number))
    }

    /// Makes a value of the number 0.
    pub fn zero(&self) -> Value {
        Value::new(0)
    }
}
