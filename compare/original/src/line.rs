//! The words of a line.

use crate::hasher::{BuildKeyHasher, Choice};
use crate::key::Key;
use crate::value::{Value, Values};
use std::str::SplitWhitespace;

/// The words of a line that are left. A word that is missing is empty, and one that is no number
/// is 0.
#[derive(Clone)]
pub struct Line<'a> {
    words: SplitWhitespace<'a>,
}

impl<'a> Line<'a> {
    pub fn new(text: &'a str) -> Line<'a> {
        Line {
            words: text.split_whitespace(),
        }
    }

    pub fn next_word(&mut self) -> Option<&'a str> {
        self.words.next()
    }

    pub fn word(&mut self) -> &'a str {
        self.next_word().unwrap_or("")
    }

    pub fn key(&mut self) -> Key {
        Key::new(self.word())
    }

    pub fn value(&mut self) -> Value {
        Value::new(self.number())
    }

    /// Returns the next word as the values of a call that is made more than once.
    pub fn values(&mut self) -> Values {
        Values::new(self.value())
    }

    /// Returns the build hasher that the next word names.
    pub fn hasher(&mut self) -> BuildKeyHasher {
        BuildKeyHasher::new(Choice::named(self.word()))
    }

    pub fn number(&mut self) -> u64 {
        self.word().parse().unwrap_or(0)
    }

    /// Returns the next word as a size.
    pub fn size(&mut self) -> usize {
        self.number() as usize
    }
    /// Reads the pairs that are left.
    pub fn pairs(&mut self) -> Vec<(Key, Value)> {
        let mut pairs = Vec::new();
        while let Some(text) = self.next_word() {
            pairs.push((Key::new(text), self.value()));
        }
        pairs
    }

    /// Reads the items that are left.
    pub fn items(&mut self) -> Vec<Key> {
        let mut items = Vec::new();
        while let Some(text) = self.next_word() {
            items.push(Key::new(text));
        }
        items
    }
}
