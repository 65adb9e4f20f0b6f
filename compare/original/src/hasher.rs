//! The hashers of the maps.

use crate::counts::{Identity, Kind};
use std::fmt;
use std::hash::{BuildHasher, Hasher};

/// An odd number whose multiples have changing bits up to the highest.
const MULTIPLIER: u64 = 0x9E37_79B9_7F4A_7C15;

/// What a hasher makes of the bytes that are written.
#[derive(Clone, Copy, Debug)]
pub enum Choice {
    Spread,
    Same,
    Letter,
    Wide,
}

impl Choice {
    /// Returns the choice of this name, `Spread` for any that is not known.
    pub fn named(name: &str) -> Choice {
        match name {
            "same" => Choice::Same,
            "letter" => Choice::Letter,
            "wide" => Choice::Wide,
            _ => Choice::Spread,
        }
    }
}

/// The bytes that were written, as a number, and the first of them.
pub struct KeyHasher {
    choice: Choice,
    number: u64,
    first: u64,
}

impl Hasher for KeyHasher {
    fn finish(&self) -> u64 {
        match self.choice {
            Choice::Spread => self.number,
            Choice::Same => 0,
            Choice::Letter => self.first,
            Choice::Wide => self.number.wrapping_mul(MULTIPLIER),
        }
    }

    fn write(&mut self, bytes: &[u8]) {
        if self.first == 0 {
            self.first = bytes.first().map_or(0, |byte| u64::from(*byte));
        }
        for byte in bytes {
            self.number = self.number % (1 << 32) * 31 + u64::from(*byte);
        }
    }
}

/// Makes the hashers of a choice.
#[derive(Clone)]
pub struct BuildKeyHasher {
    choice: Choice,
    _identity: Identity,
}

impl BuildKeyHasher {
    pub fn new(choice: Choice) -> BuildKeyHasher {
        BuildKeyHasher {
            choice,
            _identity: Identity::new(Kind::Hasher),
        }
    }
}

impl BuildHasher for BuildKeyHasher {
    type Hasher = KeyHasher;

    fn build_hasher(&self) -> KeyHasher {
        KeyHasher {
            choice: self.choice,
            number: 0,
            first: 0,
        }
    }
}

/// Spreads the keys, and is not counted.
impl Default for BuildKeyHasher {
    fn default() -> BuildKeyHasher {
        BuildKeyHasher {
            choice: Choice::Spread,
            _identity: Identity::uncounted(Kind::Hasher),
        }
    }
}

impl fmt::Debug for BuildKeyHasher {
    fn fmt(&self, f: &mut fmt::Formatter<'_>) -> fmt::Result {
        f.debug_struct("BuildKeyHasher")
            .field("choice", &self.choice)
            .finish()
    }
}
