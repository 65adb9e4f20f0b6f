//! Keys of short text, compared and hashed without regard to ASCII case.

use crate::counts::{Identity, Kind};
use std::cmp::Ordering;
use std::fmt;
use std::hash::{Hash, Hasher};

/// The first eight bytes of a text. Two are the same if they differ in case alone.
#[derive(Clone, Copy)]
pub struct Text {
    bytes: [u8; 8],
    /// The text in lower case, as one number.
    folded: u64,
}

impl Text {
    fn new(text: &str) -> Text {
        let mut bytes = [0; 8];
        for (place, byte) in bytes.iter_mut().zip(text.bytes()) {
            *place = byte;
        }
        Text {
            bytes,
            folded: u64::from_le_bytes(bytes.map(|byte| byte.to_ascii_lowercase())),
        }
    }
}

impl PartialEq for Text {
    fn eq(&self, other: &Text) -> bool {
        self.folded == other.folded
    }
}

impl Eq for Text {}

impl Hash for Text {
    fn hash<H: Hasher>(&self, state: &mut H) {
        state.write_u64(self.folded);
    }
}

impl fmt::Debug for Text {
    fn fmt(&self, f: &mut fmt::Formatter<'_>) -> fmt::Result {
        for byte in self.bytes.iter().filter(|byte| **byte != 0) {
            write!(f, "{}", char::from(*byte))?;
        }
        Ok(())
    }
}

/// A text whose drop is counted.
#[derive(Clone)]
pub struct Key {
    text: Text,
    _identity: Identity,
}

impl Key {
    pub fn new(text: &str) -> Key {
        Key {
            text: Text::new(text),
            _identity: Identity::new(Kind::Key),
        }
    }

    /// Makes another key of the same text.
    pub fn again(&self) -> Key {
        Key {
            text: self.text,
            _identity: Identity::new(Kind::Key),
        }
    }

    /// Returns the text, whose drop is not counted.
    pub fn text(&self) -> Text {
        self.text
    }

    /// Returns the text as one number, whose order is that of the texts.
    pub fn number(&self) -> u64 {
        u64::from_be_bytes(self.text.bytes)
    }
}

impl PartialEq for Key {
    fn eq(&self, other: &Self) -> bool {
        self.text == other.text
    }
}

impl Eq for Key {}

/// Keys that are not the same have no order.
impl PartialOrd for Key {
    fn partial_cmp(&self, other: &Self) -> Option<Ordering> {
        (self == other).then_some(Ordering::Equal)
    }
}

impl Hash for Key {
    fn hash<H: Hasher>(&self, state: &mut H) {
        self.text.hash(state);
    }
}

impl fmt::Debug for Key {
    fn fmt(&self, f: &mut fmt::Formatter<'_>) -> fmt::Result {
        self.text.fmt(f)
    }
}
