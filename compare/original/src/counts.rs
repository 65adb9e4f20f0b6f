//! What is dropped within the windows of a line, each of which lasts as long as a call.

use std::cell::Cell;
use std::fmt::{Result, Write};

/// By how much a clone's serial number is above that of its original.
const CLONED: u64 = 1 << 32;

/// A kind of what is counted.
#[derive(Clone, Copy)]
pub enum Kind {
    Key,
    Value,
    Hasher,
    Closure,
}

/// The names of the kinds, in the order in which a line shows them.
const NAMES: [&str; 4] = ["keys", "values", "hashers", "closures"];

/// How many of a kind were dropped, and the sum of their serial numbers.
#[derive(Clone, Copy, Default)]
struct Dropped {
    count: u64,
    sum: u64,
}

/// The last serial number, whether a window is open, and what of each kind was dropped.
#[derive(Default)]
struct Counts {
    last_serial: Cell<u64>,
    is_open: Cell<bool>,
    dropped: [Cell<Dropped>; NAMES.len()],
}

thread_local! {
    static COUNTS: Counts = Counts::default();
}

/// What tells an object from all others of the run, and counts its drop. What is made by default has
/// the serial number 0, and is not counted.
pub struct Identity {
    kind: Kind,
    serial: u64,
}

impl Identity {
    /// Returns one with the next serial number.
    pub fn new(kind: Kind) -> Identity {
        let serial = last_serial() + 1;
        set_last_serial(serial);
        Identity { kind, serial }
    }

    /// Returns that of an object which is not counted.
    pub fn uncounted(kind: Kind) -> Identity {
        Identity { kind, serial: 0 }
    }
}

impl Clone for Identity {
    fn clone(&self) -> Identity {
        let serial = match self.serial {
            0 => 0,
            serial => serial + CLONED,
        };
        Identity { serial, ..*self }
    }
}

impl Drop for Identity {
    fn drop(&mut self) {
        COUNTS.with(|counts| {
            if counts.is_open.get() && self.serial != 0 {
                let place = &counts.dropped[self.kind as usize];
                let Dropped { count, sum } = place.get();
                place.set(Dropped {
                    count: count + 1,
                    sum: sum.wrapping_add(self.serial),
                });
            }
        });
    }
}

/// What a closure owns, so that the closure's drop is counted.
pub struct Guard {
    _identity: Identity,
}

impl Guard {
    pub fn new() -> Guard {
        Guard {
            _identity: Identity::new(Kind::Closure),
        }
    }

    /// Does what a closure does that owns the guard.
    pub fn with<T>(&self, body: impl FnOnce() -> T) -> T {
        body()
    }
}

/// How often a closure was called, and how many keys and values the line had dropped at the last
/// call.
#[derive(Default)]
pub struct Calls {
    calls: Cell<u64>,
    dropped: Cell<u64>,
}

impl Calls {
    /// Notes a call.
    pub fn note(&self) {
        self.calls.set(self.calls.get() + 1);
        let count = |kind: Kind| COUNTS.with(|counts| counts.dropped[kind as usize].get().count);
        self.dropped.set(count(Kind::Key) + count(Kind::Value));
    }

    /// Appends both numbers.
    pub fn show(&self, text: &mut String) -> Result {
        write!(text, "{} {} ", self.calls.get(), self.dropped.get())
    }
}

/// Returns the serial number that was given last.
pub fn last_serial() -> u64 {
    COUNTS.with(|counts| counts.last_serial.get())
}

/// Goes on after this serial number.
pub fn set_last_serial(serial: u64) {
    COUNTS.with(|counts| counts.last_serial.set(serial));
}

/// Makes a call within a window, and returns what it returns.
pub fn within<T>(call: impl FnOnce() -> T) -> T {
    COUNTS.with(|counts| counts.is_open.set(true));
    let answer = call();
    COUNTS.with(|counts| counts.is_open.set(false));
    answer
}

/// Appends what was dropped within the windows of a line, and ends the line.
pub fn end_line(text: &mut String) -> Result {
    let mut separator = ";";
    for (index, name) in NAMES.iter().enumerate() {
        let Dropped { count, sum } = COUNTS.with(|counts| counts.dropped[index].take());
        if count > 0 {
            write!(text, "{separator} drop-{name} {count}:{sum}")?;
            separator = "";
        }
    }
    writeln!(text)
}
