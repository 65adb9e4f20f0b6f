"""Keys, values and hashers, as the driver makes them of words, each with its identity."""

import functools
import operator

MASK = 2**64 - 1
# An odd number whose multiples have changing bits up to the highest.
MULTIPLIER = 0x9E37_79B9_7F4A_7C15
# By this a value is spread before it is mixed with its key.
SPREAD = 1_099_511_628_211
# What the identity of a clone is above that of its original.
CLONED = 2**32


def fold(number, data):
    """Returns what the driver's hasher makes of a number so far and the bytes written then."""
    for byte in data:
        number = number % 2**32 * 31 + byte
    return number


class Text:
    """A key's text of at most eight bytes. Keys that differ in ASCII case alone are the same."""

    __slots__ = ("data", "shown", "folded", "number", "spread", "same", "letter", "wide", "high")

    def __init__(self, word):
        self.data = word.encode()[:8].ljust(8, b"\0")
        self.shown = self.data.decode("latin-1").replace("\0", "")
        self.folded = self.data.lower()
        self.number = int.from_bytes(self.data, "big")
        self.spread = fold(0, self.folded)
        self.same = 0
        self.letter = self.folded[0]
        self.wide = self.spread * MULTIPLIER & MASK
        self.high = self.letter << 56


@functools.cache
def text_of(word):
    """Returns the text of a word."""
    return Text(word)


class Key:
    """A key. What it is looked up by is `folded`, and `number` has the order of the texts."""

    __slots__ = ("text", "shown", "folded", "number", "serial")

    def __init__(self, text, serial):
        self.text = text
        self.shown = text.shown
        self.folded = text.folded
        self.number = text.number
        self.serial = serial

    def clone(self):
        """Returns a clone."""
        return Key(self.text, self.serial + CLONED)

    def __str__(self):
        return self.shown


class Value:
    """A value: a number, and `mix`, what it adds to a digest. One that `Default` made is not
    counted."""

    __slots__ = ("number", "mix", "serial", "counted")

    def __init__(self, number, serial, counted=True):
        self.serial = serial
        self.counted = counted
        self.write(number)

    def write(self, number):
        """Writes a number in place. The object stays."""
        self.number = number & MASK
        self.mix = self.number * SPREAD & MASK

    def clone(self):
        """Returns a clone."""
        return Value(self.number, self.serial + CLONED, self.counted)

    def __str__(self):
        return str(self.number)


# The value of each item of a set, which is nothing.
UNIT = Value(0, 0, counted=False)


# The hashers. Any other name is that of one that spreads.
CHOICES = ("spread", "same", "letter", "wide", "high")


class Hasher:
    """What makes the hashers of a map. One that `Default` made is not counted."""

    __slots__ = ("choice", "serial", "counted", "hash_of_text")

    def __init__(self, choice, serial, counted=True):
        self.choice = choice if choice in CHOICES else "spread"
        self.hash_of_text = operator.attrgetter(self.choice)
        self.serial = serial
        self.counted = counted

    def hash_of(self, key):
        """Returns the hash of a key."""
        return self.hash_of_text(key.text)

    def clone(self):
        """Returns a clone."""
        return Hasher(self.choice, self.serial + CLONED, self.counted)

    def __str__(self):
        return f"BuildKeyHasher {{ choice: {self.choice.capitalize()} }}"


def default_hasher():
    """Returns what `Default` makes."""
    return Hasher("spread", 0, counted=False)
