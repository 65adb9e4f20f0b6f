"""The plain model of the driver: each line's answer, list, effects and requests for memory.

`Model.run` takes a line and returns an `Expected`."""

import pathlib
import sys

sys.path.insert(0, str(pathlib.Path(__file__).resolve().parent))

import caches
import maps
import sessions
import sets
from effects import Effects
from linked import Linked
from memory import KEY, NUMBER, VALUE
from objects import MASK, Hasher, Key, Value, text_of
from shown import list_items, list_pairs


class Unexpected(Exception):
    """A refusal came where no memory is asked for."""


class Expected:
    """What has to come out of a line: its text up to the effects, these, how many requests for memory
    it makes, and the sum of their bytes. A number of the text that is only known to lie between two
    is `<LOW..HIGH>`."""

    __slots__ = ("text", "effects", "requests", "size")

    def __init__(self, text, effects=None, requests=0, size=0):
        self.text = text
        self.effects = effects or {}
        self.requests = requests
        self.size = size & MASK


class Values:
    """The values of one word: first the one that the word made, and then further ones of the same
    number."""

    __slots__ = ("call", "number", "first")

    def __init__(self, call, first):
        self.call = call
        self.number = first.number
        self.first = first

    def take(self):
        """Returns the first value, or else a new one."""
        value, self.first = self.first, None
        return value or Value(self.number, self.call.serial())

    def zero(self):
        """Makes a value of the number 0."""
        return Value(0, self.call.serial())


class Call:
    """A line that is run: its words, what the call shows, and its effects. `other` is the one of
    two that the line does not name."""

    __slots__ = ("words", "model", "effects", "shown", "other")

    def __init__(self, words, model, refused):
        self.words = iter(words)
        self.model = model
        self.effects = Effects(refused, model.clones)
        self.shown = []
        self.other = None

    def word(self):
        """Returns the next word, which is empty if it is missing."""
        return next(self.words, "")

    def serial(self):
        """Returns the identity of a new object."""
        self.model.serial += 1
        return self.model.serial

    def key_of(self, word):
        """Makes a key of a word."""
        return Key(text_of(word), self.serial())

    def key(self):
        """Reads a key."""
        return self.key_of(self.word())

    def number(self):
        """Reads a number. A word that is none is 0."""
        word = self.word()
        digits = word.removeprefix("+")
        if not (digits.isascii() and digits.isdigit()):
            return 0
        number = int(digits)
        return number if number < 2**64 else 0

    def value(self):
        """Reads a value."""
        number = self.number()
        return Value(number, self.serial())

    def values(self):
        """Reads a value, for a call that may take more than one."""
        return Values(self, self.value())

    def hasher(self):
        """Reads a hasher."""
        return Hasher(self.word(), self.serial())

    def pairs(self):
        """Reads the pairs that are left of the line, one by one as they are asked for."""
        for word in self.words:
            yield self.key_of(word), self.value()

    def keys(self):
        """Reads the keys that are left of the line, one by one as they are asked for."""
        for word in self.words:
            yield self.key_of(word)

    def words_left(self):
        """Returns how many words are left."""
        words = list(self.words)
        self.words = iter(words)
        return len(words)

    def numbered_key(self, number):
        """Makes the key of a number."""
        return self.key_of(str(number))

    def numbered(self, number):
        """Makes the key and the value of a number."""
        return self.numbered_key(number), Value(number, self.serial())

    def show(self, item):
        """Shows an item of the answer."""
        self.shown.append(f"{item} ")

    def between(self, low, high):
        """Shows a number that lies between two."""
        return str(low) if low == high else f"<{low}..{high}>"

    def new_map(self):
        """Returns a map with the default hasher."""
        return Linked()


class Kind:
    """The two objects of a kind, which lines call `a` and `b`, the bytes of what each stores, and the
    texts of their lists."""

    def __init__(self, lines, reading, make, tail, pair):
        self.lines = lines
        self.pair = pair
        self.reading = reading
        self.tail = tail
        self.both = [make(), make()]
        self.texts = [None, None]

    def run(self, call, name):
        """Runs the call of a name, and returns its text, or `None` if there is no such call."""
        line = self.lines.get(name)
        if line is None:
            return None
        at = 1 if call.word() == "b" else 0
        call.other = self.both[1 - at]
        call.effects.pair = self.pair
        fresh = line(call, self.both[at])
        if fresh is not None:
            self.both[at] = fresh
        if name not in self.reading:
            self.texts = [None, None]
        if self.texts[at] is None:
            self.texts[at] = self.tail(self.both[at])
        return "".join(call.shown) + self.texts[at]


def map_tail(map_):
    return "|" + list_pairs(map_)


def set_tail(map_):
    return "|" + list_items(map_)


class Model:
    """What the lines speak of."""

    def __init__(self):
        self.serial = 0
        # How many clones are given until one is refused, or 0 for all.
        self.clones = [0]
        self.begin()

    def begin(self):
        """Makes all anew, as at the begin of a chapter."""
        self.maps = Kind(maps.LINES, maps.READING, Linked, map_tail, KEY + VALUE)
        self.caches = Kind(caches.LINES, caches.READING, caches.Cache, caches.tail, KEY + VALUE)
        self.sets = Kind(sets.LINES, sets.READING, Linked, set_tail, KEY)
        self.sessions = Kind(sessions.LINES, sessions.READING, sessions.Sessions, sessions.tail,
                             2 * NUMBER + VALUE)
        self.kinds = {"cache_": self.caches, "set_": self.sets, "sessions_": self.sessions,
                      "": self.maps}

    def kind_of(self, name):
        """Returns what a line of a name is about, and the rest of the name."""
        if name in self.maps.lines:
            return self.maps, name
        return next((kind, name.removeprefix(prefix)) for prefix, kind in self.kinds.items()
                    if name.startswith(prefix))

    def names(self):
        """Returns the names of all lines."""
        return {prefix + name for prefix, kind in self.kinds.items() for name in kind.lines}

    def run(self, line, requests=None, refused=None):
        """Runs a line, of which the request for memory of the number `refused` is refused, or those
        of several numbers."""
        if line.startswith("#"):
            self.begin()
            return Expected(line)
        refused = (refused,) if isinstance(refused, int) else tuple(refused or ())
        call = Call(line.split(), self, refused)
        kind, name = self.kind_of(call.word())
        text = kind.run(call, name)
        if text is None:
            return Expected("unknown")
        made = call.effects.requests
        if refused and made < max(refused):
            raise Unexpected(f"request {max(refused)} was refused, and {made} are made")
        return Expected(text, call.effects.table(), made, call.effects.size)
