"""What a call does besides its answer, and the closures that it calls and drops."""

from memory import CHUNK, NODE
from objects import MASK

# The effects in the order in which a line shows them.
ORDER = (
    "drop-keys", "drop-values", "drop-hashers", "drop-closures", "hash-keys", "eq-keys",
    "eq-values", "cmp-keys", "cmp-values", "clone-keys", "clone-values", "clone-hashers",
    "build-hashers", "hash-values",
)


class Effects:
    """The counts of a line. `requests` counts what asks for memory, of which those of the numbers
    `refused` are refused, and `size` sums the bytes of all. A stored pair has the bytes `pair`."""

    __slots__ = ("counts", "drops", "least", "most", "sorted", "requests", "size", "pair", "refused", "clones")

    def __init__(self, refused=(), clones=None, pair=0):
        self.counts = {}
        self.pair = pair
        # How many clones are given until one is refused, in a list of one, or 0 for all.
        self.clones = clones or [0]
        self.drops = {}
        # Between these two are the comparisons of keys.
        self.least = self.most = 0
        # Between these two are those of values by a sort of a list.
        self.sorted = 0, 0
        self.requests = self.size = 0
        self.refused = refused

    def ask(self, size):
        """Asks for so many bytes, and returns whether they are given."""
        self.requests += 1
        self.size += size
        return self.requests not in self.refused

    def ask_for_nodes(self, count):
        """Asks for a chunk of nodes, and returns whether it is given."""
        return self.ask(CHUNK + (NODE + self.pair) * count)

    def add(self, name, count=1):
        """Counts an effect."""
        self.counts[name] = self.counts.get(name, 0) + count

    def drop(self, name, serial):
        """Counts the drop of an object."""
        count, total = self.drops.get(name, (0, 0))
        self.drops[name] = (count + 1, total + serial)

    def drop_key(self, key):
        """Counts the drop of a key."""
        self.drop("drop-keys", key.serial)

    def drop_value(self, value):
        """Counts the drop of a value."""
        if value.counted:
            self.drop("drop-values", value.serial)

    def drop_pair(self, pair):
        """Counts the drop of a key and its value."""
        self.drop_key(pair.key)
        self.drop_value(pair.value)

    def drop_hasher(self, hasher):
        """Counts the drop of a hasher."""
        if hasher.counted:
            self.drop("drop-hashers", hasher.serial)

    def drop_closure(self, serial):
        """Counts the drop of a closure."""
        self.drop("drop-closures", serial)

    def hash_key(self, hasher):
        """Counts that a hasher is built and a key hashed."""
        self.add("hash-keys")
        if hasher.counted:
            self.add("build-hashers")

    def compare_keys(self, least, most):
        """Counts comparisons of keys, between two numbers."""
        self.least += least
        self.most += most

    def compare_values(self, least, most):
        """Counts comparisons of values, between two numbers."""
        self.sorted = least, most

    def is_cloned(self, name):
        """Counts a clone, and returns whether it is given."""
        self.add(name)
        if self.clones[0] == 0:
            return True
        self.clones[0] -= 1
        return self.clones[0] > 0

    def clone_key(self, key):
        """Returns the clone of a key, or `None` if it is refused."""
        return key.clone() if self.is_cloned("clone-keys") else None

    def clone_value(self, value):
        """Returns the clone of a value, or `None` if it is refused."""
        return value.clone() if not value.counted or self.is_cloned("clone-values") else None

    def clone_hasher(self, hasher):
        """Returns the clone of a hasher, or `None` if it is refused."""
        return hasher.clone() if not hasher.counted or self.is_cloned("clone-hashers") else None

    def dropped(self):
        """Returns how many keys and values were dropped."""
        return sum(self.drops.get(name, (0, 0))[0] for name in ("drop-keys", "drop-values"))

    def table(self):
        """Returns each effect as a line shows it, or as a pair of the least and the most."""
        found = {name: str(count) for name, count in self.counts.items() if count}
        for name, (count, total) in self.drops.items():
            found[name] = f"{count}:{total & MASK}"
        for name, least, most in (("eq-keys", self.least, self.most), ("cmp-values", *self.sorted)):
            if most:
                found[name] = str(most) if least == most else (least, most)
        return found


class Closure:
    """A closure: how often it was called, and what was dropped at the last call."""

    def __init__(self, call):
        self.effects = call.effects
        self.calls = self.dropped = 0
        call.effects.drop_closure(call.serial())

    def note(self):
        """Notes a call."""
        self.calls += 1
        self.dropped = self.effects.dropped()

    def show(self, call):
        """Shows both counts."""
        call.show(self.calls)
        call.show(self.dropped)
