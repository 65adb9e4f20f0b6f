"""A map that keeps its pairs in order: what each call returns, leaves and does.

A call takes the effects of its line, and counts in them what the documentation of the call says."""

import collections

from memory import Memory, made
from objects import default_hasher


class Pair:
    """A stored key and its value."""

    __slots__ = ("key", "value")

    def __init__(self, key, value):
        self.key = key
        self.value = value

    def replace(self, value):
        """Stores another value, and returns the old one."""
        old, self.value = self.value, value
        return old

    def replace_key(self, key):
        """Stores another key, and returns the old one."""
        old, self.key = self.key, key
        return old


class Refused:
    """An insertion that was refused: what comes back."""

    __slots__ = ("key", "value")

    def __init__(self, key, value):
        self.key = key
        self.value = value


class Linked:
    """The pairs in order, by what their keys are looked up by. `alike` counts the keys of each
    hash. `to_visit` has the pairs still to be visited, the next one last."""

    __slots__ = ("pairs", "hasher", "alike", "keeps", "to_visit", "memory")

    def __init__(self, hasher=None, memory=None):
        self.pairs = collections.OrderedDict()
        self.hasher = hasher or default_hasher()
        self.alike = {}
        self.keeps = False
        self.to_visit = []
        self.memory = memory or Memory()

    def __len__(self):
        return len(self.pairs)

    def end_visit(self):
        """Ends a visit, as each call does that may remove or move a pair."""
        self.to_visit = []

    # Lookups.

    def same(self, key):
        """Returns how many stored keys have the hash of a key."""
        return self.alike.get(self.hasher.hash_of(key), 0)

    def find(self, key, effects):
        """Looks a key up: hashes it once, and compares it with keys of its hash, all if it is
        absent. Returns its pair or `None`."""
        effects.hash_key(self.hasher)
        pair = self.pairs.get(key.folded)
        same = self.same(key)
        effects.compare_keys(1 if pair else same, same)
        return pair

    # Insertions.

    def touch(self, pair):
        """Moves a pair to the back, except in `Keep`."""
        if not self.keeps:
            self.pairs.move_to_end(pair.key.folded)

    def push(self, key, value, effects):
        """Inserts the pair of an absent key at the back. Returns `None`, or what is refused."""
        if not self.memory.has_room(len(self.pairs), effects):
            return Refused(key, value)
        self.pairs[key.folded] = Pair(key, value)
        hashed = self.hasher.hash_of(key)
        self.alike[hashed] = self.alike.get(hashed, 0) + 1
        return None

    def insert(self, key, value, effects):
        """Returns the old value, `None`, or what is refused."""
        pair = self.find(key, effects)
        if pair is None:
            return self.push(key, value, effects)
        self.end_visit()
        self.touch(pair)
        effects.drop_key(key)
        return pair.replace(value)

    def insert_front(self, key, value, effects):
        """Does so, with the pair at the front in place of the back, and ends a visit also if the
        key is new."""
        stays = self.keeps and key.folded in self.pairs
        old = self.insert(key, value, effects)
        if not isinstance(old, Refused):
            self.end_visit()
            if not stays:
                self.pairs.move_to_end(key.folded, last=False)
        return old

    def extend(self, pairs, effects):
        """Inserts each pair up to one that is refused, which is returned."""
        for key, value in pairs:
            old = self.insert(key, value, effects)
            if isinstance(old, Refused):
                return old
            if old is not None:
                effects.drop_value(old)
        return None

    def append(self, other, effects):
        """Moves all pairs of another map into this one. Looks each key up twice, first to count
        those that are absent, for which it makes room at once. Returns `None` or the error."""
        pairs = other.pairs.values()
        absent = sum(self.find(pair.key, effects) is None for pair in pairs)
        error = self.reserve(absent, effects)
        if error is None:
            self.extend([(pair.key, pair.value) for pair in other.take_all()], effects)
            self.end_visit()
        return error

    # Calls by a present key.

    def find_and_move(self, key, effects, last=True):
        """Moves the pair of a key to an end in both modes, and returns it or `None`."""
        pair = self.find(key, effects)
        if pair is not None:
            self.end_visit()
            self.pairs.move_to_end(key.folded, last=last)
        return pair

    def move_beside(self, key, other, behind, effects):
        """Moves the pair of a key before that of another, or one place further on. Tells whether
        both are present: the second is looked up if the first is."""
        if self.find(key, effects) is None or self.find(other, effects) is None:
            return False
        self.end_visit()
        order = [name for name in self.pairs if name != key.folded]
        if other.folded != key.folded:
            place = order.index(other.folded) + behind
            for name in [key.folded, *order[place:]]:
                self.pairs.move_to_end(name)
        return True

    def replace_key(self, key, effects):
        """Stores a key in place of the one that is the same. Returns that, or `None`."""
        pair = self.find(key, effects)
        return pair.replace_key(key) if pair else None

    def entry(self, key, effects):
        """Looks a key up for its entry. One that is present is dropped, and ends a visit. Returns
        its pair or `None`."""
        pair = self.find(key, effects)
        if pair is not None:
            self.end_visit()
            effects.drop_key(key)
        return pair

    # Removals.

    def take(self, pair):
        """Removes a pair. A visit of others goes on."""
        del self.pairs[pair.key.folded]
        hashed = self.hasher.hash_of(pair.key)
        self.alike[hashed] -= 1
        if not self.alike[hashed]:
            del self.alike[hashed]

    def remove_entry(self, key, effects):
        """Removes and returns the pair of a key, or `None`."""
        pair = self.find(key, effects)
        if pair is not None:
            self.end_visit()
            self.take(pair)
        return pair

    def remove(self, key, effects):
        """Does so, and drops the stored key."""
        pair = self.remove_entry(key, effects)
        if pair is not None:
            effects.drop_key(pair.key)
        return pair

    def end(self, last):
        """Returns the front or the back pair, or `None`."""
        ends = reversed(self.pairs.values()) if last else iter(self.pairs.values())
        return next(ends, None)

    def pop(self, last):
        """Removes and returns the front or the back pair, or `None`."""
        pair = self.end(last)
        if pair is not None:
            self.end_visit()
            self.take(pair)
        return pair

    def take_all(self):
        """Removes all pairs and returns them in order."""
        self.end_visit()
        taken = list(self.pairs.values())
        self.pairs.clear()
        self.alike.clear()
        return taken

    def clear(self, effects):
        """Drops all pairs."""
        for pair in self.take_all():
            effects.drop_pair(pair)

    def truncate(self, most, effects):
        """Drops the pairs behind the first ones, of which there are at most so many."""
        self.end_visit()
        while len(self) > most:
            effects.drop_pair(self.pop(last=True))

    def retain(self, keeps, effects):
        """Drops the pairs that a test does not keep."""
        self.end_visit()
        for pair in list(self.pairs.values()):
            if not keeps(pair):
                self.take(pair)
                effects.drop_pair(pair)

    def drop(self, effects):
        """Drops the map: its pairs and its hasher."""
        for pair in self.pairs.values():
            effects.drop_pair(pair)
        effects.drop_hasher(self.hasher)

    # Order and visits.

    def rotate(self, count):
        """Moves so many pairs from the front to the back."""
        self.end_visit()
        if count <= len(self.pairs) - count:
            for _ in range(count):
                self.pairs.move_to_end(next(iter(self.pairs)))
        else:
            for _ in range(len(self.pairs) - count):
                self.pairs.move_to_end(next(reversed(self.pairs)), last=False)

    def reorder(self, pairs):
        """Puts all pairs into another order."""
        self.end_visit()
        for pair in pairs:
            self.pairs.move_to_end(pair.key.folded)

    def visit(self):
        """Begins a visit of every pair."""
        self.to_visit = list(reversed(self.pairs.values()))

    def next_to_visit(self):
        """Returns the next pair of a visit, or `None`."""
        return self.to_visit.pop() if self.to_visit else None

    # Memory and clones.

    def reserve(self, additional, effects):
        """Returns `None` or the error."""
        return self.memory.reserve(additional, len(self.pairs), effects)

    def is_shrunk(self, effects):
        """Tells whether the capacity is lowered to the number of pairs, which ends a visit."""
        if not self.memory.is_shrunk(len(self.pairs), effects):
            return False
        self.end_visit()
        return True

    def clone(self, effects):
        """Returns a clone, or `None` if memory or a clone is refused: then the clones made so far
        are dropped. Each key is looked up as it is inserted."""
        hasher = effects.clone_hasher(self.hasher)
        if hasher is None:
            return None
        memory = made(len(self.pairs), effects)
        if memory is None:
            effects.drop_hasher(hasher)
            return None
        fresh = Linked(hasher, memory)
        for pair in self.pairs.values():
            copy = clone_of(pair, effects)
            if copy is None:
                fresh.drop(effects)
                return None
            fresh.insert(copy.key, copy.value, effects)
        fresh.keeps = self.keeps
        return fresh


def clone_of(pair, effects):
    """Returns a clone of a key and its value, or `None` if one is refused: then that of the key is
    dropped."""
    key = effects.clone_key(pair.key)
    if key is None:
        return None
    value = effects.clone_value(pair.value)
    if value is None:
        effects.drop_key(key)
        return None
    return Pair(key, value)


def collected(pairs, effects, reserved=0):
    """Returns a map with the default hasher of some pairs, or `None` if it is refused: then what
    was taken is dropped. It has room for so many pairs at first."""
    memory = made(reserved, effects)
    if memory is None:
        return None
    fresh = Linked(default_hasher(), memory)
    refused = fresh.extend(pairs, effects)
    if refused is not None:
        effects.drop_key(refused.key)
        effects.drop_value(refused.value)
        fresh.drop(effects)
        return None
    return fresh


def is_equal(map_, other, effects):
    """Tells whether two maps have the same pairs in the same order. Compares none if the lengths
    differ."""
    if len(map_) != len(other):
        return False
    for pair, against in zip(map_.pairs.values(), other.pairs.values()):
        effects.compare_keys(1, 1)
        if pair.key.folded != against.key.folded:
            return False
        if pair.value.counted:
            effects.add("eq-values")
        if pair.value.number != against.value.number:
            return False
    return True
