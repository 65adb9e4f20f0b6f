"""Iterators: steps from both ends, and what is left."""

import itertools

from linked import clone_of
from shown import equation, pair_text, some


class Steps:
    """What is left of a list: `left` items, the next of `front` and of `back`."""

    def __init__(self, front, back, left):
        self.front = front
        self.back = back
        self.left = left
        self.taken = self.taken_back = 0

    def step(self, letter):
        """Returns the next item, from the back at a `b`, or `None`."""
        if self.left == 0:
            return None
        self.left -= 1
        if letter == "b":
            self.taken_back += 1
            return self.back[self.taken_back - 1]
        self.taken += 1
        return self.front[self.taken - 1]

    def copy(self):
        """Returns an iterator over the same items."""
        copy = Steps(self.front, self.back, self.left)
        copy.taken, copy.taken_back = self.taken, self.taken_back
        return copy

    def rest(self):
        """Returns the items left, if the list is whole."""
        return self.front[self.taken:self.taken + self.left]


def lent(map_, most):
    """Returns an iterator over the pairs of a map, for so many steps."""
    values = map_.pairs.values()
    front = list(itertools.islice(values, most))
    return Steps(front, list(itertools.islice(reversed(values), most)), len(values))


def owned(pairs):
    """Returns an iterator over the pairs of a list."""
    return Steps(pairs, pairs[::-1], len(pairs))


def show_left(call, left):
    """Shows a hint of the size, and the length."""
    call.show(f"({left}, Some({left}))")
    call.show(left)


def iterate(call, steps, letters, show, drop=None):
    """Makes a step for each letter, and shows what each gives and how much is left. `drop` counts
    what a step drops."""
    for letter in letters:
        pair = steps.step(letter)
        if pair is not None and drop:
            drop(pair)
        call.show(some(None if pair is None else show(pair)))
        show_left(call, steps.left)


def iterate_and_clone(call, map_, show):
    """Iterates, and then by a clone and by the iterator itself."""
    letters, again = call.word(), call.word()
    steps = lent(map_, len(letters) + len(again))
    iterate(call, steps, letters, show)
    iterate(call, steps.copy(), again, show)
    call.show("/")
    iterate(call, steps, again, show)


def iter_pairs(call, map_):
    iterate_and_clone(call, map_, pair_text)


def iter_keys(call, map_):
    iterate_and_clone(call, map_, lambda pair: pair.key)


def iter_values(call, map_):
    iterate_and_clone(call, map_, lambda pair: pair.value)


def advance(call, pairs, letters, most, show):
    """Makes a step for each letter by an iterator with one end, and shows what each gives and the
    hint of what is left. Returns the pairs left."""
    for _ in letters:
        call.show(some(show(pairs[0]) if pairs else None))
        pairs = pairs[1:]
        call.show(f"(1, Some({most}))" if pairs else "(0, Some(0))")
    return pairs


def iterate_from(call, map_, in_order, show=pair_text):
    """Iterates from the pair of a key on, and then by a clone and by the iterator itself."""
    key, letters, again = call.key(), call.word(), call.word()
    own = map_.find(key, call.effects)
    if own is None:
        call.show("absent")
        return
    others = itertools.dropwhile(lambda pair: pair is not own, in_order(map_.pairs.values()))
    pairs = list(itertools.islice(others, len(letters) + len(again) + 1))
    rest = advance(call, pairs, letters, len(map_), show)
    advance(call, rest, again, len(map_), show)
    call.show("/")
    advance(call, rest, again, len(map_), show)


def iter_from(call, map_):
    iterate_from(call, map_, iter)


def iter_back_from(call, map_):
    iterate_from(call, map_, reversed)


def write_each(call, map_, show):
    """Makes steps, and writes another value in place of each that is lent."""
    letters, given = call.word(), call.values()
    steps = lent(map_, len(letters))
    for letter in letters:
        pair = steps.step(letter)
        call.show("end" if pair is None else show(pair))
        if pair is not None:
            pair.replace(given.take())
        show_left(call, steps.left)


def iter_mut(call, map_):
    write_each(call, map_, equation)


def values_mut(call, map_):
    write_each(call, map_, lambda pair: pair.value)


def drop_rest(call, steps):
    """Drops the pairs that an iterator has left."""
    for pair in steps.rest():
        call.effects.drop_pair(pair)


def iterate_to_the_end(call, pairs, show, drop=None):
    """Iterates over pairs that are owned, and drops or forgets those left."""
    steps = owned(pairs)
    iterate(call, steps, call.word(), show, drop)
    if call.word() != "forget":
        drop_rest(call, steps)


def clone_rest(call, steps):
    """Returns a clone of an iterator that owns its pairs, or `None` if it is refused."""
    effects = call.effects
    if steps.left and not effects.ask_for_nodes(steps.left):
        return None
    copies = []
    for pair in steps.rest():
        copy = clone_of(pair, effects)
        if copy is None:
            for made in copies:
                effects.drop_pair(made)
            return None
        copies.append(copy)
    return owned(copies)


def into_iter(call, map_):
    """Takes a map apart, clones the iterator, and iterates by both. Leaves a new map."""
    call.effects.drop_hasher(map_.hasher)
    steps = owned(map_.take_all())
    iterate(call, steps, call.word(), pair_text)
    again = call.word()
    copy = clone_rest(call, steps)
    if copy is None:
        call.show("refused")
    else:
        iterate(call, copy, again, pair_text)
        drop_rest(call, copy)
    call.show("/")
    iterate(call, steps, again, pair_text)
    drop_rest(call, steps)
    return call.new_map()


def into_iter_forget(call, map_):
    """Takes a map apart, and forgets what is left of it."""
    call.effects.drop_hasher(map_.hasher)
    iterate(call, owned(map_.take_all()), call.word(), pair_text)
    return call.new_map()


def take_apart(call, map_, show, drop=None):
    """Takes a map apart by an iterator whose steps drop what they do not give."""
    call.effects.drop_hasher(map_.hasher)
    iterate_to_the_end(call, map_.take_all(), show, drop)
    return call.new_map()


def into_keys(call, map_):
    return take_apart(call, map_, lambda pair: pair.key,
                      lambda pair: call.effects.drop_value(pair.value))


def into_values(call, map_):
    return take_apart(call, map_, lambda pair: pair.value,
                      lambda pair: call.effects.drop_key(pair.key))


def drain(call, map_):
    iterate_to_the_end(call, map_.take_all(), pair_text)


def into_iter_of_clone(call, map_, show):
    """Takes a clone apart."""
    copy = map_.clone(call.effects)
    if copy is None:
        call.show("refused")
    else:
        take_apart(call, copy, show)


def loop(call, map_):
    """Shows each pair."""
    for pair in map_.pairs.values():
        call.show(equation(pair))


def loop_mut(call, map_):
    """Adds a number to each value, in place."""
    number = call.number()
    for pair in map_.pairs.values():
        pair.value.write(pair.value.number + number)


LINES = {
    "iter": iter_pairs, "keys": iter_keys, "values": iter_values, "iter_mut": iter_mut,
    "values_mut": values_mut, "into_iter": into_iter, "into_iter_forget": into_iter_forget,
    "into_keys": into_keys, "into_values": into_values, "drain": drain, "loop": loop,
    "loop_mut": loop_mut, "iter_from": iter_from, "iter_back_from": iter_back_from,
}
