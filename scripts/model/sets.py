"""The lines of a set: the keys of a map whose values are nothing."""

import comparing
import fills
import iterators
import making
import maps
import sorts
from linked import Linked, Refused
from memory import NUMBER, Memory, error_of, made
from objects import UNIT, default_hasher, fold
from shown import items_text, show_error, some, truth


def show_refused(call, refused):
    """Shows the item that a refused insertion hands back."""
    call.show(f"refused {refused.key} #{refused.key.serial}")


def units(items):
    """Returns the pairs of some items."""
    return ((item, UNIT) for item in items)


def insert_item(call, set_, item):
    """Inserts an item. Returns what is refused, or whether it is new."""
    old = set_.insert(item, UNIT, call.effects)
    return old if isinstance(old, Refused) else old is None


def show_new(call, is_new):
    """Shows whether an item is new, or what is refused."""
    if isinstance(is_new, Refused):
        show_refused(call, is_new)
    else:
        call.show(truth(is_new))


def insert(call, set_):
    show_new(call, insert_item(call, set_, call.key()))


def insert_front(call, set_):
    old = set_.insert_front(call.key(), UNIT, call.effects)
    show_new(call, old if isinstance(old, Refused) else old is None)


def put_if_absent(call, set_, item):
    """Inserts an item. A present one keeps its place."""
    set_.keeps = True
    is_new = insert_item(call, set_, item)
    set_.keeps = False
    return is_new


def insert_if_absent(call, set_):
    show_new(call, put_if_absent(call, set_, call.key()))


def replace_item(call, set_, item):
    """Looks an absent item up a second time to insert it. Returns the old one, `None` or what is
    refused."""
    return set_.replace_key(item, call.effects) or set_.insert(item, UNIT, call.effects)


def replace(call, set_):
    old = replace_item(call, set_, call.key())
    if isinstance(old, Refused):
        show_refused(call, old)
    else:
        call.show(some(old))


def show_back(call, set_, refused):
    """Shows the back item, or what is refused."""
    if isinstance(refused, Refused):
        show_refused(call, refused)
    else:
        call.show(set_.end(last=True).key)


def get_or_insert(call, set_):
    show_back(call, set_, insert_item(call, set_, call.key()))


def get_or_insert_with(call, set_):
    show_back(call, set_, put_with(call, set_, call.key()))


def put_with(call, set_, item):
    """Of an absent item one more is made and inserted, which is looked up anew. Returns what is
    refused, if anything."""
    call.effects.drop_closure(call.serial())
    if set_.find_and_move(item, call.effects):
        return None
    return insert_item(call, set_, call.key_of(item.shown))


# What puts in an item of a fill.
ONE_BY_ONE = {"insert_if_absent": put_if_absent, "replace": replace_item,
              "get_or_insert_with": put_with}


def contains(call, set_):
    call.show(truth(set_.find(call.key(), call.effects)))


def get(call, set_):
    pair = set_.find(call.key(), call.effects)
    call.show(some(pair and pair.key))


def take(call, set_):
    pair = set_.remove_entry(call.key(), call.effects)
    call.show(some(pair and pair.key))


def remove(call, set_):
    call.show(truth(set_.remove(call.key(), call.effects)))


def to_front(call, set_):
    call.show(truth(set_.find_and_move(call.key(), call.effects, last=False)))


def to_back(call, set_):
    call.show(truth(set_.find_and_move(call.key(), call.effects)))


def show_key(call, pair):
    """Shows the item of a pair, if there is one."""
    call.show(some(pair and pair.key))


def front(call, set_):
    show_key(call, set_.end(last=False))


def back(call, set_):
    show_key(call, set_.end(last=True))


def pop_front(call, set_):
    show_key(call, set_.pop(last=False))


def pop_back(call, set_):
    show_key(call, set_.pop(last=True))


def retain(call, set_):
    keeping = maps.Keeping(call)

    def keeps_item(pair):
        keeping.note()
        return pair.key.number % 7 != keeping.number
    set_.retain(keeps_item, call.effects)
    keeping.show(call)


# Sets that are made, and those that take items in.


def with_hasher(call, _set):
    return Linked(call.hasher())


def with_capacity(call, _set):
    return making.with_capacity(call, _set)


def collected(items, effects):
    """Returns a set of some items, or what was refused: then the items before it are dropped."""
    fresh = Linked(default_hasher())
    refused = fresh.extend(units(items), effects)
    if refused is not None:
        fresh.drop(effects)
    return fresh if refused is None else refused


def from_iter(call, _set):
    """A hint of how many items there are changes nothing."""
    fresh = collected(call.keys(), call.effects)
    if isinstance(fresh, Refused):
        return show_refused(call, fresh)
    return fresh


def collect(call, _set):
    """The error of the trait hands nothing back, so what is refused is dropped."""
    fresh = collected(call.keys(), call.effects)
    if isinstance(fresh, Refused):
        call.effects.drop_key(fresh.key)
        return call.show("refused")
    return fresh


def extend(call, set_):
    refused = set_.extend(units(call.keys()), call.effects)
    if refused:
        show_refused(call, refused)


def extend_refs(call, set_):
    """Inserts copies of the items of another set, one by one. One that is refused is shown."""
    for pair in call.other.pairs.values():
        refused = insert_item(call, set_, pair.key.clone())
        if isinstance(refused, Refused):
            show_refused(call, refused)


def new(call, _set):
    call.effects.pair = NUMBER
    insert_twice(call, Memory(), call.number())


def insert_twice(call, memory, number):
    """Inserts a number twice into a set of numbers. Only the first call is counted."""
    is_given = memory.has_room(0, call.effects)
    call.show("true" if is_given else "refused")
    call.show(truth(not is_given))
    call.show(f"{{{number}}}")


def new_with_capacity(call, _set):
    """Does so with a set of a capacity, which at 0 is then raised."""
    wanted, number = call.number(), call.number()
    call.effects.pair = NUMBER
    memory = made(wanted, call.effects)
    if memory is None:
        show_error(call, error_of(wanted))
    else:
        insert_twice(call, memory, number)
        call.show(max(wanted, 1))


MAKING = {
    "with_hasher": with_hasher, "with_capacity": with_capacity, "from_iter": from_iter,
    "collect": collect, "extend": extend, "extend_refs": extend_refs, "clone": making.clone,
    "emptied": making.emptied, "made_with": making.default, "new": new,
    "new_with_capacity": new_with_capacity,
}

# Iterators.


def key_of(pair):
    return pair.key


def iter_from(call, set_):
    iterators.iterate_from(call, set_, iter, key_of)


def iter_back_from(call, set_):
    iterators.iterate_from(call, set_, reversed, key_of)


def drain(call, set_):
    iterators.iterate_to_the_end(call, set_.take_all(), key_of)


def into_iter(call, set_):
    iterators.into_iter_of_clone(call, set_, key_of)


def loop(call, set_):
    for pair in set_.pairs.values():
        call.show(pair.key)


def debug(call, set_):
    call.show(items_text(set_.pairs.values()))


def hash_all(call, set_):
    """Hashes each item by one hasher that spreads."""
    number = 0
    for pair in set_.pairs.values():
        number = fold(number, pair.key.folded)
        call.effects.add("hash-keys")
    call.show(number)


# Two sets.


class Found:
    """An iterator over items, each with a set that it is looked up in, or with `None` if it is not.
    It gives those that are found there as is wanted. A clone goes on by itself."""

    def __init__(self, effects, wanted, pairs, at=0):
        self.effects = effects
        self.wanted = wanted
        self.pairs = pairs
        self.at = at

    def copy(self):
        return Found(self.effects, self.wanted, self.pairs, self.at)

    def next(self):
        """Returns the next item, or `None`."""
        while self.at < len(self.pairs):
            pair, apart = self.pairs[self.at]
            self.at += 1
            if apart is None or bool(apart.find(pair.key, self.effects)) == self.wanted:
                return pair.key
        return None


def looked_up(items, apart):
    """Returns the items of a set, each with the set that it is looked up in."""
    return [(pair, apart) for pair in items.pairs.values()]


def difference_of(call, set_, other):
    return Found(call.effects, False, looked_up(set_, other))


def intersection_of(call, set_, other):
    return Found(call.effects, True, looked_up(set_, other))


def symmetric_difference_of(call, set_, other):
    return Found(call.effects, False, looked_up(set_, other) + looked_up(other, set_))


def union_of(call, set_, other):
    return Found(call.effects, False, looked_up(set_, None) + looked_up(other, set_))


def show_all(call, found):
    """Shows each item."""
    while (item := found.next()) is not None:
        call.show(item)


def operation(found_of):
    """Returns the line of an operation: it shows all, or what the steps of the words give."""
    def line(call, set_):
        found = found_of(call, set_, call.other)
        first, again = call.word(), call.word()
        if not first:
            show_all(call, found)
            return
        step_through(call, found, first)
        step_through(call, found.copy(), again)
        call.show("/")
        step_through(call, found, again)
    return line


def step_through(call, found, letters):
    """Makes a step for each letter."""
    for _ in letters:
        call.show(some(found.next()))


def is_subset(call, set_):
    call.show(truth(difference_of(call, set_, call.other).next() is None))


def is_superset(call, set_):
    call.show(truth(difference_of(call, call.other, set_).next() is None))


def is_disjoint(call, set_):
    call.show(truth(intersection_of(call, set_, call.other).next() is None))


def fill(call, set_):
    """Puts in numbered items by a call. Returns a set that takes its place, if one is made."""
    count, name = call.number(), call.word()
    if name in ("from_iter", "collect"):
        return fill_new(call, count, drops=name == "collect")
    if name == "extend":
        fills.fill_at_once(call, count, lambda items: set_.extend(units(items), call.effects),
                           call.numbered_key)
    else:
        put_one = ONE_BY_ONE.get(name, insert_item)
        fills.fill_one_by_one(call, count, lambda number: put_one(
            call, set_, call.numbered_key(number)))
    return None


def fill_new(call, count, drops):
    """Returns a new set of the items, or `None`. An item that is refused may be dropped."""
    fresh = []

    def take_in(items):
        fresh.append(collected(items, call.effects))
        return fresh[0] if isinstance(fresh[0], Refused) else None
    fills.fill_at_once(call, count, take_in, call.numbered_key)
    if not isinstance(fresh[0], Refused):
        return fresh[0]
    if drops:
        call.effects.drop_key(fresh[0].key)
    return None


def refused_texts(call, _set):
    """Turns two errors of the line's item made again into others, which drops the items."""
    call.key()
    for _ in range(2):
        call.effects.drop("drop-keys", call.serial())
    comparing.show_errors(call, "no memory for another item")
    comparing.show_other_errors(call)


LINES = {
    "insert": insert, "insert_front": insert_front, "insert_if_absent": insert_if_absent,
    "replace": replace, "get_or_insert": get_or_insert, "get_or_insert_with": get_or_insert_with,
    "contains": contains, "get": get, "take": take, "remove": remove, "to_front": to_front,
    "to_back": to_back, "refresh": to_back, "front": front, "back": back, "pop_front": pop_front,
    "pop_back": pop_back, "retain": retain, "iter": iterators.iter_keys, "drain": drain,
    "into_iter": into_iter, "loop": loop, "debug": debug, "hash": hash_all,
    "difference": operation(difference_of),
    "symmetric_difference": operation(symmetric_difference_of),
    "intersection": operation(intersection_of), "union": operation(union_of),
    "is_subset": is_subset, "is_superset": is_superset, "is_disjoint": is_disjoint,
    "fill": fill, "refused_texts": refused_texts, "append": making.append,
    "iter_from": iter_from, "iter_back_from": iter_back_from, **sorts.OF_SETS,
    **{name: making.making(line) for name, line in MAKING.items()},
    **{name: maps.LINES[name] for name in (
        "len", "clear", "reserve", "shrink_to_fit", "capacity", "eq", "drop", "hasher",
        "move_before", "move_after", "truncate")},
}
# Lines that change no item.
READING = {
    "contains", "get", "front", "back", "len", "reserve", "shrink_to_fit", "capacity", "eq",
    "hasher", "iter", "into_iter", "loop", "debug", "new", "hash", "difference",
    "symmetric_difference", "intersection", "union", "is_subset", "is_superset", "is_disjoint",
    "refused_texts", "new_with_capacity", "iter_from", "iter_back_from", "sort",
}
