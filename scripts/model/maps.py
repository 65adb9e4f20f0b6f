"""The lines of a map. Each function makes a call, and may return a map that takes its place."""

import comparing
import entries
import fills
import iterators
import making
import replays
import sorts
from effects import Closure
from linked import Refused
from shown import pair_text, show_error, some, truth

# Lookups, and writes of one value.


def get(call, map_):
    pair = map_.find(call.key(), call.effects)
    call.show(some(pair and pair.value))


def get_key_value(call, map_):
    pair = map_.find(call.key(), call.effects)
    call.show(some(pair and pair_text(pair)))


def contains_key(call, map_):
    call.show(truth(map_.find(call.key(), call.effects)))


def index(call, map_):
    """The index is used if the key is present, which a call outside of the count tells."""
    key = call.key()
    if key.folded in map_.pairs:
        call.show(map_.find(key, call.effects).value)
    else:
        call.show("absent")


def index_mut(call, map_):
    key, value = call.key(), call.value()
    if key.folded in map_.pairs:
        map_.find(key, call.effects).replace(value)
        call.show("written")
    else:
        call.show("absent")


def write_lent(call, pair, value):
    """Shows a value that is lent, and writes another in its place, if there is one."""
    call.show(pair.replace(value) if pair else "absent")


def get_mut(call, map_):
    key, value = call.key(), call.value()
    write_lent(call, map_.find(key, call.effects), value)


def get_refresh(call, map_):
    key, value = call.key(), call.value()
    write_lent(call, map_.find_and_move(key, call.effects), value)


def get_counted(call, map_):
    """The counts of an absent key are all nodes of its bucket and all keys with its hash, those of
    a present one are no more and at least one."""
    key = call.key()
    same = map_.same(key)
    beside = count_beside(map_, key)
    pair = map_.find(key, call.effects)
    least, reached = (1, 1) if pair else (same, beside)
    visited, compared = call.between(reached, beside), call.between(least, same)
    probe = f"Probe {{ visited: {visited}, compared: {compared} }}"
    call.show(f"({some(pair and pair.value)}, {probe})")


def count_beside(map_, key):
    """Returns how many stored keys are in the bucket of a key."""
    buckets = map_.memory.buckets
    if not buckets:
        return 0
    bucket = map_.hasher.hash_of(key) % buckets
    return sum(count for hashed, count in map_.alike.items() if hashed % buckets == bucket)


def front(call, map_):
    pair = map_.end(last=False)
    call.show(some(pair and pair_text(pair)))


def back(call, map_):
    pair = map_.end(last=True)
    call.show(some(pair and pair_text(pair)))


def front_mut(call, map_):
    write_lent(call, map_.end(last=False), call.value())


def back_mut(call, map_):
    write_lent(call, map_.end(last=True), call.value())


def length(call, map_):
    call.show(len(map_))
    call.show(truth(not map_.pairs))


def hasher(call, map_):
    call.show(map_.hasher)


# Insertions and removals.


def show_old(call, old):
    """Shows the value that an insertion replaced, or what it hands back."""
    if isinstance(old, Refused):
        entries.show_refused(call, old)
    else:
        call.show(some(old))


def insert(call, map_):
    show_old(call, map_.insert(call.key(), call.value(), call.effects))


def insert_front(call, map_):
    show_old(call, map_.insert_front(call.key(), call.value(), call.effects))


def replace(call, map_):
    """Inserts as in `Keep`."""
    keeps, map_.keeps = map_.keeps, True
    show_old(call, map_.insert(call.key(), call.value(), call.effects))
    map_.keeps = keeps


def insert_within_capacity(call, map_):
    """The call is made if the key is present or there is room."""
    key, value = call.key(), call.value()
    if key.folded not in map_.pairs and len(map_) == map_.memory.capacity:
        call.show("full")
    else:
        call.show(f"Ok({some(map_.insert(key, value, call.effects))})")


def remove(call, map_):
    pair = map_.remove(call.key(), call.effects)
    call.show(some(pair and pair.value))


def remove_entry(call, map_):
    pair = map_.remove_entry(call.key(), call.effects)
    call.show(some(pair and pair_text(pair)))


def replace_key(call, map_):
    key = call.key()
    old = map_.replace_key(key, call.effects)
    call.show(f"Ok({old} #{old.serial})" if old else f"Err({key} #{key.serial})")


def pop_front(call, map_):
    pair = map_.pop(last=False)
    call.show(some(pair and pair_text(pair)))


def pop_back(call, map_):
    pair = map_.pop(last=True)
    call.show(some(pair and pair_text(pair)))


def truncate(call, map_):
    map_.truncate(call.number(), call.effects)


def clear(call, map_):
    map_.clear(call.effects)


class Keeping(Closure):
    """The closure of `retain`."""

    def __init__(self, call):
        self.number = call.number() % 7
        super().__init__(call)

    def keeps_value(self, value):
        """Keeps a value that is not the number modulo 7, and adds the number of the call to it, in
        place."""
        self.note()
        if value.number % 7 == self.number:
            return False
        value.write(value.number + self.calls)
        return True


def retain(call, map_):
    keeping = Keeping(call)
    map_.retain(lambda pair: keeping.keeps_value(pair.value), call.effects)
    keeping.show(call)


def drop(call, map_):
    map_.drop(call.effects)
    return call.new_map()


# Order, mode and memory.


def move_to_back(call, map_):
    call.show(truth(map_.find_and_move(call.key(), call.effects)))


def move_to_front(call, map_):
    call.show(truth(map_.find_and_move(call.key(), call.effects, last=False)))


def move_before(call, map_):
    call.show(truth(map_.move_beside(call.key(), call.key(), 0, call.effects)))


def move_after(call, map_):
    call.show(truth(map_.move_beside(call.key(), call.key(), 1, call.effects)))


def rotate_left(call, map_):
    """The call is made if there are so many pairs."""
    count = call.number()
    if count > len(map_):
        call.show("too many")
    else:
        map_.rotate(count)


def mode(call, map_):
    call.show("Keep" if map_.keeps else "Touch")


def set_mode(call, map_):
    map_.keeps = call.word() == "keep"


def capacity(call, map_):
    call.show(map_.memory.capacity)


def rechained(call, map_):
    call.show(map_.memory.rechained)


def reserve(call, map_):
    show_error(call, map_.reserve(call.number(), call.effects))


def shrink_to_fit(call, map_):
    if not map_.is_shrunk(call.effects):
        show_error(call, "NoRoom")


def refuse_clone(call, _map):
    """Sets which clone from here on is refused."""
    call.model.clones[0] = call.number()


LINES = {
    "get": get, "get_key_value": get_key_value, "contains_key": contains_key, "index": index,
    "index_mut": index_mut, "get_mut": get_mut, "get_refresh": get_refresh,
    "get_counted": get_counted, "front": front, "back": back, "front_mut": front_mut,
    "back_mut": back_mut, "len": length, "hasher": hasher, "insert": insert,
    "insert_within_capacity": insert_within_capacity, "remove": remove,
    "remove_entry": remove_entry, "replace_key": replace_key, "pop_front": pop_front,
    "pop_back": pop_back, "clear": clear, "retain": retain, "drop": drop,
    "move_to_back": move_to_back, "move_to_front": move_to_front, "rotate_left": rotate_left,
    "move_before": move_before, "move_after": move_after, "insert_front": insert_front,
    "replace": replace, "truncate": truncate, "mode": mode, "set_mode": set_mode,
    "capacity": capacity, "rechained": rechained, "reserve": reserve,
    "shrink_to_fit": shrink_to_fit, "fill": fills.fill, "refuse_clone": refuse_clone,
    **making.LINES, **comparing.LINES, **entries.LINES, **iterators.LINES, **replays.LINES,
    **sorts.LINES,
}
# Lines that change no pair.
READING = {
    "get", "get_key_value", "contains_key", "index", "get_counted", "front", "back", "len",
    "hasher", "mode", "set_mode", "capacity", "rechained", "reserve", "shrink_to_fit", "eq", "cmp",
    "partial_cmp", "hash", "debug", "debug_pretty", "new", "entry_key", "visit", "unvisited",
    "iter", "keys", "values", "loop", "new_with_capacity", "refuse_clone", "refused_texts",
    "pair_lists", "extend_copied_refs", "extend_trait_refs", "iter_from", "iter_back_from",
    "sort_keys",
}
