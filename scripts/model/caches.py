"""The lines of a cache: a map of at most `limit` pairs, in the order of their last use."""

import fills
import iterators
import maps
from entries import show_refused
from linked import Linked, Refused
from maps import write_lent
from memory import NUMBER, Memory
from shown import debug_text, equation, list_pairs, pair_text, some, truth

# The bytes of an answer of `replay`.
ANSWER = 96


class Cache:
    """The pairs, the one used least recently first, and the limit."""

    __slots__ = ("map", "limit")

    def __init__(self, map_=None, limit=0):
        self.map = Linked() if map_ is None else map_
        self.limit = limit

    def insert_or_replace(self, key, value, effects):
        """Returns the old value, and the pair that goes for a new one; or what is refused. A full
        cache refuses none: the pair used least recently makes room, or at the limit 0 the given one
        goes."""
        old = self.map.insert(key, value, effects)
        if not isinstance(old, Refused):
            return old, self.map.pop(last=False) if len(self.map) > self.limit else None
        if len(self.map) < self.limit:
            return old, None
        first = self.map.pop(last=False)
        if first is None:
            return None, old
        self.map.insert(key, value, effects)
        return None, first

    def insert(self, key, value, effects):
        """Returns the old value, `None` or what is refused. Drops the pair that goes."""
        old, gone = self.insert_or_replace(key, value, effects)
        if gone is not None:
            effects.drop_pair(gone)
        return old

    def put(self, key, value, effects):
        """Returns what is refused, and the key and the value that go: of a present key the given
        key and the old value."""
        pair = self.map.find_and_move(key, effects)
        if pair is not None:
            return None, Refused(key, pair.replace(value))
        refused, gone = self.insert_or_replace(key, value, effects)
        return refused, gone


def tail(cache):
    """Shows the limit and the list."""
    return f"| {cache.limit} |" + list_pairs(cache.map)


def new_cache(call):
    """Returns the cache that a line leaves in place of one that it drops."""
    return Cache(call.new_map())


def with_hasher(call, _cache):
    given = call.hasher()
    return Cache(Linked(given), call.number())


def insert(call, cache):
    old = cache.insert(call.key(), call.value(), call.effects)
    if isinstance(old, Refused):
        show_refused(call, old)
    else:
        call.show(some(old))


def put(call, cache):
    refused, gone = cache.put(call.key(), call.value(), call.effects)
    if refused is not None:
        show_refused(call, refused)
    else:
        call.show(some(gone and f"{equation(gone)} #{gone.key.serial} #{gone.value.serial}"))


def extend_by(cache, pairs, effects):
    """Inserts each pair up to one that is refused, which is returned."""
    for key, value in pairs:
        old = cache.insert(key, value, effects)
        if isinstance(old, Refused):
            return old
        if old is not None:
            effects.drop_value(old)
    return None


def extend(call, cache):
    refused = extend_by(cache, call.pairs(), call.effects)
    if refused:
        show_refused(call, refused)


def get(call, cache):
    pair = cache.map.find_and_move(call.key(), call.effects)
    call.show(some(pair and pair.value))


def get_mut(call, cache):
    key, value = call.key(), call.value()
    write_lent(call, cache.map.find_and_move(key, call.effects), value)


def contains_key(call, cache):
    call.show(truth(cache.map.find_and_move(call.key(), call.effects)))


def peek(call, cache):
    pair = cache.map.find(call.key(), call.effects)
    call.show(some(pair and pair.value))


def peek_mut(call, cache):
    key, value = call.key(), call.value()
    write_lent(call, cache.map.find(key, call.effects), value)


def remove(call, cache):
    pair = cache.map.remove(call.key(), call.effects)
    call.show(some(pair and pair.value))


def remove_lru(call, cache):
    pair = cache.map.pop(last=False)
    call.show(some(pair and pair_text(pair)))


def lower(cache, limit, effects):
    """Sets the limit, and drops the pairs above it that were used least recently."""
    while len(cache.map) > limit:
        effects.drop_pair(cache.map.pop(last=False))
    cache.limit = limit


def set_capacity(call, cache):
    lower(cache, call.number(), call.effects)


def clear(call, cache):
    cache.map.clear(call.effects)


def retain(call, cache):
    maps.retain(call, cache.map)


def reserve(call, cache):
    maps.reserve(call, cache.map)


def room(call, cache):
    call.show(cache.map.memory.capacity)


def length(call, cache):
    call.show(len(cache.map))
    call.show(truth(not cache.map.pairs))


def clone(call, _cache):
    copy = call.other.map.clone(call.effects)
    if copy is None:
        call.show("refused")
        return None
    return Cache(copy, call.other.limit)


def into_iter(call, cache):
    iterators.into_iter_of_clone(call, cache.map, pair_text)


def drain(call, cache):
    iterators.drain(call, cache.map)


def drop(call, cache):
    cache.map.drop(call.effects)
    return new_cache(call)


def debug(call, cache):
    """The pair used last comes first."""
    call.show(debug_text(reversed(cache.map.pairs.values())))


def new(call, _cache):
    """Inserts two numbers into a new cache of one pair. Only the first call is counted."""
    call.effects.pair = 2 * NUMBER
    if not Memory().has_room(0, call.effects):
        call.show("refused")
    call.show(f"{{{call.number()}: 1}}")


def fill(call, cache):
    """Puts in numbered pairs by a call. What goes is not counted if it is handed out."""
    def put_one(number):
        key, value = call.numbered(number)
        if name == "put":
            return cache.put(key, value, call.effects)[0]
        return cache.insert(key, value, call.effects)
    count, name = call.number(), call.word()
    if name == "extend":
        fills.fill_at_once(call, count, lambda pairs: extend_by(cache, pairs, call.effects))
    else:
        fills.fill_one_by_one(call, count, put_one)


def on_map(line):
    """Returns the line of a cache that makes a call of its map."""
    return lambda call, cache: line(call, cache.map)


def answer_insert(cache, effects, key, value):
    old = cache.insert(key, value, effects)
    if isinstance(old, Refused):
        return f"Refused({old.key}, {old.value})"
    return "New" if old is None else f"Old({old})"


def answer_get(cache, effects, key):
    effects.drop_key(key)
    return "Found" if cache.map.find_and_move(key, effects) else "Missing"


def answer_remove(cache, effects, key):
    effects.drop_key(key)
    pair = cache.map.remove(key, effects)
    return f"Old({pair.value})" if pair else "Missing"


def answer_remove_lru(cache, _effects):
    pair = cache.map.pop(last=False)
    return f"Pair{pair_text(pair)}" if pair else "Empty"


def answer_set_capacity(cache, effects, limit):
    lower(cache, limit, effects)
    return f"Kept({len(cache.map)})"


def answer_clear(cache, effects):
    cache.map.clear(effects)
    return "Done"


# The commands of `replay`: what is read for each, and what runs it.
COMMANDS = {
    "insert": ("key value", answer_insert), "get": ("key", answer_get),
    "remove": ("key", answer_remove), "removelru": ("", answer_remove_lru),
    "setcapacity": ("number", answer_set_capacity), "clear": ("", answer_clear),
}


def replay(call, cache):
    """The answers are asked for first. If that is refused, no command is run."""
    readers = {"key": call.key, "value": call.value, "number": call.number}
    commands = []
    while name := call.word():
        if name in COMMANDS:
            forms, answer = COMMANDS[name]
            commands.append((answer, [readers[form]() for form in forms.split()]))
    if commands and not call.effects.ask(ANSWER * len(commands)):
        call.show("refused")
        return
    call.show(f"{len(commands)}/{len(commands)}")
    for answer, given in commands:
        call.show(answer(cache, call.effects, *given))


LINES = {
    "with_hasher": with_hasher, "insert": insert, "put": put, "extend": extend, "get": get,
    "get_mut": get_mut, "contains_key": contains_key, "peek": peek, "peek_mut": peek_mut,
    "remove": remove, "remove_lru": remove_lru, "set_capacity": set_capacity, "clear": clear,
    "retain": retain, "reserve": reserve, "room": room, "len": length, "clone": clone,
    "into_iter": into_iter, "drain": drain, "drop": drop, "debug": debug, "new": new, "fill": fill,
    "replay": replay,
    "peek_lru": on_map(maps.front), "peek_mru": on_map(maps.back),
    "remove_entry": on_map(maps.remove_entry),
    **{name: on_map(iterators.LINES[name])
       for name in ("iter", "iter_mut", "loop", "loop_mut")},
}
# Lines that change no pair, and no limit.
READING = {"peek", "peek_lru", "peek_mru", "reserve", "room", "len", "into_iter", "debug", "new",
           "iter", "loop"}
