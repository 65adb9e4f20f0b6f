"""Lines that put in many numbered pairs: the key is the decimal text of the number, its value."""

from linked import Refused, collected
from objects import Value


def fill_one_by_one(call, count, put_one):
    """Puts in the pairs of the numbers below a count, up to one that is refused."""
    for number in range(count):
        if isinstance(put_one(number), Refused):
            call.show(f"refused {number}")
            return
    call.show(count)


def fill_at_once(call, count, take_in, make=None):
    """Hands numbered pairs, each made as it is taken, to a call that returns what is refused."""
    make = make or call.numbered
    taken = [0]

    def numbered():
        for number in range(count):
            taken[0] = number
            yield make(number)
    refused = take_in(numbered())
    call.show(count if refused is None else f"refused {taken[0]}")


def insert(call, map_, number):
    key, value = call.numbered(number)
    return map_.insert(key, value, call.effects)


def or_insert(call, map_, number):
    """A present key drops the value."""
    key, value = call.numbered(number)
    if map_.entry(key, call.effects):
        return call.effects.drop_value(value)
    return map_.push(key, value, call.effects)


def or_insert_with(call, map_, number):
    """The closure is dropped, and with it the value if the key is present."""
    key, value = call.numbered(number)
    call.effects.drop_closure(call.serial())
    if map_.entry(key, call.effects):
        return call.effects.drop_value(value)
    return map_.push(key, value, call.effects)


def vacant(call, map_, number):
    """Nothing is inserted for a present key, and the value is not the call's."""
    key, value = call.numbered(number)
    return None if map_.entry(key, call.effects) else map_.push(key, value, call.effects)


def or_default(call, map_, number):
    key = call.key_of(str(number))
    if map_.entry(key, call.effects):
        return None
    return map_.push(key, Value(0, 0, counted=False), call.effects)


ONE_BY_ONE = {"or_insert": or_insert, "or_insert_with": or_insert_with, "vacant": vacant,
              "or_default": or_default}


def fill(call, map_):
    """Fills a map by a call. Returns a map that takes its place, if one is made."""
    count, name = call.number(), call.word()
    if name == "extend":
        fill_at_once(call, count, lambda pairs: map_.extend(pairs, call.effects))
    elif name == "extend_trait":
        fill_at_once(call, count, lambda pairs: extended_by_trait(map_, pairs, call.effects))
    elif name in ("from_iter", "collect"):
        return fill_new(call, count, count if name == "from_iter" else 0)
    else:
        put_one = ONE_BY_ONE.get(name, insert)
        fill_one_by_one(call, count, lambda number: put_one(call, map_, number))
    return None


def extended_by_trait(map_, pairs, effects):
    """Extends a map, and drops and returns what is refused."""
    refused = map_.extend(pairs, effects)
    if refused is not None:
        effects.drop_key(refused.key)
        effects.drop_value(refused.value)
    return refused


def fill_new(call, count, reserved):
    """Returns a new map of the pairs with room for so many at first, or `None`."""
    fresh = []

    def take_in(pairs):
        fresh.append(collected(pairs, call.effects, reserved))
        return "refused" if fresh[0] is None else None
    fill_at_once(call, count, take_in)
    return fresh[0]
