"""Lines that compare two maps, hash one or show it, and the texts of errors."""

from linked import is_equal
from objects import fold
from shown import debug_text, quoted, truth


def equal(call, map_):
    """Shows what `==` and `!=` make of two maps."""
    for negated in (False, True):
        call.show(truth(is_equal(map_, call.other, call.effects) != negated))


def sign(one, other):
    """Compares two numbers."""
    return (one > other) - (one < other)


def order_of(map_, other, effects, compare_keys):
    """Compares two maps pair by pair, a key before its value. Where one ends first, it is less."""
    for pair, against in zip(map_.pairs.values(), other.pairs.values()):
        effects.add("cmp-keys")
        order = compare_keys(pair.key, against.key)
        if order != 0:
            return order
        if pair.value.counted:
            effects.add("cmp-values")
        order = sign(pair.value.number, against.value.number)
        if order != 0:
            return order
    return sign(len(map_), len(other))


def show_order(call, order):
    """Shows an order, and what `<`, `<=`, `>` and `>=` make of it."""
    names = {-1: "Some(Less)", 0: "Some(Equal)", 1: "Some(Greater)", None: "None"}
    call.show(names[order])
    for allowed in ((-1,), (-1, 0), (1,), (0, 1)):
        call.show(truth(order in allowed))


def compare(call, map_):
    """Compares by the texts of the keys: by `cmp`, and as `partial_compare` does."""
    for _ in range(6):
        order = order_of(map_, call.other, call.effects,
                         lambda key, other: sign(key.number, other.number))
    call.show({-1: "Less", 0: "Equal", 1: "Greater"}[order])
    show_order(call, order)


def partial_compare(call, map_):
    """Compares by keys that have no order if they differ: by `partial_cmp` and by each operator."""
    for _ in range(5):
        order = order_of(map_, call.other, call.effects,
                         lambda key, other: 0 if key.folded == other.folded else None)
    show_order(call, order)


def hash_all(call, map_):
    """Hashes each key and each value by one hasher that spreads."""
    number = 0
    for pair in map_.pairs.values():
        number = fold(number, pair.key.folded)
        number = fold(number, pair.value.number.to_bytes(8, "little"))
        call.effects.add("hash-keys")
        if pair.value.counted:
            call.effects.add("hash-values")
    call.show(number)


def debug(call, map_):
    call.show(debug_text(map_.pairs.values()))


def debug_pretty(call, map_):
    lines = "".join(f"    {pair.key}: {pair.value},\n" for pair in map_.pairs.values())
    call.show(quoted("{\n" + lines + "}" if lines else "{}"))


def show_errors(call, text):
    """Shows the text of an error and what it is turned into."""
    for word in (text, "OutOfMemory", "AllocError"):
        call.show(word)


def show_other_errors(call):
    """Shows those of the errors that have no pair."""
    show_errors(call, "no memory for the call")
    show_errors(call, "the capacity would be above the limit")
    show_errors(call, "no memory for the capacity")


def refused_texts(call, _map):
    """Turns two errors of the line's pair made again into others, which drops the pairs."""
    call.key(), call.value()
    for _ in range(2):
        call.effects.drop("drop-keys", call.serial())
        call.effects.drop("drop-values", call.serial())
    show_errors(call, "no memory for another pair")
    show_other_errors(call)


LINES = {
    "eq": equal, "cmp": compare, "partial_cmp": partial_compare, "hash": hash_all, "debug": debug,
    "debug_pretty": debug_pretty, "refused_texts": refused_texts,
}
