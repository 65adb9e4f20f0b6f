"""How items and lists are shown."""

import itertools
import operator

from objects import MASK

# The longest list that is shown whole.
WHOLE = 100


def some(item):
    """Shows an item that may be `None`."""
    return "None" if item is None else f"Some({item})"


def pair_text(pair):
    """Shows a pair as a tuple."""
    return f"({pair.key}, {pair.value})"


def equation(pair):
    """Shows a pair as a line does."""
    return f"{pair.key}={pair.value}"


def truth(is_so):
    """Shows a truth value."""
    return "true" if is_so else "false"


def quoted(text):
    """Shows a text as `Debug` does."""
    return '"' + text.replace("\\", "\\\\").replace('"', '\\"').replace("\n", "\\n") + '"'


def debug_text(pairs):
    """Shows pairs as `Debug` shows a map."""
    return "{" + ", ".join(f"{pair.key}: {pair.value}" for pair in pairs) + "}"


def items_text(pairs):
    """Shows the keys of pairs as `Debug` shows a set."""
    return "{" + ", ".join(str(pair.key) for pair in pairs) + "}"


def show_error(call, error):
    """Shows the error of a call that reserves memory, if there is one."""
    if error:
        call.show("refused")
        call.show(error)


def digest(mixes):
    """Returns the sum of the mixes, each times its position from 1 on."""
    return sum(map(operator.mul, itertools.count(1), mixes)) & MASK


def list_text(items, show, mix_all):
    """Shows a list: whole, or its ends and a digest. `items` is a view in order."""
    length = len(items)
    if length <= WHOLE:
        return f" {length}" + "".join(map(show, items))
    first, last = next(iter(items)), next(reversed(items))
    return f" {length}{show(first)}{show(last)} {digest(mix_all(items))}"


def show_pair(pair):
    """Shows a pair of a list."""
    return f" {pair.key.shown}:{pair.value.number}"


def mix_pairs(pairs):
    """Mixes pairs for a digest."""
    return [pair.key.number ^ pair.value.mix for pair in pairs]


def show_item(pair):
    """Shows an item of a set."""
    return " " + pair.key.shown


def mix_items(pairs):
    """Mixes the items of a set for a digest."""
    return [pair.key.number for pair in pairs]


def list_pairs(map_):
    """Shows the pairs of a map."""
    return list_text(map_.pairs.values(), show_pair, mix_pairs)


def list_items(map_):
    """Shows the items of the map of a set."""
    return list_text(map_.pairs.values(), show_item, mix_items)
