"""Lines that make a map, or take in pairs, those of new maps of numbers, and those on copies of a
map's pairs, which leave the map as it is."""

import entries
import fills
from effects import Effects
from linked import Linked, Pair, collected, is_equal
from memory import NUMBER, Memory, error_of, made
from objects import default_hasher
from shown import debug_text, pair_text, show_error, truth

# The bytes of a key and a value of the driver that are copied.
COPIED = 32


def with_hasher(call, _map):
    return Linked(call.hasher())


def with_capacity(call, _map):
    """A refusal drops the hasher."""
    given, wanted = call.hasher(), call.number()
    memory = made(wanted, call.effects)
    if memory is None:
        call.effects.drop_hasher(given)
        show_error(call, error_of(wanted))
        return None
    return Linked(given, memory)


def default(_call, _map):
    return Linked(default_hasher())


def from_iter(call, _map):
    """The iterator knows how many pairs there are, of which the last may lack its value."""
    count = (call.words_left() + 1) // 2
    return shown_if_refused(call, collected(call.pairs(), call.effects, count))


def from_iter_unhinted(call, _map):
    return shown_if_refused(call, collected(call.pairs(), call.effects))


def shown_if_refused(call, fresh):
    """Returns a map that was made, or shows that it was refused."""
    if fresh is None:
        show_error(call, "NoRoom")
    return fresh


def from_iter_too_large(call, _map):
    """The iterator is dropped before an item is taken, and so is its closure."""
    call.effects.drop_closure(call.serial())
    show_error(call, "TooLarge")


def collect(call, _map):
    """The error of the trait says no reason."""
    return shown_if_none(call, collected(call.pairs(), call.effects))


def shown_if_none(call, fresh):
    """Returns what was made, or shows that it was refused."""
    if fresh is None:
        call.show("refused")
    return fresh


def extend(call, map_):
    refused = map_.extend(call.pairs(), call.effects)
    if refused:
        entries.show_refused(call, refused)


def extend_trait(call, map_):
    """The error of the trait hands nothing back, so what is refused is dropped."""
    if fills.extended_by_trait(map_, call.pairs(), call.effects):
        call.show("refused")


def clone(call, _map):
    return shown_if_none(call, call.other.clone(call.effects))


def emptied(call, _map):
    given = call.effects.clone_hasher(call.other.hasher)
    return shown_if_none(call, given and Linked(given))


def extend_refs(call, map_):
    """Extends a map by copies of the pairs of another, which are not counted as clones."""
    pairs = ((pair.key.clone(), pair.value.clone()) for pair in call.other.pairs.values())
    refused = map_.extend(pairs, call.effects)
    if refused:
        entries.show_refused(call, refused)


def extend_drain(call, map_):
    """Extends a map by what another is drained of. What is not taken is dropped."""
    taken = iter(call.other.take_all())
    refused = map_.extend(((pair.key, pair.value) for pair in taken), call.effects)
    for pair in taken:
        call.effects.drop_pair(pair)
    if refused:
        entries.show_refused(call, refused)


def append(call, map_):
    """Moves all pairs of the other map into this one, or none if it is refused."""
    show_error(call, map_.append(call.other, call.effects))


def swap(call, map_):
    other = call.other
    for name in Linked.__slots__:
        mine, its = getattr(map_, name), getattr(other, name)
        setattr(map_, name, its)
        setattr(other, name, mine)


# Lines that make a map, or take in the pairs of another, show its hasher.
MAKING = {
    "with_hasher": with_hasher, "with_capacity": with_capacity, "default": default,
    "from_iter": from_iter, "extend": extend, "extend_refs": extend_refs,
    "extend_drain": extend_drain, "clone": clone, "swap": swap, "extend_trait": extend_trait,
    "from_iter_unhinted": from_iter_unhinted, "from_iter_too_large": from_iter_too_large,
    "collect": collect, "append": append, "emptied": emptied, "made_with": default,
}


def making(make):
    """Returns a line that shows the hasher at its end."""
    def line(call, map_):
        fresh = make(call, map_)
        call.show(map_.hasher if fresh is None else fresh.hasher)
        return fresh
    return line


def new(call, _map):
    """Inserts a number with itself into a new map of numbers."""
    number, call.effects.pair = call.number(), 2 * NUMBER
    if Memory().has_room(0, call.effects):
        call.show(f"{{{number}: {number}}}")
    else:
        call.show("refused")
        call.show("{}")


def new_with_capacity(call, _map):
    """Does so with a map of a capacity."""
    wanted, number = call.number(), call.number()
    call.effects.pair = 2 * NUMBER
    memory = made(wanted, call.effects)
    if memory is None:
        show_error(call, error_of(wanted))
    elif memory.has_room(0, call.effects):
        call.show(f"{{{number}: {number}}}")
        call.show(memory.capacity)
    else:
        call.show("refused")
        call.show("{}")
        call.show(memory.capacity)


def copied(map_):
    """Returns a map of copies, put in one by one, with a copy of the hasher."""
    copy = Linked(map_.hasher.clone())
    for pair in map_.pairs.values():
        copy.insert(pair.key.clone(), pair.value.clone(), Effects())
    return copy


def extend_by_refs(call, map_):
    """Extends a copy by references to the pairs of a copy of the other map. What is `Copy` is not
    dropped."""
    copy, call.effects.pair = copied(map_), COPIED
    for pair in call.other.pairs.values():
        found = copy.find(pair.key, call.effects)
        if found is not None:
            copy.touch(found)
            found.replace(pair.value)
        elif copy.push(pair.key, pair.value, call.effects):
            call.show("refused")
            break
    call.show(debug_text(copy.pairs.values()))


def pair_lists(call, map_):
    """Compares a list of the line's pairs with one of copies of the map's, twice, and drops it."""
    pairs = [Pair(key, value) for key, value in call.pairs()]
    call.show(len(pairs))
    call.show(truth(not pairs))
    call.show("[" + ", ".join(map(pair_text, pairs)) + "]")
    mine = Linked()
    mine.pairs = dict(enumerate(pairs))
    for negated in (False, True):
        call.show(truth(is_equal(mine, map_, call.effects) != negated))
    for pair in pairs:
        call.effects.drop_pair(pair)


LINES = {
    "new": new, "new_with_capacity": new_with_capacity, "pair_lists": pair_lists,
    "extend_copied_refs": extend_by_refs, "extend_trait_refs": extend_by_refs,
    **{name: making(make) for name, make in MAKING.items()},
}
