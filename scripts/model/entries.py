"""Lines of a map that go by an entry."""

from memory import NUMBER
from objects import Value
from shown import equation, pair_text


def show_refused(call, refused):
    """Shows what a refused insertion hands back."""
    key, value = refused.key, refused.value
    call.show(f"refused {key}={value} #{key.serial} #{value.serial}")


def insert(call, map_, pair, value):
    """Replaces the value of an entry, which may move, and shows the old one."""
    map_.touch(pair)
    call.show(pair.replace(value))


def edit_occupied(call, map_, pair, edit, values, word=""):
    """Shows the entry of a pair, and makes an edit by it."""
    call.show(equation(pair))
    if edit in ("w", "m"):
        pair.replace(values.take())
    elif edit == "i":
        insert(call, map_, pair, values.take())
    elif edit == "t":
        value = values.take()
        zero = values.zero()
        insert(call, map_, pair, value)
        insert(call, map_, pair, zero)
    elif edit == "r":
        map_.take(pair)
        call.effects.drop_key(pair.key)
        call.show(pair.value)
    elif edit == "e":
        map_.take(pair)
        call.show(pair_text(pair))
    elif edit == "b":
        map_.pairs.move_to_end(pair.key.folded)
    elif edit == "f":
        map_.pairs.move_to_end(pair.key.folded, last=False)
    elif edit == "p":
        replace_key(call, pair, word)


def replace_key(call, pair, word):
    """Stores the key of a word in place of that of an entry, if they are the same."""
    replace_by(call, pair, call.key_of(word))


def replace_by(call, pair, key):
    """Does so with a key. Compares the two."""
    call.effects.compare_keys(1, 1)
    if key.folded == pair.key.folded:
        old = pair.replace_key(key)
        call.show(f"Ok({old} #{old.serial})")
    else:
        call.show(f"Err({key} #{key.serial})")


def edit_vacant(call, map_, key, edit, values):
    """Shows the entry of an absent key, and makes an edit by it."""
    call.show("vacant")
    call.show(key)
    if edit in ("i", "m"):
        insert_vacant(call, map_, key, edit, values)
    elif edit != "o":
        call.effects.drop_key(key)


def insert_vacant(call, map_, key, edit, values):
    """Inserts a value, or 0 which is then written over."""
    value = values.take() if edit == "i" else values.zero()
    refused = map_.push(key, value, call.effects)
    if refused:
        show_refused(call, refused)
    elif edit == "i":
        call.show(value)
    else:
        map_.pairs[key.folded].replace(values.take())


def entry(call, map_):
    """Makes an edit by the entry of a key."""
    word = call.word()
    key = call.key_of(word)
    edit = call.word()[:1]
    values = call.values()
    pair = map_.entry(key, call.effects)
    if pair is None:
        edit_vacant(call, map_, key, edit, values)
    else:
        edit_occupied(call, map_, pair, edit, values, word)


def entry_key(call, map_):
    """Shows the key of an entry, which is then dropped."""
    key = call.key()
    pair = map_.entry(key, call.effects)
    call.show(pair.key if pair else key)
    if pair is None:
        call.effects.drop_key(key)


def entry_replace_key(call, map_):
    """Replaces the key of a present entry by another."""
    key, other = call.key(), call.key()
    pair = map_.entry(key, call.effects)
    if pair is None:
        call.effects.drop_key(key)
        call.show("absent")
    else:
        replace_by(call, pair, other)


def edit_next(call, map_, edit, values):
    """Makes an edit by the next entry of a visit."""
    edit_if_some(call, map_, map_.next_to_visit(), edit, values)


def edit_if_some(call, map_, pair, edit, values):
    """Makes an edit by the entry of a pair, if there is one."""
    if pair is None:
        call.show("end")
    else:
        edit_occupied(call, map_, pair, edit, values)


def entries(call, map_):
    """Visits a pair for each letter. What is left then is still to be visited."""
    edits = call.word()
    values = call.values()
    map_.visit()
    for edit in edits:
        call.show(len(map_.to_visit))
        edit_next(call, map_, edit, values)


def visit(call, map_):
    map_.visit()


def next_entry(call, map_):
    """Makes an edit by the next entry of the map's visit."""
    edit = call.word()[:1]
    edit_next(call, map_, edit, call.values())


def edit_end(call, map_, last):
    """Makes an edit by the entry of the pair at an end, which ends a visit."""
    edit = call.word()[:1]
    values = call.values()
    pair = map_.end(last)
    if pair is not None:
        map_.end_visit()
    edit_if_some(call, map_, pair, edit, values)


def front_entry(call, map_):
    edit_end(call, map_, last=False)


def back_entry(call, map_):
    edit_end(call, map_, last=True)


def unvisited(call, map_):
    call.show(len(map_.to_visit))


def show_lent(call, map_, key, refused):
    """Shows a value that is lent and adds one to it, or shows what was refused."""
    if refused:
        show_refused(call, refused)
        return
    value = map_.pairs[key.folded].value
    call.show(value)
    value.write(value.number + 1)


def insert_if_vacant(call, map_, key, value):
    """Inserts a value if the key is absent, and else drops it."""
    refused = None
    if map_.entry(key, call.effects):
        call.effects.drop_value(value)
    else:
        refused = map_.push(key, value, call.effects)
    show_lent(call, map_, key, refused)


def or_insert(call, map_):
    insert_if_vacant(call, map_, call.key(), call.value())


def or_insert_with(call, map_):
    """The closure owns the value, and is dropped with it if the key is present."""
    key, value = call.key(), call.value()
    call.effects.drop_closure(call.serial())
    insert_if_vacant(call, map_, key, value)


def or_insert_with_box(call, map_):
    """The closure asks for memory before the growth does, and ignores a refusal."""
    key, value = call.key(), call.value()
    call.effects.drop_closure(call.serial())
    if key.folded not in map_.pairs:
        call.effects.ask(NUMBER)
    insert_if_vacant(call, map_, key, value)


def or_default(call, map_):
    """The default is made if the key is absent, and never counted."""
    insert_if_vacant(call, map_, call.key(), Value(0, 0, counted=False))


def and_modify(call, map_):
    """The closure owns the value, and puts it in the place of the old one. Without a key, both the
    closure and the value are dropped, and 0 is inserted."""
    key, value = call.key(), call.value()
    guard, zero = call.serial(), Value(0, call.serial())
    call.effects.drop_closure(guard)
    pair = map_.entry(key, call.effects)
    refused = None
    if pair:
        call.effects.drop_value(pair.replace(value))
        call.effects.drop_value(zero)
    else:
        call.effects.drop_value(value)
        refused = map_.push(key, zero, call.effects)
    show_lent(call, map_, key, refused)


LINES = {
    "entry": entry, "entry_key": entry_key, "entries": entries, "visit": visit,
    "next_entry": next_entry, "unvisited": unvisited, "or_insert": or_insert,
    "front_entry": front_entry, "back_entry": back_entry,
    "or_insert_with": or_insert_with, "or_insert_with_key": or_insert_with,
    "or_insert_with_box": or_insert_with_box, "entry_replace_key": entry_replace_key,
    "or_default": or_default, "and_modify": and_modify,
}
