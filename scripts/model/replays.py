"""`replay`: a run of commands on a map."""

from linked import Refused
from shown import WHOLE, list_text, mix_pairs, pair_text, show_pair

# The bytes of a reply.
REPLY = 120

# The commands by the words of a line: what is made of the words behind each.
FORMS = {
    "insert": "key value", "write": "key value", "refresh": "key", "remove": "key", "popfront": "",
    "popback": "", "clear": "", "drain": "", "orinsert": "key value", "entryinsert": "key value",
    "entryremove": "key", "reserve": "number", "shrink": "", "setmode": "mode", "extend": "pairs",
}


def read(call):
    """Reads the commands of a line, each a name and what it is handed."""
    commands = []
    while name := call.word():
        if name not in FORMS:
            continue
        commands.append((name, [read_one(call, form) for form in FORMS[name].split()]))
    return commands


def read_one(call, form):
    """Reads what a command is handed."""
    if form == "pairs":
        return [(call.key(), call.value()) for _ in range(call.number())]
    if form == "mode":
        return call.word() == "keep"
    return {"key": call.key, "value": call.value, "number": call.number}[form]()


def lists(pairs):
    """Shows pairs as `Debug` shows a `PairList`."""
    return "PairList { pairs: [" + ", ".join(map(pair_text, pairs)) + "] }"


def refused_text(refused):
    return f"Refused({refused.key}, {refused.value})"


def insert(map_, effects, key, value):
    old = map_.insert(key, value, effects)
    if isinstance(old, Refused):
        return refused_text(old)
    return "New" if old is None else f"Old({old})"


def write(map_, effects, key, value):
    pair = map_.find(key, effects)
    if pair is None:
        return f"Absent({key}, {value})"
    effects.drop_key(key)
    return f"Old({pair.replace(value)})"


def refresh(map_, effects, key):
    effects.drop_key(key)
    return "Found" if map_.find_and_move(key, effects) else "Missing"


def remove(map_, effects, key):
    effects.drop_key(key)
    pair = map_.remove(key, effects)
    return f"Old({pair.value})" if pair else "Missing"


def pop(last):
    def run(map_, _effects):
        pair = map_.pop(last)
        return f"Pair{pair_text(pair)}" if pair else "Empty"
    return run


def clear(map_, effects):
    map_.clear(effects)
    return "Done"


def drain(map_, effects):
    """The list is asked for first. Returns the pairs."""
    if map_.pairs and not effects.ask(effects.pair * len(map_)):
        return "NoRoom"
    return map_.take_all()


def extend(map_, effects, pairs):
    """Stops at a pair that is refused, and drops those behind it."""
    for count, (key, value) in enumerate(pairs):
        old = map_.insert(key, value, effects)
        if isinstance(old, Refused):
            drop_behind(pairs[count + 1:], effects)
            return f"Stopped({count}, {old.key}, {old.value})"
        if old is not None:
            effects.drop_value(old)
    return "Done"


def drop_behind(pairs, effects):
    for key, value in pairs:
        effects.drop_key(key)
        effects.drop_value(value)


def or_insert(map_, effects, key, value):
    if map_.entry(key, effects):
        effects.drop_value(value)
        return "Found"
    refused = map_.push(key, value, effects)
    return refused_text(refused) if refused else "New"


def entry_insert(map_, effects, key, value):
    pair = map_.entry(key, effects)
    if pair:
        map_.touch(pair)
        return f"Old({pair.replace(value)})"
    refused = map_.push(key, value, effects)
    return refused_text(refused) if refused else "New"


def entry_remove(map_, effects, key):
    """The key is dropped, also that of a vacant entry."""
    pair = map_.entry(key, effects)
    if pair is None:
        effects.drop_key(key)
        return "Missing"
    map_.take(pair)
    effects.drop_key(pair.key)
    return f"Old({pair.value})"


def reserve(map_, effects, additional):
    return map_.reserve(additional, effects) or "Done"


def shrink(map_, effects):
    return "Done" if map_.is_shrunk(effects) else "NoRoom"


def set_mode(map_, _effects, keeps):
    map_.keeps = keeps
    return "Done"


COMMANDS = {
    "insert": insert, "write": write, "refresh": refresh, "remove": remove, "popfront": pop(False),
    "popback": pop(True), "clear": clear, "drain": drain, "orinsert": or_insert,
    "entryinsert": entry_insert, "entryremove": entry_remove, "reserve": reserve, "shrink": shrink,
    "setmode": set_mode, "extend": extend,
}


def show_reply(call, map_, answer):
    """Shows an answer, and the length and the capacity after it."""
    length, capacity = len(map_), map_.memory.capacity
    call.show(f"Reply {{ answer: {answer}, len: {length}, capacity: {capacity} }}")


def show_drained(call, map_, pairs):
    """Shows a reply with pairs, or their ends and a digest, and the length of their list."""
    if len(pairs) <= WHOLE:
        show_reply(call, map_, f"Pairs({lists(pairs)})")
    else:
        call.show("Pairs" + list_text(pairs, show_pair, mix_pairs))
        call.show(f"{len(map_)}/{map_.memory.capacity}")
    call.show(f"pairs {len(pairs)}/{len(pairs)}")


def replay(call, map_):
    """The replies are asked for first. If that is refused, no command is run."""
    commands = read(call)
    if commands and not call.effects.ask(REPLY * len(commands)):
        call.show("refused")
        return
    call.show(f"{len(commands)}/{len(commands)}")
    for name, given in commands:
        answer = COMMANDS[name](map_, call.effects, *given)
        if isinstance(answer, list):
            show_drained(call, map_, answer)
        else:
            show_reply(call, map_, answer)


LINES = {"replay": replay}
