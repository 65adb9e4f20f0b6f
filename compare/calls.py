"""Runs of calls, drawn at random: the calls that the originals have, which compare/run draws, and
our own ones, which only scripts/model-tests draws too."""

import collections

HASHERS = ("spread", "same", "letter", "wide")
# One that the originals do not have: the first letter in the upper bits of the hash.
OWN_HASHERS = ("high",)

# The edits of an entry that the original has.
EDITS = "witrmko"

# The calls whose last word is for how many there is to be room, and up to where that is given.
ROOM_CALLS = ("with_capacity", "reserve", "set_with_capacity", "set_reserve")
MOST_ROOM = 1_000_000

# The calls that leave most of a map, each with how often it comes and the forms of its words.
MAP_CALLS = (
    ("insert", 30, "key value"),
    ("remove", 8, "key"),
    ("get", 3, "key"),
    ("contains_key", 2, "key"),
    ("index", 2, "key"),
    ("index_mut", 2, "key value"),
    ("get_mut", 3, "key value"),
    ("get_refresh", 6, "key value"),
    ("front", 1, ""),
    ("back", 1, ""),
    ("len", 1, ""),
    ("hasher", 1, ""),
    ("pop_front", 3, ""),
    ("pop_back", 3, ""),
    ("reserve", 1, "room"),
    ("shrink_to_fit", 1, ""),
    ("extend", 2, "pairs"),
    ("extend_trait", 1, "pairs"),
    ("swap", 1, ""),
    ("entry", 8, "key edit value"),
    ("entry_key", 1, "key"),
    ("or_insert", 4, "key value"),
    ("or_insert_with", 4, "key value"),
    ("or_default", 3, "key"),
    ("and_modify", 4, "key value"),
    ("entries", 6, "edits value forget"),
    ("iter", 3, "steps steps"),
    ("keys", 2, "steps steps"),
    ("values", 2, "steps steps"),
    ("iter_mut", 3, "steps value"),
    ("eq", 1, ""),
    ("cmp", 1, ""),
    ("partial_cmp", 1, ""),
    ("hash", 1, ""),
    ("new", 1, "value"),
)

# Those that print every pair.
LONG_MAP_CALLS = (
    ("loop", 1, ""),
    ("loop_mut", 1, "value"),
    ("debug", 1, ""),
    ("debug_pretty", 1, ""),
)

# Those after which little is left of a map, or all of it is another.
RARE_MAP_CALLS = (
    ("clear", 2, ""),
    ("drop", 2, ""),
    ("drain", 4, "steps forget"),
    ("into_iter", 3, "steps steps"),
    ("into_iter_forget", 1, "steps"),
    ("default", 1, ""),
    ("with_hasher", 2, "hasher"),
    ("with_capacity", 2, "hasher room"),
    ("from_iter", 2, "pairs"),
    ("collect", 1, "pairs"),
    ("extend_refs", 2, ""),
    ("extend_copied_refs", 1, ""),
    ("extend_trait_refs", 1, ""),
    ("extend_drain", 1, ""),
    ("clone", 3, ""),
)

# Those that the original does not have.
OWN_MAP_CALLS = (
    ("retain", 3, "value"),
    ("get_key_value", 2, "key"),
    ("iter_from", 2, "key steps steps"),
    ("iter_back_from", 2, "key steps steps"),
    ("remove_entry", 3, "key"),
    ("replace_key", 4, "key"),
    ("insert_within_capacity", 6, "key value"),
    ("insert_front", 6, "key value"),
    ("replace", 6, "key value"),
    ("front_entry", 3, "own_edit value"),
    ("back_entry", 3, "own_edit value"),
    ("front_mut", 1, "value"),
    ("back_mut", 1, "value"),
    ("values_mut", 2, "steps value"),
    ("move_to_back", 4, "key"),
    ("move_to_front", 4, "key"),
    ("move_before", 4, "key key"),
    ("move_after", 4, "key key"),
    ("rotate_left", 2, "count"),
    ("sort_by", 3, "order"),
    ("sort_by_key", 2, ""),
    ("sort_by_cached_key", 2, ""),
    ("reverse", 2, ""),
    ("capacity", 2, ""),
    ("rechained", 1, ""),
    ("mode", 1, ""),
    ("set_mode", 2, "mode"),
    ("get_counted", 3, "key"),
    ("visit", 2, ""),
    ("unvisited", 1, ""),
    ("next_entry", 6, "own_edit value"),
    ("entry", 6, "key own_edit value"),
    ("entries", 3, "own_edits value forget"),
    ("or_insert_with_key", 3, "key value"),
    ("or_insert_with_box", 3, "key value"),
    ("entry_replace_key", 4, "key key"),
    ("fill", 3, "numbers map_fill"),
    ("replay", 4, "commands"),
    ("pair_lists", 1, "pairs"),
    ("new_with_capacity", 1, "room value"),
    ("from_iter_too_large", 1, ""),
    ("refused_texts", 1, "key value"),
)
RARE_OWN_MAP_CALLS = (
    ("sort_keys", 1, ""),
    ("truncate", 2, "count"),
    ("into_keys", 2, "steps forget"),
    ("into_values", 2, "steps forget"),
    ("from_iter_unhinted", 2, "pairs"),
    ("append", 2, ""),
    ("emptied", 2, ""),
    ("made_with", 1, ""),
)

# Those of a cache.
CACHE_CALLS = (
    ("insert", 30, "key value"),
    ("get_mut", 8, "key value"),
    ("get", 4, "key"),
    ("contains_key", 3, "key"),
    ("peek", 3, "key"),
    ("peek_mut", 3, "key value"),
    ("remove", 4, "key"),
    ("remove_lru", 3, ""),
    ("set_capacity", 2, "limit"),
    ("len", 1, ""),
    ("extend", 3, "pairs"),
    ("iter", 2, "steps steps"),
    ("iter_mut", 2, "steps value"),
    ("into_iter", 1, "steps forget"),
    ("new", 1, "value"),
)
LONG_CACHE_CALLS = (
    ("loop", 1, ""),
    ("loop_mut", 1, "value"),
    ("debug", 1, ""),
)
RARE_CACHE_CALLS = (
    ("with_hasher", 2, "hasher limit"),
    ("clear", 2, ""),
    ("drop", 2, ""),
    ("drain", 2, "steps forget"),
    ("clone", 2, ""),
)
OWN_CACHE_CALLS = (
    ("put", 12, "key value"),
    ("peek_lru", 1, ""),
    ("peek_mru", 1, ""),
    ("remove_entry", 3, "key"),
    ("retain", 2, "value"),
    ("reserve", 1, "room"),
    ("room", 1, ""),
    ("fill", 2, "numbers cache_fill"),
    ("replay", 3, "cache_commands"),
)
RARE_OWN_CACHE_CALLS = ()

# Those of a set.
SET_CALLS = (
    ("insert", 20, "key"),
    ("replace", 6, "key"),
    ("get_or_insert", 6, "key"),
    ("get_or_insert_with", 6, "key"),
    ("contains", 4, "key"),
    ("get", 4, "key"),
    ("take", 5, "key"),
    ("remove", 5, "key"),
    ("to_front", 4, "key"),
    ("to_back", 4, "key"),
    ("front", 1, ""),
    ("back", 1, ""),
    ("pop_front", 2, ""),
    ("pop_back", 2, ""),
    ("len", 1, ""),
    ("reserve", 1, "room"),
    ("shrink_to_fit", 1, ""),
    ("hasher", 1, ""),
    ("extend", 3, "items"),
    ("iter", 3, "steps steps"),
    ("into_iter", 1, "steps forget"),
    ("is_subset", 2, ""),
    ("is_superset", 2, ""),
    ("is_disjoint", 2, ""),
    ("eq", 2, ""),
    ("hash", 1, ""),
    ("new", 1, "value"),
)
LONG_SET_CALLS = (
    ("difference", 2, "operation"),
    ("symmetric_difference", 2, "operation"),
    ("intersection", 2, "operation"),
    ("union", 2, "operation"),
    ("loop", 1, ""),
    ("debug", 1, ""),
)
RARE_SET_CALLS = (
    ("with_hasher", 2, "hasher"),
    ("with_capacity", 2, "hasher room"),
    ("from_iter", 2, "items"),
    ("collect", 1, "items"),
    ("extend_refs", 2, ""),
    ("clone", 2, ""),
    ("retain", 2, "value"),
    ("drain", 2, "steps forget"),
    ("clear", 2, ""),
    ("drop", 2, ""),
)
OWN_SET_CALLS = (
    ("insert_if_absent", 6, "key"),
    ("insert_front", 4, "key"),
    ("move_before", 3, "key key"),
    ("move_after", 3, "key key"),
    ("iter_from", 2, "key steps steps"),
    ("iter_back_from", 2, "key steps steps"),
    ("sort_by", 3, "order"),
    ("sort_by_cached_key", 2, ""),
    ("reverse", 2, ""),
    ("refresh", 4, "key"),
    ("capacity", 1, ""),
    ("fill", 2, "numbers set_fill"),
    ("new_with_capacity", 1, "room value"),
    ("refused_texts", 1, "key"),
)
RARE_OWN_SET_CALLS = (
    ("truncate", 2, "count"),
    ("sort", 1, ""),
    ("append", 2, ""),
    ("emptied", 1, ""),
    ("made_with", 1, ""),
)

# Those of a table of sessions, which no original has.
SESSION_CALLS = (
    ("put", 20, "id weight value"),
    ("put_with", 8, "id weight value"),
    ("touch", 6, "id"),
    ("touch_mut", 4, "id value"),
    ("remove", 5, "id"),
    ("retain", 1, "value"),
    ("reserve", 1, "room"),
    ("capacity", 1, ""),
    ("total", 1, ""),
    ("limit", 1, ""),
    ("len", 1, ""),
    ("iter", 2, "steps"),
    ("fill", 1, "numbers weight"),
)
RARE_SESSION_CALLS = (
    ("new", 2, "weights"),
    ("with_capacity", 2, "weights room"),
    ("drop", 1, ""),
)

# A kind: what its calls begin with, the call that makes a new one and the forms of its words, the
# form of what it takes in, and its calls: those that leave most of it, those that print all of it,
# and those after which little is left of it, or all of it is another. The last two are our own
# calls: those that leave most of it, and the others.
Kind = collections.namedtuple(
    "Kind", "prefix first first_forms many calls long_calls rare_calls own_calls rare_own_calls")
MAPS = Kind("", "with_hasher", "hasher", "pairs", MAP_CALLS, LONG_MAP_CALLS, RARE_MAP_CALLS,
            OWN_MAP_CALLS, RARE_OWN_MAP_CALLS)
CACHES = Kind("cache_", "with_hasher", "hasher limit", "pairs", CACHE_CALLS, LONG_CACHE_CALLS,
              RARE_CACHE_CALLS, OWN_CACHE_CALLS, RARE_OWN_CACHE_CALLS)
SETS = Kind("set_", "with_hasher", "hasher", "items", SET_CALLS, LONG_SET_CALLS, RARE_SET_CALLS,
            OWN_SET_CALLS, RARE_OWN_SET_CALLS)
SESSIONS = Kind("sessions_", "new", "weights", "", (), (), (), SESSION_CALLS, RARE_SESSION_CALLS)
KINDS = (MAPS, CACHES, SETS)

# The calls that the originals have.
NAMES = [kind.prefix + name for kind in KINDS
         for name, _, _ in kind.calls + kind.long_calls + kind.rare_calls]

# The most pairs or items that a run begins with.
MOST_AT_FIRST = 1000


def key_of(number):
    """Returns the key of a number."""
    return "abcdefghijklmnopqrstuvwxyz"[number % 26] + str(number)


def is_of_originals(line):
    """Tells whether the originals have the call of a line, with each edit that it makes, and give
    the room that it asks for."""
    words = line.split()
    edits = {"entry": words[3:4], "entries": words[2:3]}.get(words[0], [])
    is_given = words[0] not in ROOM_CALLS or words[-1].isdigit() and int(words[-1]) <= MOST_ROOM
    return words[0] in NAMES and set("".join(edits)) <= set(EDITS) and is_given


class Drawing:
    """Draws runs on one kind over some number of keys."""

    def __init__(self, kind, rng, keys, rare=None):
        self.kind = kind
        self.rng = rng
        self.keys = keys
        self.calls = kind.calls if keys > 100 else kind.calls + kind.long_calls
        self.rare_calls = kind.rare_calls
        self.rare = min(0.06, 3 / keys) if rare is None else rare

    def key(self):
        key = key_of(self.rng.randrange(self.keys))
        return key.upper() if self.rng.random() < 0.25 else key

    def word(self, form):
        rng = self.rng
        if form == "key":
            return self.key()
        if form in ("value", "room"):
            return str(rng.randrange(100))
        if form == "limit":
            return str(rng.randrange(min(self.keys + 2, MOST_AT_FIRST)))
        if form == "hasher":
            return rng.choice(HASHERS)
        if form == "edit":
            return rng.choice(EDITS)
        if form == "edits":
            return "".join(rng.choice(EDITS + "k") for _ in range(rng.randrange(1, 7)))
        if form == "steps":
            return "".join(rng.choice("fffbb") for _ in range(rng.randrange(1, 7)))
        if form == "operation":
            return rng.choice(("", self.word("steps") + " " + self.word("steps")))
        if form == "forget":
            return rng.choice(("drop", "forget"))
        return self.many(form, rng.randrange(6))

    def many(self, form, count):
        """Draws so many pairs or items."""
        words = (f"{self.key()} {self.rng.randrange(100)}" if form == "pairs" else self.key()
                 for _ in range(count))
        return " ".join(words)

    def line(self, name, which, forms):
        words = [self.kind.prefix + name, which] + [self.word(form) for form in forms.split()]
        return " ".join(words).rstrip()

    def call(self):
        calls = self.rare_calls if self.rng.random() < self.rare else self.calls
        weights = [weight for _, weight, _ in calls]
        (name, _, forms), = self.rng.choices(calls, weights)
        return self.line(name, self.rng.choice("aab"), forms)

    def run(self, calls):
        """Draws a run of so many calls, on two that are new at its start."""
        first = [self.line(self.kind.first, which, self.kind.first_forms) for which in "ab"]
        if self.keys > 3 and self.kind.many:
            count = min(self.keys, MOST_AT_FIRST)
            first.append(f"{self.kind.prefix}extend a " + self.many(self.kind.many, count))
        return first + [self.call() for _ in range(calls - len(first))]
