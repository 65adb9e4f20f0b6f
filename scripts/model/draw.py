"""Random runs for scripts/model-tests: of maps, caches, sets and tables of sessions, of few keys
and of many, with and without refused memory.

The calls, how often each comes and the forms of its words are in compare/calls.py."""

import collections
import pathlib
import random
import sys

sys.path.insert(0, str(pathlib.Path(__file__).resolve().parent.parent.parent / "compare"))

import calls
from program import NO_REFUSALS, Refusals, refusals_at

# Letters of an entry's edits that the originals do not have, beside theirs.
EDITS = "witrmk" + "bfepo"
# What a sort goes by: an order and its reverse, and comparisons that are no orders.
ORDERS = ("up", "up", "down", "less", "turn")
# The kinds of runs, in turn.
KINDS = (calls.MAPS, calls.CACHES, calls.MAPS, calls.SETS, calls.MAPS, calls.SESSIONS)
# How many keys the runs of a batch have, in turn.
KEY_COUNTS = (1, 3, 8, 20, 40)
# Every so many batches there is one of runs of many keys.
MANY_EVERY, MANY = 15, 5000
# The numbers of the batches with a run of as many pairs, and the calls on it.
HUGE = {3: 100_000, 7: 30_000}
HUGE_CALLS = 120
# What is refused of one of them: a late request of the line that takes in pairs, behind a heading
# and the line that makes the map.
REFUSED_OF_HUGE = {7: refusals_at([(3, 200)])}
# Of how many pairs a line is that takes some in.
PAIRS_OF_LINE = 20_000
# The least chance of a call after which little or all else is left.
LEAST_RARE = 0.02
# The hashers under which all keys are in one bucket, and the most keys that they are drawn for.
OF_ONE_BUCKET, MOST_OF_ONE_BUCKET = ("same", "high"), 200
# How long a run is, and how many there are of few keys and of many in a batch.
LENGTH = 100
RUNS_OF_FEW, RUNS_OF_MANY = 20, 10
# How many calls a run of many keys makes at its end after which little is left, or which print all,
# and how many numbered pairs are put in before each.
RARE_OF_MANY, FILL_OF_MANY = 8, 1000

# What is refused, in the batches in turn: each request with a chance, and those behind it too.
CHANCES = ((0, False), (1 / 8, False), (1 / 50, True), (1 / 2, False),
           (0, False), (1 / 50, False), (1 / 8, True), (1 / 2, True))
# A run of many keys is refused no more, since its map would stay small.
CHANCES_OF_MANY = ((0, False), (1 / 50, False))
# Capacities that are drawn beside small ones.
ROOMS = (0, 500, 999, 2**59, 2**59 + 1, 2**64 - 1)
# How many numbered keys a fill has, beside small numbers, and with what chance.
FILLS, CHANCE_OF_FILLS = (100, 101, 300, 1000), 0.05
# The chance that a key is a numbered one, as fills put in.
CHANCE_OF_NUMBERED = 0.1
# The line that refuses a clone, which is of no kind, its chance, and the bound of its number.
REFUSE_CLONE, CHANCE_OF_CLONES, MOST_CLONES = "refuse_clone", 0.01, 12

# A batch, which is run in one process: its runs, and what is refused.
Batch = collections.namedtuple("Batch", "runs refusals")

MAP_COMMANDS = (
    ("insert", 8, "key value"), ("write", 3, "key value"), ("refresh", 3, "key"),
    ("remove", 3, "key"), ("popfront", 2, ""), ("popback", 2, ""), ("clear", 1, ""),
    ("drain", 1, ""), ("extend", 2, "counted_pairs"), ("orinsert", 3, "key value"),
    ("entryinsert", 3, "key value"), ("entryremove", 2, "key"), ("reserve", 2, "room"),
    ("shrink", 2, ""), ("setmode", 1, "mode"),
)
CACHE_COMMANDS = (
    ("insert", 8, "key value"), ("get", 4, "key"), ("remove", 3, "key"), ("removelru", 2, ""),
    ("setcapacity", 1, "limit"), ("clear", 1, ""),
)
# The calls that fill a map, a cache and a set.
FILLING = {
    "map_fill": ("insert", "or_insert", "or_insert_with", "or_default", "vacant", "extend",
                 "extend_trait", "from_iter", "collect"),
    "cache_fill": ("insert", "put", "extend"),
    "set_fill": ("insert", "insert_if_absent", "replace", "get_or_insert", "get_or_insert_with",
                 "extend", "from_iter", "collect"),
}


class Drawing(calls.Drawing):
    """Draws runs that have our own calls too. Without `forgets` nothing is forgotten."""

    def __init__(self, kind, rng, keys, forgets=True):
        super().__init__(kind, rng, keys)
        self.rare = max(self.rare, LEAST_RARE if keys <= MANY else 0)
        self.forgets = forgets
        self.calls = self.allowed(self.calls + kind.own_calls)
        self.rare_calls = self.allowed(self.rare_calls + kind.rare_own_calls)
        self.weights = {id(table): list(add_up(table)) for table in (self.calls, self.rare_calls)}

    def allowed(self, table):
        """Returns the calls of a table that may be drawn."""
        return tuple(row for row in table if self.forgets or row[0] != "into_iter_forget")

    def key(self):
        if self.rng.random() < CHANCE_OF_NUMBERED:
            return str(self.rng.randrange(self.keys))
        return super().key()

    def word(self, form):
        rng = self.rng
        if form == "hasher":
            few = self.keys <= MOST_OF_ONE_BUCKET
            return rng.choice([it for it in calls.HASHERS + calls.OWN_HASHERS
                               if few or it not in OF_ONE_BUCKET])
        if form == "forget":
            return rng.choice(("drop", "forget")) if self.forgets else "drop"
        if form == "own_edit":
            return rng.choice(EDITS)
        if form == "own_edits":
            return "".join(rng.choice(EDITS + "kk") for _ in range(rng.randrange(1, 7)))
        if form == "order":
            return rng.choice(ORDERS)
        if form == "mode":
            return rng.choice(("keep", "touch"))
        if form == "room" and rng.random() < 0.2:
            return str(rng.choice(ROOMS))
        if form == "count":
            return str(rng.randrange(self.keys + 2))
        if form == "numbers":
            return str(rng.choice(FILLS) if rng.random() < CHANCE_OF_FILLS
                       else rng.randrange(min(self.keys + 2, FILLS[0])))
        if form in FILLING:
            return rng.choice(FILLING[form])
        if form == "id":
            return str(rng.randrange(self.keys))
        if form == "weight":
            return str(rng.choice((0, 1, 1, 2, 3, 5, 20, 2**63)) if rng.random() < 0.2
                       else rng.randrange(1, 10))
        if form == "weights":
            return str(rng.choice((0, 5, 20, 50, 3 * self.keys, 2**64 - 1)))
        if form == "counted_pairs":
            count = rng.randrange(4)
            return f"{count} {self.many('pairs', count)}".rstrip()
        if form == "commands":
            return self.commands(MAP_COMMANDS)
        if form == "cache_commands":
            return self.commands(CACHE_COMMANDS)
        return super().word(form)

    def commands(self, table):
        """Draws some commands, with their words."""
        words = []
        for name, _, forms in self.rng.choices(
                table, [weight for _, weight, _ in table], k=self.rng.randrange(1, 8)):
            words += [name, *map(self.word, forms.split())]
        return " ".join(filter(None, words))

    def call(self):
        if self.kind.many and self.rng.random() < CHANCE_OF_CLONES:
            return f"{REFUSE_CLONE} a {self.rng.randrange(MOST_CLONES)}"
        table = self.rare_calls if self.rng.random() < self.rare else self.calls
        (name, _, forms), = self.rng.choices(table, cum_weights=self.weights[id(table)])
        return self.line(name, self.rng.choice("aab"), forms)

    def run(self, calls_made):
        """Draws a run of at least so many calls, which takes in as many pairs or items as there are
        keys."""
        lines = super().run(calls_made)
        if self.kind.many:
            for _ in range(calls.MOST_AT_FIRST, self.keys, calls.MOST_AT_FIRST):
                taken = self.many(self.kind.many, calls.MOST_AT_FIRST)
                lines.insert(2, f"{self.kind.prefix}extend a {taken}")
            # No clone of the next run is refused.
            lines.append(f"{REFUSE_CLONE} a 0")
        return lines + (list(self.rare_lines()) if self.keys == MANY else [])

    def rare_lines(self):
        """Draws calls after which little is left, or which print all, each of another name and
        behind a line that fills what it acts on."""
        forms = next(forms for name, _, forms in self.kind.own_calls if name == "fill").split()
        table = self.rare_calls + self.allowed(self.kind.long_calls)
        for name, _, of_call in self.rng.sample(table, min(RARE_OF_MANY, len(table))):
            yield f"{self.kind.prefix}fill a {FILL_OF_MANY} {self.word(forms[1])}"
            yield self.line(name, "a", of_call)


def names():
    """Returns the names of all calls that are drawn."""
    return [REFUSE_CLONE] + [
        kind.prefix + name for kind in dict.fromkeys(KINDS)
        for name in (kind.first, *(row[0] for table in kind[4:] for row in table))]


def add_up(table):
    """Returns the sums of the weights of a table, up to each row."""
    total = 0
    for _, weight, _ in table:
        total += weight
        yield total


def huge_run(rng, pairs):
    """Draws a run on a map of so many pairs, which few lines take in."""
    drawing = Drawing(calls.MAPS, rng, pairs)
    lines = [f"with_hasher a {rng.choice(('spread', 'wide'))}"]
    numbers = list(range(pairs))
    rng.shuffle(numbers)
    for first in range(0, pairs, PAIRS_OF_LINE):
        words = (f"{calls.key_of(number)} {number % 97}"
                 for number in numbers[first:first + PAIRS_OF_LINE])
        lines.append("extend a " + " ".join(words))
    lines += [drawing.call() for _ in range(HUGE_CALLS)]
    return lines + [f"{REFUSE_CLONE} a 0", "clone b", "eq a", "retain a 3", "shrink_to_fit a",
                    "rotate_left a 777", "hash a", "extend_drain b", "drain b ffb", "drop b",
                    "drop a"]


def runs_of_batch(number):
    """Returns how many runs the batch of a number has."""
    if number in HUGE:
        return 1
    return RUNS_OF_MANY if has_many(number) else RUNS_OF_FEW


def has_many(number):
    """Tells whether the runs of the batch of a number have many keys."""
    return number % MANY_EVERY == MANY_EVERY - 1


def batch_numbers(calls):
    """Returns the numbers of the batches that have at least so many calls."""
    number = made = 0
    while made < calls:
        yield number
        made += LENGTH * runs_of_batch(number)
        number += 1


def batch(seed, number):
    """Draws the batch of a number."""
    rng = random.Random(f"{seed} {number}")
    if number in HUGE:
        return Batch([huge_run(rng, HUGE[number])], REFUSED_OF_HUGE.get(number, NO_REFUSALS))
    chances = CHANCES_OF_MANY if has_many(number) else CHANCES
    chance, next_too = chances[number % len(chances)]
    refusals = Refusals(chance, rng.randrange(2**32), next_too, ())
    forgets = number // len(CHANCES) % 2 == 0
    runs = []
    for place in range(runs_of_batch(number)):
        kind = KINDS[(number + place) % len(KINDS)]
        few = KEY_COUNTS[(number + place // len(KINDS)) % len(KEY_COUNTS)]
        keys = MANY if has_many(number) else few
        runs.append(Drawing(kind, rng, keys, forgets).run(LENGTH))
    return Batch(runs, refusals)
