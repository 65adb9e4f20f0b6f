"""What random runs are made of, by their lines: which calls, how many runs of each kind, and how much
is refused."""

import collections

import draw
from chapters import is_call
from difference import forgets

# A batch has many keys if one of its lines has more words.
WORDS_OF_FEW = 1_000
# How many pairs huge runs take in, the largest first.
HUGE = 100_000, 30_000
# With which chances requests are refused, and the least batches of each.
CHANCES, LEAST_BATCHES = (0, 1 / 50, 1 / 8, 1 / 2), 20
# The least runs of each kind, of few keys and of many.
LEAST_RUNS = {"few": 100, "many": 10}
# The names of the kinds, by the first call of their runs.
KINDS = {"with_hasher": "maps", "cache_with_hasher": "caches", "set_with_hasher": "sets",
         "sessions_new": "sessions"}


def lines_of(batches):
    """Returns all calls of some batches."""
    return [line for batch in batches for run in batch.runs for line in run if is_call(line)]


def names_of(batches):
    """Returns the names of the calls of some batches."""
    return {line.partition(" ")[0] for line in lines_of(batches)}


def keys_of(batch):
    """Returns whether a batch has few keys or many."""
    is_many = any(line.count(" ") >= WORDS_OF_FEW for run in batch.runs for line in run)
    return "many" if is_many else "few"


def kind_of(run):
    """Returns the kind of a run, by its first line, or `None` without it."""
    return KINDS.get(run[0].partition(" ")[0])


def pairs_of(run):
    """Returns how many pairs the lines of a run take in that have many."""
    return sum(line.count(" ") // 2 for line in run
               if line.startswith("extend a ") and line.count(" ") > WORDS_OF_FEW)


def has_one_bucket(line):
    """Tells whether a line makes a hasher under which all keys are in one bucket."""
    words = line.split(maxsplit=3)
    return words[0].endswith(("with_hasher", "with_capacity")) and words[2] in draw.OF_ONE_BUCKET


def refuses_clone(line):
    """Tells whether a line refuses a clone."""
    return line.startswith(draw.REFUSE_CLONE) and not line.endswith(" 0")


def counts_of(batches):
    """Returns of each of some things how often it has to be drawn, and how often it is."""
    lines = lines_of(batches)
    chances = collections.Counter(batch.refusals.chance for batch in batches)
    runs = collections.Counter((kind_of(run), keys) for batch, keys in zip(batches, map(keys_of, batches))
                               for run in batch.runs)
    huge = sorted((pairs_of(run) for batch in batches for run in batch.runs), reverse=True)
    return {
        "runs that forget nothing": (60, sum(not any(map(forgets, lines_of([it]))) for it in batches)),
        "requests refused behind others": (LEAST_BATCHES, sum(it.refusals.next_too for it in batches)),
        "hashers of one bucket": (100, sum(map(has_one_bucket, lines))),
        "clones that are refused": (100, sum(map(refuses_clone, lines))),
        **{f"requests refused with a chance of {it}": (LEAST_BATCHES, chances[it]) for it in CHANCES},
        **{f"runs of {kind} on {keys} keys": (least, runs[kind, keys])
           for kind in KINDS.values() for keys, least in LEAST_RUNS.items()},
        **{f"{pairs} pairs": (pairs, found) for pairs, found in zip(HUGE, huge)},
    }


def missing(batches):
    """Returns what some batches lack: of few keys and of many each call, and what else has to be
    drawn often."""
    names = {keys: names_of(it for it in batches if keys_of(it) == keys) for keys in LEAST_RUNS}
    faults = [f"{name} on {keys} keys" for keys, found in names.items()
              for name in sorted(set(draw.names()) - found)]
    return faults + [what for what, (least, count) in counts_of(batches).items() if count < least]


def without(batches, is_left_out):
    """Returns some batches without the lines that are left out."""
    return [batch._replace(runs=[[line for line in run if not is_left_out(line)] for run in batch.runs])
            for batch in batches]


def tries(batches):
    """Returns tries of `missing`, each of batches that lack something: what is tried, what has to
    come out, and what does."""
    def chosen(is_chosen):
        return list(filter(is_chosen, batches))
    maps = [it._replace(runs=[run for run in it.runs if kind_of(run) == "maps"]) for it in batches]
    lacking = [
        ("no chance but of 1/50", "requests refused with a chance of 0.5",
         chosen(lambda it: it.refusals.chance in (0, 1 / 50))),
        ("no request refused behind another", "requests refused behind others",
         chosen(lambda it: not it.refusals.next_too)),
        ("no run of 100,000 pairs", "100000 pairs",
         chosen(lambda it: max(map(pairs_of, it.runs)) < HUGE[0])),
        ("no run of 30,000 pairs", "30000 pairs",
         chosen(lambda it: max(map(pairs_of, it.runs)) != HUGE[1])),
        ("all runs may forget", "runs that forget nothing",
         chosen(lambda it: any(map(forgets, lines_of([it]))))),
        ("no run but of maps", "runs of sets on few keys", maps),
        ("no hasher of one bucket", "hashers of one bucket", without(batches, has_one_bucket)),
        ("no refused clone", "clones that are refused", without(batches, refuses_clone)),
        ("a call that is not drawn", "truncate on few keys",
         without(batches, lambda line: line.startswith("truncate "))),
        ("no batch of many keys", "debug on many keys", chosen(lambda it: keys_of(it) == "few")),
    ]
    return [("what is drawn", [], missing(batches)),
            *((what, True, wanted in missing(left)) for what, wanted, left in lacking)]
