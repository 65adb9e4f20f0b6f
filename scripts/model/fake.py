"""A driver in Python that does what the model says, but for a fault that is planted."""

import re

import model
from difference import BETWEEN
from effects import ORDER
from listed import List
from program import NO_REFUSALS, Ran, Record

# The chapters of the self-test. Most faults are planted at the line AT, or at FOUND, whose key
# shares its hash with three others. FORGETS forgets what owns memory.
STDIN = """# first
with_hasher a letter
insert a x 1
insert a y 2
insert a xylem 3
insert a xerox 4
get a xerox
drain a f forget
# second
extend b k1 1 k2 2 k3 3
remove b k2
len b
entry b k1 r 0
# third
set_insert a x
"""
AT, FOUND, FORGETS, OF_THIRD = "remove b k2", "get a xerox", "drain a f forget", "set_insert a x"
CALLS_TXT = """# A comment.
OccupiedEntry::remove: entry r
Refused::fmt: none: a text
"""
PUBLIC = {"LinkedHashMap::insert", "OccupiedEntry::remove", "Refused::fmt"}
LISTED = List(CALLS_TXT, PUBLIC)


def count_of(wanted):
    """Returns the least that an effect may be."""
    return wanted if isinstance(wanted, str) else str(wanted[0])


def printed_of(wanted):
    """Returns a line that a driver may print of what is expected."""
    effects = [f"{name} {count_of(wanted.effects[name])}" for name in ORDER
               if name in wanted.effects and count_of(wanted.effects[name]) != "0"]
    text = BETWEEN.sub(r"\1", wanted.text)
    return f"{text}; {' '.join(effects)}" if effects else text


class Fake:
    """The driver. A fault takes each line with what is printed of it and its record, and returns
    what is there in their place, or None. `blocks` has how many blocks some lines keep, and `status`
    tells how it ended. `ran` has what was run."""

    def __init__(self, fault=None, blocks=None, status=""):
        self.fault, self.blocks, self.status, self.ran = fault, blocks or {}, status, []

    def run(self, lines, refusals=NO_REFUSALS):
        """Runs some lines, and returns what the driver did. Only named requests are refused."""
        self.ran.append(lines)
        machine, at, rows, live = model.Model(), dict(refusals.at), [], 1
        for number, line in enumerate(lines, 1):
            wanted = machine.run(line, None, at.get(number))
            live += self.blocks.get(line, 0)
            record = Record(wanted.requests, wanted.size, (at[number],) if number in at else (), 1, live)
            row = printed_of(wanted), record
            rows.append(self.fault(line, *row) if self.fault else row)
        printed = [it for it, _ in rows if it is not None]
        return Ran(printed, [it for _, it in rows if it], live, self.status)


def prints(old, new, at=AT):
    """Returns the fault of a line of which something else is printed."""
    return lambda line, printed, record: (
        re.sub(old, new, printed) if line == at else printed, record)


def compares(count):
    """Returns the fault of a lookup among four keys that compares so many."""
    return prints(r"(\| 4 .*)eq-keys \d+", rf"\g<1>eq-keys {count}", FOUND)


def records(at=AT, **changes):
    """Returns the fault of a line that asks for memory otherwise, or has no window."""
    return lambda line, printed, record: (
        printed, record._replace(**changes) if line == at else record)


def asks_again(_line, printed, record):
    """The fault of each refused line that asks once more."""
    return printed, record._replace(requests=record.requests + bool(record.refused))


def prints_nothing(line, printed, record):
    """The fault of a line of which nothing is printed."""
    return None if line == AT else printed, record


def has_no_mark(line, printed, record):
    """The fault of a line that has no mark where it begins."""
    return printed, None if line == AT else record


def moves_wrongly(line, printed, record):
    """The fault of a call that only random runs have."""
    return printed.replace("|", "wrong |") if line.startswith("move_to_back") else printed, record


# The faults, each with the status of the tests and what of the driver is otherwise.
FAULTS = (
    ("a driver that does what the model says", 0, {}),
    ("another answer", 1, {"fault": prints(r"Some\(2\)", "Some(3)")}),
    ("another list", 1, {"fault": prints("k1:1 k3:3", "k3:3 k1:1")}),
    ("another length", 1, {"fault": prints(r"\| 2 ", "| 3 ")}),
    ("a drop of another key", 1, {"fault": prints(r"drop-keys 1:", "drop-keys 1:1")}),
    ("a drop too many", 1, {"fault": prints("drop-keys 1:", "drop-keys 2:")}),
    ("a drop of a value", 1, {"fault": prints(" hash", " drop-values 1:1 hash")}),
    ("no drop", 1, {"fault": prints(r"drop-keys \S+ ", "")}),
    ("a hash more", 1, {"fault": prints("hash-keys 1", "hash-keys 2")}),
    ("a key that is not compared", 1, {"fault": compares(0)}),
    ("a key that is compared as often as may be", 0, {"fault": compares(3)}),
    ("a key that is compared more often", 1, {"fault": compares(4)}),
    ("effects in another order", 1, {"fault": prints(r"(drop\S+ \S+) (hash\S+ \S+)", r"\2 \1")}),
    ("an effect that no line has", 1, {"fault": prints("$", " copy-keys 1")}),
    ("an effect of nothing", 1, {"fault": prints("$", " cmp-keys 0")}),
    ("a request more", 1, {"fault": records(requests=1)}),
    ("a request less", 1, {"fault": records("insert a x 1", requests=1)}),
    ("a refusal where no memory is asked for", 1, {"fault": records(refused=(1,))}),
    ("a refused call that asks again", 1, {"fault": asks_again}),
    ("a line with no window", 1, {"fault": records(windows=0)}),
    ("a line with no mark", 1, {"fault": has_no_mark}),
    ("a line of which nothing is printed", 1, {"fault": prints_nothing}),
    ("a line that is no call", 1, {"fault": prints(".+", "unknown")}),
    ("other bytes", 1, {"fault": records(size=1)}),
    ("memory that is kept", 1, {"blocks": {AT: 1}}),
    ("memory that is given back too often", 1, {"blocks": {AT: -1}}),
    ("as much given back too often behind", 1, {"blocks": {AT: 1, OF_THIRD: -1}}),
    ("memory that is forgotten", 0, {"blocks": {FORGETS: 1}}),
    ("another exit status", 1, {"status": "it ended with status 3"}),
)
