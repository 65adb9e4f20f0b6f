"""What a map of a few pairs asks for: how often, and the bytes of its blocks. The pairs are those of
crates/bench, 16 bytes each."""

import re
import subprocess
import tempfile

from effects import Effects
from memory import BUCKET, CHUNK, FIRST_ROOM, NODE, NUMBER, Memory
from program import SMALL_SIZES

PAGE = "docs/speed.txt"
# How many maps bench fills, and the most bytes of a request for one of them.
MAPS, MOST_BYTES = 4_000, 4_096


def counted(bench, library, pairs):
    """Returns what each map asked for that bench has filled, one pair at a time. What bench asks for
    besides makes less than one of each map."""
    with tempfile.NamedTemporaryFile("r") as log:
        env = {"LD_PRELOAD": str(library), "REQUESTS_LOG": log.name, "COUNT_UP_TO": str(MOST_BYTES)}
        command = [str(bench), "repeated", "small_lookup", "1", str(pairs)]
        subprocess.run(command, env=env, stdout=subprocess.DEVNULL, check=True)
        requests, bytes_held = re.search(r"(?m)^small (\d+) (\d+)$", log.read()).groups()
    return int(requests) // MAPS, int(bytes_held) // MAPS


def by_model(pairs):
    """Returns what such a map asks for by the rules of memory.py."""
    effects, memory = Effects(pair=2 * NUMBER), Memory()
    for length in range(pairs):
        memory.has_room(length, effects)
    buckets = max(memory.buckets, FIRST_ROOM)
    node = NODE + effects.pair
    return effects.requests, BUCKET * buckets + node * memory.nodes + CHUNK * memory.chunks


def rows_of(page):
    """Returns what this map asks for by its pairs, as the table of a page has it: the cells behind
    those of the original."""
    rows = re.findall(r"(?m)^\| (\d+) \| \d+, \d+ \| (\d+), (\d+) \|", page)
    return {int(pairs): (int(requests), int(size)) for pairs, requests, size in rows}


def faults_of(page, count):
    """Returns what is wrong with the table of a page, if `count` returns what a map asks for."""
    rows = rows_of(page)
    faults = [f"{PAGE}: a map of {pairs} pairs asks for memory {count(pairs)[0]} times, and has "
              f"{count(pairs)[1]} bytes, not {row}" for pairs, row in rows.items() if row != count(pairs)]
    return faults + [f"{PAGE}: no row of {it} pairs" for it in SMALL_SIZES if it not in rows]
