"""How what the driver did is compared with what the model says, and how a run that shows a difference
is cut to a short one that still shows it."""

import collections
import itertools
import re
import time

import model
from chapters import is_call
from effects import ORDER
from program import refusals_at

# A number of a text that lies between two.
BETWEEN = re.compile(r"<(\d+)\.\.(\d+)>")
# For how long a run is cut.
SECONDS = 60


class Difference(collections.namedtuple("Difference", "number expected found")):
    """What differs: the number of the line, from 0 on, what was expected and what was found."""

    def text(self):
        """Returns it as a text."""
        return f"expected {self.expected}\n    found    {self.found}"


def taken_apart(printed):
    """Returns the text of a printed line, and its effects by their names."""
    text, between, effects = printed.rpartition("; ")
    if not between:
        return printed, {}
    words = effects.split()
    return text, dict(zip(words[::2], words[1::2]))


def is_text(wanted, found):
    """Tells whether a text is the wanted one, of which a number may lie between two."""
    parts = BETWEEN.split(wanted)
    if len(parts) == 1:
        return wanted == found
    pattern = "".join(r"(\d+)" if at % 3 == 1 else re.escape(part) if at % 3 == 0 else ""
                      for at, part in enumerate(parts))
    match = re.fullmatch(pattern, found)
    bounds = zip(parts[1::3], parts[2::3])
    return bool(match) and all(int(low) <= int(number) <= int(high)
                               for number, (low, high) in zip(match.groups(), bounds))


def is_count(wanted, found):
    """Tells whether an effect is the wanted one, or lies between two numbers."""
    if isinstance(wanted, tuple):
        return (found or "0").isdigit() and wanted[0] <= int(found or "0") <= wanted[1]
    return wanted == found


def count_text(wanted):
    """Shows an effect that is wanted."""
    return f"{wanted[0]}..{wanted[1]}" if isinstance(wanted, tuple) else wanted


def differences(expected, printed, record):
    """Returns what differs in a line, each as what is expected and what is found. `record` is None
    without the C library."""
    text, effects = taken_apart(printed)
    found = [] if is_text(expected.text, text) else [(expected.text, text)]
    for name in sorted(expected.effects.keys() | effects.keys()):
        wanted = expected.effects.get(name)
        if not is_count(wanted, effects.get(name)):
            shown = effects.get(name, "none")
            found.append((f"{name} {count_text(wanted or 'none')}", f"{name} {shown}"))
    if record and (record.requests, record.size) != (expected.requests, expected.size):
        found.append((f"requests {expected.requests}, of {expected.size} bytes",
                      f"requests {record.requests}, of {record.size} bytes"))
    return found


def difference_of_order(printed):
    """Returns what is wrong with the form of the effects of a line, or None."""
    effects = printed.partition("; ")[2]
    names, counts = effects.split()[::2], effects.split()[1::2]
    if names != [name for name in ORDER if name in names] or len(names) != len(counts):
        return "effects by their names, in their order", effects
    if any(count in ("0", "0:0") for count in counts):
        return "no effect that is nothing", effects
    return None


def difference_of_marks(line, record):
    """Returns what is wrong with the marks of a line, or None. A heading has no window."""
    if record is None:
        return "a mark where the line begins", "none"
    if record.windows == 0 and not line.startswith("#"):
        return "a window", "none"
    return None


def forgets(line):
    """Tells whether a line forgets what owns memory."""
    words = line.split()
    return words[:1] == ["into_iter_forget"] or "forget" in words[2:] and words[0] != "entries"


def difference_at_end(lines, ran):
    """Returns what is wrong behind the lines, or None."""
    last = len(lines) - 1
    if ran.fault:
        return Difference(len(ran.lines), "an end with status 0", ran.fault)
    if len(ran.lines) != len(lines):
        return Difference(last, f"{len(lines)} lines", f"{len(ran.lines)} lines")
    if ran.records is not None and len(ran.records) != len(lines):
        return Difference(last, f"marks of {len(lines)} lines", f"of {len(ran.records)}")
    return difference_of_blocks(lines, ran) if ran.records is not None else None


def difference_of_blocks(lines, ran):
    """Returns behind which lines blocks of memory are kept, or None. At each heading everything is
    made anew, so there are as many as at the one before, unless a line between forgets some."""
    before, first = None, 0
    ends = [(at, record.live) for at, (line, record) in enumerate(zip(lines, ran.records)) if line.startswith("#")]
    for at, live in [*ends, (len(lines), ran.live)]:
        if before is not None and live != before and not any(map(forgets, lines[first:at])):
            return Difference(at - 1, "all memory given back", f"{live - before} blocks kept")
        before, first = live, at + 1
    return None


def difference_of_call(machine, line, printed, record):
    """Runs a line by the model, and returns what is wrong with what was printed, or None. `record`
    is None without the C library."""
    requests, refused = (record.requests, record.refused) if record else (None, ())
    try:
        wanted = machine.run(line, requests, refused)
    except model.Unexpected as refusal:
        return "requests that are refused to be made", str(refusal)
    if line.startswith("#"):
        return None if printed == line else (line, printed)
    if printed == "unknown":
        return "a call", printed
    found = differences(wanted, printed, record)
    return found[0] if found else difference_of_order(printed)


def first_difference(lines, ran):
    """Returns the first difference between what a program did and what the model says, or None."""
    machine = model.Model()
    counted = ran.records is not None
    records = itertools.chain(ran.records or (), itertools.repeat(None))
    for number, (line, printed, record) in enumerate(zip(lines, ran.lines, records)):
        wrong = counted and difference_of_marks(line, record)
        wrong = wrong or difference_of_call(machine, line, printed, record)
        if wrong:
            return Difference(number, *wrong)
    return difference_at_end(lines, ran)


def with_refused(lines, ran):
    """Returns each line with the numbers of its requests that were refused."""
    records = ran.records or []
    return [(line, records[place].refused if place < len(records) else ())
            for place, line in enumerate(lines)]


def difference_of(driver, cut):
    """Runs lines with the requests that are refused of each, and returns the first difference."""
    if not cut:
        return None
    lines = [line for line, _ in cut]
    at = [(number, it) for number, (_, refused) in enumerate(cut, 1) for it in refused]
    return first_difference(lines, driver.run(lines, refusals_at(at)))


def last_run(cut):
    """Returns the last run of some lines, without its heading."""
    headings = [place for place, (line, _) in enumerate(cut) if not is_call(line)]
    return cut[headings[-1] + 1:] if headings else cut


def without_parts(driver, cut, size, until):
    """Leaves out each part of so many lines that is not needed for a difference."""
    first = 0
    while first < len(cut) and time.time() < until:
        shorter = cut[:first] + cut[first + size:]
        found = difference_of(driver, shorter)
        if found:
            cut = shorter[:found.number + 1]
        else:
            first += size
    return cut


def shortened(driver, cut):
    """Cuts lines by halves and at last by single lines, as long as they show a difference."""
    until = time.time() + SECONDS
    size = max(1, len(cut) // 2)
    while True:
        cut = without_parts(driver, cut, size, until)
        if size == 1:
            return cut
        size = max(1, min(size, len(cut)) // 2)


def told_of_run(driver, lines, ran, difference):
    """Returns a text of what differs in a random run, with a short run that shows it."""
    whole = with_refused(lines, ran)[:difference.number + 1]
    for cut in (last_run(whole), whole):
        if difference_of(driver, cut):
            cut = shortened(driver, cut)
            rows = [line + "".join(f"   (request {it} refused)" for it in refused)
                    for line, refused in cut]
            text = difference_of(driver, cut).text()
            return "\n    ".join([f"a run of {len(cut)} lines:", *rows, text])
    return f"{whole[-1][0]}\n    {difference.text()}\n    (no shorter run shows it)"
