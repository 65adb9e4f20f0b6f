"""The public calls, and the lines that make them: crates/driver/calls.txt.

The public calls are read from the sources of the libraries: the public functions, the functions of a
trait that is implemented for a public type, and the commands of `replay`. Of what is derived only
`drop` is one. A call is named by its type, as `LruCache::get`. If the map has a type or a function of
that name too, the crate stands before it, as `lru_cache::Command::Get`.

A line of the list is `CALL: NAME, NAME ..`. A name is the first word of a line of the driver, and
maybe one of its edits, commands or modes behind it, as `entry r`, the call of a fill, as
`fill extend`, or `forget`; words in capitals say nothing. Of a call that no line makes it is
`CALL: none: REASON`. A call whose line has its name, behind what PREFIXES has for its type, is not
listed."""

import pathlib
import re

SOURCES = pathlib.Path(__file__).resolve().parent.parent.parent / "crates"
MAP, OTHERS = "linked_hash_map", ("lru_cache", "linked_hash_set")

FUNCTION = re.compile(r" *(pub )?fn (\w+)")
TYPE = re.compile(r"(pub )?(?:pub\(\w+\) )?(?:struct|enum) (\w+)")
VARIANT = re.compile(r"    ([A-Z]\w*)[(,]")

# What the names of the lines of a type's calls begin with.
PREFIXES = {"LinkedHashMap": "", "Entry": "", "LruCache": "cache_", "LinkedHashSet": "set_",
            "Sessions": "sessions_"}

# The lines of which the edits of entries matter, and which word has them.
EDITED = {"entry": 3, "entries": 2, "next_entry": 2}
# The lines of which each word behind the name may be one of the names.
WORDED = {"replay", "cache_replay", "set_mode"}
# The lines that make a call several times, and which word has it.
FILLS = {"fill": 3, "cache_fill": 3, "set_fill": 3}


def impl_of(lines, at):
    """Returns the type of the impl that begins at a line, and whether it is of a trait."""
    head = lines[at]
    while "{" not in head:
        at += 1
        head += " " + lines[at]
    # Type parameters and arguments go, so that the last word is the type.
    while "<" in head:
        head = re.sub(r"<[^<>]*>", "", head)
    words = head.split("{")[0].split()
    return ("&" if any(word.startswith("&") for word in words) else "") + words[-1], " for " in head


def calls_of_file(text):
    """Returns the calls of a file, and its types that are not public."""
    calls, private, lines = [], set(), text.splitlines()
    owner, of_trait, is_dropped, is_command = "", False, False, False
    for at, line in enumerate(lines):
        if line.startswith("impl"):
            owner, of_trait = impl_of(lines, at)
        elif line.startswith("}"):
            owner, of_trait, is_command = "", False, False
        elif line.startswith("#[derive("):
            is_dropped = "Drop" in line
        elif found := TYPE.match(line):
            is_command = found[2] == "Command"
            calls += [f"{found[2]}::drop"] if is_dropped else []
            private |= set() if found[1] else {found[2]}
            is_dropped = False
        elif is_command and (found := VARIANT.match(line)):
            calls.append(f"Command::{found[1]}")
        elif (found := FUNCTION.match(line)) and (found[1] or of_trait):
            calls.append(f"{owner}::{found[2]}" if owner else found[2])
    return calls, private


def owner_of(call):
    """Returns the type of a call, or the call if it has none."""
    return call.rpartition("::")[0] or call


def calls_of_texts(texts):
    """Returns the calls of the files of a library, without those of types that are not public."""
    found = list(map(calls_of_file, texts))
    private = set().union(*(types for _, types in found))
    return {call for calls, _ in found for call in calls if owner_of(call) not in private}


def public_calls(texts):
    """Returns the names of the calls of the libraries, of which each has its texts."""
    calls = calls_of_texts(texts[MAP])
    owners = {owner_of(call) for call in calls}
    for crate in OTHERS:
        calls |= {f"{crate}::{call}" if owner_of(call) in owners else call
                  for call in calls_of_texts(texts[crate])}
    return calls


def read_texts():
    """Returns the texts of the files of each library."""
    return {crate: [path.read_text() for path in sorted((SOURCES / crate / "src").rglob("*.rt"))]
            for crate in (MAP, *OTHERS)}


def names_of(line):
    """Returns the names by which the list may speak of a line: its first word, and this with each
    edit of an entry, each command, the call of a fill, and the word `forget`."""
    words = line.split()
    name, further = words[0], []
    if name in EDITED:
        further = list("".join(words[EDITED[name]:EDITED[name] + 1]))
    if name in WORDED:
        further = [word for word in words[2:] if word.isalpha()]
    if name in FILLS:
        further = words[FILLS[name]:FILLS[name] + 1]
    if "forget" in words[2:]:
        further.append("forget")
    return {name, *(f"{name} {word}" for word in further)}


def shape_of(line):
    """Returns a line without words that have no name, so that many lines have one shape."""
    words = line.split()
    if words[0] in EDITED or words[0] in WORDED or words[0] in FILLS:
        return line
    return words[0] + (" a forget" if "forget" in words[2:] else "")


def names_of_all(lines):
    """Returns the names of all of some lines."""
    return set().union(*map(names_of, set(map(shape_of, lines))))


def name_of(listed):
    """Returns a name of the list without words in capitals."""
    return " ".join(word for word in listed.split() if not word.isupper())


def entries_of(text):
    """Returns each call of the list with the names of the lines that make it, which are none if it
    says why."""
    entries = []
    for line in text.splitlines():
        if line and not line.startswith("#"):
            call, _, names = line.partition(": ")
            is_none = names.startswith("none: ")
            entries.append((call, [] if is_none else list(map(name_of, names.split(",")))))
    return entries


def name_by_call(call):
    """Returns the name of the line that makes a call if no entry says otherwise, or None."""
    owner, _, name = call.rpartition("::")
    return PREFIXES[owner] + name if owner in PREFIXES else None


class List:
    """The text of the list, and the public calls."""

    def __init__(self, text, calls):
        self.entries = entries_of(text)
        self.calls = calls

    def faults(self, made):
        """Returns what is wrong with the list if lines of these names are made."""
        listed = [call for call, _ in self.entries]
        faults = [f"no entry for {call}" for call in sorted(self.calls.difference(listed))
                  if name_by_call(call) not in made]
        faults += [f"{call} needs no entry" for call, names in self.entries
                   if names == [name_by_call(call)]]
        faults += [f"two entries for {call}" for call in set(listed) if listed.count(call) > 1]
        faults += [f"there is no public call {call}" for call in listed if call not in self.calls]
        faults += [f"no line `{name}` is made, which {call} names"
                   for call, names in self.entries for name in names if name not in made]
        return [f"crates/driver/calls.txt: {fault}" for fault in faults]
