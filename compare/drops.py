"""What a line of the output says was dropped, and what is not compared of it."""

import re

# The effects that are compared. The port prints others too.
DROPS = ("drop-keys", "drop-values", "drop-hashers", "drop-closures")

# What the originals print otherwise of a call, with what stands for it here, and the reason.
DIFFERENCES = {
    "set_retain": (
        re.compile(r"^(\d+) \d+ "), r"\1 - ",
        "how many items were dropped when the closure was called last: hashlink drops them after "
        "that, and here each is dropped before the closure is called for another"),
}

# The effects at the end of a line, each of which is a name and a number.
EFFECTS = re.compile(r"; (?:[a-z-]+ [0-9:]+ ?)+$")


def effects(printed):
    """Returns a line of the output without its effects, and what they are by their names."""
    found = EFFECTS.search(printed)
    if not found:
        return printed, {}
    words = found[0][1:].split()
    return printed[:found.start()], dict(zip(words[::2], words[1::2]))


def compared(line, printed):
    """Returns what is compared of what a call printed: all that does not differ but its effects,
    and the drops among these."""
    text, found = effects(printed)
    name = line.split()[0]
    if name in DIFFERENCES:
        pattern, stand_in, _ = DIFFERENCES[name]
        text = pattern.sub(stand_in, text)
    return text, {name: number for name, number in found.items() if name in DROPS}


def counted(line, printed):
    """Returns the same without the sums, which count from the begin of the whole output."""
    text, found = compared(line, printed)
    return text, {name: number.split(":")[0] for name, number in found.items()}
