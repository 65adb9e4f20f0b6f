"""The driver, what it prints of some lines, and what the C library saw of its requests."""

import collections
import pathlib
import subprocess
import sys
import tempfile

TOP = pathlib.Path(__file__).resolve().parent.parent.parent
sys.path.insert(0, str(TOP / "compare"))

from programs import DRIVER, SMALL_SIZES, is_up_to_date

import unproved

SECONDS = 300

# What a program did: the lines that it printed, a record for each line that it began, or None if it
# has not ended, how many blocks there are behind a last heading, and what else is wrong, or "".
Ran = collections.namedtuple("Ran", "lines records live fault")


# What a line did: how many requests it made, for how many bytes, the numbers of those refused, its
# windows, and how many blocks of memory there are at its end.
Record = collections.namedtuple("Record", "requests size refused windows live")
# The headings behind the lines. At the first everything is made anew, and the program ends at the
# other.
END = ["# end", "# end"]


class Refusals(collections.namedtuple("Refusals", "chance seed next_too at")):
    """What is refused: each request with a chance, 0 for none, drawn from a seed, with or without
    those behind it in a line, and those of the numbers `at`, pairs of a line and a request."""

    def environment(self):
        """Returns the variables that tell the C library so."""
        named = ",".join(f"{line}:{request}" for line, request in self.at)
        words = {"REFUSE_AT": named}
        if self.chance:
            words.update(REFUSE_CHANCE=str(self.chance), REFUSE_SEED=str(self.seed),
                         REFUSE_NEXT_TOO="1" if self.next_too else "")
        return {name: word for name, word in words.items() if word}


NO_REFUSALS = Refusals(0, 0, False, ())


def refusals_at(pairs):
    """Returns the refusals of requests, each by the number of its line and its own."""
    return Refusals(0, 0, False, tuple(pairs))


def build_library(folder):
    """Builds the C library into a folder with the compiler of the toolchain, and returns where it
    is, or None and what the compiler says."""
    kit = unproved.kit_folder()
    if not kit:
        return None, unproved.NO_KIT
    clang = kit / "toolchain" / "bin" / "clang"
    library = pathlib.Path(folder) / "requests.so"
    flags = "-Wall -Wextra -Werror -O2 -fno-builtin -shared -fPIC -nostdlib".split()
    source = pathlib.Path(__file__).resolve().parent / "requests.c"
    built = subprocess.run([str(clang), *flags, "-o", str(library), str(source)],
                           capture_output=True, text=True, check=False)
    return (library, "") if built.returncode == 0 else (None, built.stderr)


def read_log(text):
    """Takes apart what the C library wrote: a record for each line, and whether its end is there."""
    records, is_ended = [], False
    for line in text.splitlines():
        if line == "end":
            is_ended = True
        else:
            windows, live, requests, size, *refused = map(int, line.split())
            records.append(Record(requests, size, tuple(refused), windows, live))
    return records, is_ended


class Driver:
    """The built driver, with the C library preloaded."""

    def __init__(self, program, library):
        self.program, self.library = str(program), str(library)

    def run(self, lines, refusals=NO_REFUSALS):
        """Runs some lines, and returns what the program did."""
        with tempfile.TemporaryDirectory(prefix="model-tests-") as folder:
            log = pathlib.Path(folder) / "log"
            env = {"LD_PRELOAD": self.library, "REQUESTS_LOG": str(log), **refusals.environment()}
            try:
                ran = subprocess.run(
                    [self.program], input="".join(f"{line}\n" for line in (*lines, *END)).encode(), env=env,
                    capture_output=True, timeout=SECONDS, check=False)
            except subprocess.TimeoutExpired:
                return Ran([], None, None, f"it has not ended after {SECONDS} s")
            records, is_ended = read_log(log.read_text() if log.exists() else "")
        fault = "" if is_ended else "the C library wrote nothing at its end"
        if ran.returncode != 0:
            fault = f"it ended with status {ran.returncode}: {ran.stderr[:200]!r}"
        printed = ran.stdout.decode(errors="replace").split("\n")[:-1]
        if fault or printed[-2:] != END or len(records) != len(printed):
            return Ran(printed, records, None, fault)
        return Ran(printed[:-2], records[:-2], records[-2].live, fault)


def find_program(crate):
    """Returns the built program of a crate, and "", or None and how to build it if it is not there
    or older than a source."""
    built = TOP / "crates" / crate / "out" / crate
    if is_up_to_date(built, crate):
        return built, ""
    return None, (f"there is no crates/{crate}/out/{crate} that is younger than its sources: "
                  f"(cd crates/{crate} && rt run < /dev/null) builds it, or give --try")


def build_program(crate, folder):
    """Builds the program of a crate into a folder with no proof, and returns where it is and "", or
    None and what was said."""
    built = pathlib.Path(folder) / crate
    fault = unproved.build(built, crate)
    return (None, fault) if fault else (built, "")
