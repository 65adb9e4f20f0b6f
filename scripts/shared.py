"""What several scripts do: read and write files, run programs, and tell how they ended."""

import contextlib
import io
import pathlib
import re
import shutil
import subprocess
import unittest.mock

ROOT = pathlib.Path(__file__).resolve().parent.parent
# Texts that a self-test puts in the place of files of the repository, by their paths.
PLANTED = {}


def read(path):
    """Returns the text of a file, by its path from the root of the repository."""
    return PLANTED.get(path) or (ROOT / path).read_text(encoding="utf-8", errors="replace")


def write(path, text):
    """Writes a file, and the folders above it."""
    pathlib.Path(path).parent.mkdir(parents=True, exist_ok=True)
    pathlib.Path(path).write_text(text, encoding="utf-8")


def run(words, **how):
    """Runs a program without input, and returns how it ended, with both outputs as one text."""
    outputs = {"stdin": subprocess.DEVNULL, "stdout": subprocess.PIPE, "stderr": subprocess.STDOUT}
    return subprocess.run(words, check=False, **{**outputs, "text": True, "errors": "replace", **how})


def version_of(changelog):
    """Returns the newest version, and `and unreleased` behind it while the part above has entries."""
    above, version = re.match(r"(?s)(.*?)^## \[(\d[^\]]*)\]", changelog, re.M).groups()
    return version + (" and unreleased" if re.search(r"(?m)^- ", above) else "")


def uses_of(text):
    """Returns what each crate uses, as the lines of a crates.txt have it."""
    return {name: used.split() for name, used in re.findall(r"(?m)^(\w+):([^#\n]*)", text)}


def all_below(uses, crate):
    """Returns what a crate uses, and all that these use, with the libraries of the kit."""
    below = list(uses[crate])
    for name in below:
        below += [it for it in uses.get(name, []) if it not in below]
    return below


def copy_crates(root, folder, *left_out):
    """Copies the crates of a repository, without what checks made and folders left out."""
    shutil.copytree(f"{root}/crates", f"{folder}/crates", ignore=shutil.ignore_patterns("out", *left_out))
    for name in ("crates.txt", "HANDLES"):
        shutil.copy(f"{root}/{name}", folder)


def kit_folder():
    """Returns the folder of the Rattle kit."""
    return pathlib.Path(subprocess.check_output(["rt", "doc"], text=True).strip()).parent


def words_of_check(kit, crate, root_file):
    """Returns the command by which the kit checks a crate over std. More words may follow it."""
    logic = ["--antt-project", f"{kit}/rattle/logic/antt-project.json", "--logic-built", f"{kit}/logic_built"]
    std = ["--extern", f"std={kit}/rlibs/std.rlib", "-L", f"dependency={kit}/rlibs"]
    return [f"{kit}/bin/rattle", "check", "--crate-name", crate, root_file, *logic, *std]


def outcome(function, *words, planted=()):
    """Returns what a function returns and what it prints, with some texts planted."""
    texts = unittest.mock.patch.dict(PLANTED, planted, clear=True)
    with texts, contextlib.redirect_stdout(io.StringIO()) as said:
        return function(*words), said.getvalue()


def tell(faults, otherwise):
    """Prints the faults or, without one, another text, and returns the exit status."""
    print("\n".join(faults) or otherwise, flush=True)
    return 1 if faults else 0


def tell_missed(script, missed, otherwise):
    """Prints what a self-test has missed, or another text, and returns the exit status."""
    return tell([f"{script} --self-test ends otherwise than it must: {it}" for it in missed], otherwise)


def tell_tries(script, tries):
    """Does so for tries: each has what was tried, what had to come out, and what did."""
    missed = [what for what, wanted, found in tries if wanted != found]
    return tell_missed(script, missed, f"{script}: {len(tries)} tries end as they must")
