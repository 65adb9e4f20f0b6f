"""How wrong bodies are tried that no clause refuses: by tests of a crate, or by a chapter of the
driver. scripts/wrong-bodies says how a file names these."""

import os
import pathlib
import re
import runpy
import shutil
import tempfile

from shared import ROOT, copy_crates, read, run, write

# The folders of a crate that have bodies: the first two those that are refused.
FOLDERS = ("must-fail", "by-clause", "only-tested")
# The module of tests with maps of a million pairs, which are run for their own bodies alone.
SLOW = "growths"
# The seconds that the tests of a crate have, on a busy machine too.
SECONDS = "600"


def keep_modules(src, tests):
    """Leaves of a crate's tests only the modules that have these tests, and those that they or what
    stands beside them use."""
    text, folder = read(f"{src}/tests.rt"), pathlib.Path(src, "tests")
    known = set(re.findall(r"(?m)^mod (\w+);", text))
    wanted = sorted({test.split("::")[0] for test in tests} | set(re.findall(r"(?m)^use (\w+)::", text)) & known)
    for module in wanted:
        code = "".join(map(read, [*folder.glob(f"{module}.rt"), *folder.glob(f"{module}/**/*.rt")]))
        used = set(re.findall(r"(?:super|crate::tests)::(\w+)", code)) & known
        wanted += sorted(used - set(wanted))
    for module in known - set(wanted):
        (folder / f"{module}.rt").unlink(missing_ok=True)
        shutil.rmtree(folder / module, ignore_errors=True)
    write(f"{src}/tests.rt", re.sub(r"(?m)^mod (\w+);\n", lambda line: line[0] if line[1] in wanted else "", text))


def refuses_growths(test):
    """Returns whether growths are refused of a test."""
    return test.split("::")[-1].startswith("refused_")


def failed_growths(folder, tests, work):
    """Returns which of the tests fail or say a wrong number of growths, if each growth is refused
    in turn."""
    growths = runpy.run_path(f"{ROOT}/scripts/refused-growths")
    program, by_program = growths["keep_program"](folder, work), growths["run_by_program"]
    if not program:
        # Most often such a test fails with no growth refused.
        failed = failed_tests(folder, tests)
        if not any(map(refuses_growths, failed)):
            raise ValueError("the program of the tests was not found, so no growth was refused")
        return failed
    paths, failed, runs = {f"tests::{it}": it for it in tests if refuses_growths(it)}, set(), []
    ended, _ = by_program(program, [f"tests::{it}" for it in tests], growths["UNREACHED"], work)
    failed_outright = {it for it in tests if f"test tests::{it}: status" in ended}
    while len(runs) < growths["MOST"] and not (runs and all(runs[-1][it] is not None or it in failed for it in paths)):
        ended, said = by_program(program, list(paths), len(runs) + 1, work)
        failed |= {it for it in paths if f"test {it}: status" in ended}
        runs.append(said)
    steady = [{it: said[it] for it in paths if it not in failed} for said in runs]
    failed |= {it.partition(": ")[0] for it in growths["find_miscounts"](steady)}
    return failed_outright | {paths[it] for it in failed}


def failed_tests(folder, tests):
    """Returns which of the tests fail, run without a proof."""
    ran = run(["rt", "try", "--test", "--seconds", SECONDS], cwd=folder)
    ended = dict(re.findall(r"(?m)^test tests::(\S+) \.\.\. (ok|FAILED)", ran.stdout))
    if not ended:
        raise ValueError(f"the tests did not run:\n{ran.stdout}"[:2000])
    return {test for test in tests if ended.get(test) != "ok"}


def copy_changed(root, work, crate, texts):
    """Copies the crates of a repository, with other texts of one."""
    copy_crates(root, work, *FOLDERS)
    for path, text in texts.items():
        write(f"{work}/crates/{crate}/{path}", text)


def faults_of_tests(root, crate, edit, bodies, texts, others):
    """Runs the tests that bodies name, with their texts in a copy, and returns what is wrong, by the
    bodies' names. `others` are the tests that other files name, which have to pass, of a file of
    growths one of them."""
    of = bodies[0].seen_by.split("::")[0]
    tests = {body.seen_by.split("::tests::")[1]: body for body in bodies}
    others = {it.split("::tests::")[1] for it in others if it.startswith(f"{of}::")} - set(tests)
    others = {it for it in others if it.split("::")[0] != SLOW}
    with tempfile.TemporaryDirectory(prefix="wrong-bodies-") as work:
        copy_changed(root, work, crate, texts)
        folder, every = f"{work}/crates/{of}", set(tests) | {it for it in others if not refuses_growths(it)}
        keep_modules(f"{folder}/src", every)
        try:
            are_refused = any(map(refuses_growths, tests))
            failed = failed_growths(folder, every, work) if are_refused else failed_tests(folder, every)
        except ValueError as error:
            return [("", str(error))]
    faults = [(body.name, f"{body.seen_by} does not see it") for test, body in tests.items() if test not in failed]
    spoiled, controls = failed & others, every - set(tests)
    if spoiled == controls or not os.path.basename(edit).startswith("growths"):
        faults += [("", f"{of}::tests::{test} fails too, which another file names") for test in sorted(spoiled)]
    return faults


def faults_of_chapter(root, crate, body, texts):
    """Builds the driver in a copy with the texts of a body, runs the chapter that it names, and
    returns what is wrong."""
    with tempfile.TemporaryDirectory(prefix="wrong-bodies-") as work:
        copy_changed(root, work, crate, texts)
        for folder in (it for it in ("compare", "scripts") if os.path.isdir(f"{root}/{it}")):
            shutil.copytree(f"{root}/{folder}", f"{work}/{folder}", ignore=shutil.ignore_patterns("target"))
        tests = f"{work}/scripts/model-tests"
        built = run([tests, "--build", f"{work}/program"])
        if built.returncode:
            return [(body.name, f"the driver was not built:\n{built.stdout}"[-2000:])]
        status = run([tests, "--program", f"{work}/program", "--chapter", body.seen_by]).returncode
    return [] if status == 1 else [(body.name, f"chapter {body.seen_by} does not see it: status {status}")]


def faults_of(root, crate, edit, bodies, texts, others):
    """Tries the bodies of a file with their texts, by the tests or the chapter that they name, and
    returns what is wrong, by the bodies' names."""
    if bodies[0].kind == "chapter":
        return faults_of_chapter(root, crate, bodies[0], texts)
    return faults_of_tests(root, crate, edit, bodies, texts, others)
