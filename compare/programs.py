"""The two programs that are compared, and how they are built and run."""

import concurrent.futures
import os
import pathlib
import shutil
import subprocess
import sys
import tempfile

TOP = pathlib.Path(__file__).resolve().parent.parent
COMPARE = TOP / "compare"
DRIVER = TOP / "crates" / "driver"
REGISTRY = pathlib.Path("/usr/share/cargo/registry")

# The port is built for this processor too.
FLAGS = "--cap-lints allow -C target-cpu=x86-64-v2"
# What is built over, and the package that has it.
PACKAGES = {
    "linked-hash-map-0.5.6": "librust-linked-hash-map-dev",
    "lru-cache-0.1.2": "librust-lru-cache-dev",
    "hashlink-0.8.0": "librust-hashlink-dev",
}
# What the peers are built over.
PEER_PACKAGES = {
    **PACKAGES, "indexmap-1.9.2": "librust-indexmap-dev", "lru-0.7.8": "librust-lru-dev"}

# The libraries of the driver and of the benchmark.
LIBRARIES = ("linked_hash_set", "lru_cache", "linked_hash_map", "lhm_ring", "equivalent")

# The workloads of the cache and the set. The name of the same by a map has an ending.
PRODUCTS = ("cache_insert", "cache_hit", "set_insert", "set_contains", "set_iterate")
BY_MAP = "_by_map"

# The workloads of the calls that the original has not, which the twin has, but for `sort_cached`,
# and the sorts of a vector of the same pairs.
SORTS = ("sort", "sort_cached", "sort_falling", "sort_sorted")
MOVES = ("move_beside", "iter_from", *SORTS)
SORT_VECTORS = {"sort": "sort_vector", "sort_cached": "sort_vector",
                "sort_falling": "sort_vector_falling", "sort_sorted": "sort_vector_sorted"}

# The workloads of changes of many pairs and of entries, and those of texts and documents.
CHANGES = ("entry_new", "entry_present", "retain_half", "empty_refill", "extend", "with_capacity")
TEXTS = ("text_insert", "text_hit", "text_miss", "text_refresh", "text_present", "text_reinsert",
         "text_clone", "document_build", "document_read", "document_drop", "document_with_capacity",
         "document_cycle", "nested_build", "nested_read")

# The workloads of small maps, the most pairs of one, and how many pairs tables have.
SMALL = ("small_fill", "small_lookup", "small_iterate")
MOST_PAIRS = 64
SMALL_SIZES = (1, 2, 3, 4, 5, 6, 8, 10, 12, 16, 24, 32, 64)


def stop(message):
    """Ends the program, which could not compare anything."""
    print(f"{'/'.join(pathlib.Path(sys.argv[0]).resolve().parts[-2:])}: {message}")
    sys.exit(2)


def machine():
    """Returns the machine and its load in one line."""
    model = "unknown processor"
    for line in pathlib.Path("/proc/cpuinfo").read_text().splitlines():
        if line.startswith("model name"):
            model = " ".join(line.split(":", 1)[1].split())
    caches = [pathlib.Path(f"/sys/devices/system/cpu/cpu0/cache/index{level}/size")
              for level in (2, 3)]
    sizes = " and ".join(cache.read_text().strip() for cache in caches if cache.exists())
    compiler = subprocess.run(["rustc", "--version"], capture_output=True, text=True).stdout.strip()
    return (f"{model}, {os.cpu_count()} processors, caches of {sizes or 'unknown size'}, "
            f"load {os.getloadavg()[0]:.1f}, {compiler}")


def built_by_cargo(folder, crates, registry=REGISTRY):
    """Builds the program in a folder over the crates of a registry, and returns where it is."""
    missing = [] if shutil.which("cargo") else ["cargo", "rustc"]
    missing += [PEER_PACKAGES[crate] for crate in crates if not any(registry.glob(crate + "*"))]
    if missing:
        stop("first apt-get install " + " ".join(missing))
    target = COMPARE / "target"
    command = ["cargo", "build", "--quiet", "--release", "--offline"]
    if registry != REGISTRY:
        # What was built from another folder of this name may be older.
        target = target / "other"
        shutil.rmtree(target, ignore_errors=True)
        command += ["--config", f'source.debian.directory="{registry}"']
    # Another version of cargo may have written it.
    (folder / "Cargo.lock").unlink(missing_ok=True)
    built = subprocess.run(
        command + ["--target-dir", str(target)],
        cwd=folder, env={**os.environ, "RUSTFLAGS": FLAGS},
        capture_output=True, text=True)
    if built.returncode != 0:
        stop(f"{folder.relative_to(TOP)} does not build:\n{built.stderr}")
    return target / "release"


def built_bench(path=None):
    """Returns the benchmark at a path or, with none, that of the gate, or else `rt run` proves and
    builds it."""
    folder = TOP / "crates" / "bench"
    built = pathlib.Path(path) if path else folder / "out" / "bench"
    if path or is_up_to_date(built, "bench"):
        return built
    print("compare: rt run proves and builds crates/bench", file=sys.stderr)
    try:
        ran = subprocess.run(["rt", "run"], cwd=folder, capture_output=True, text=True)
    except FileNotFoundError:
        stop("put rt, the command of the Rattle kit, on the PATH")
    if ran.returncode != 0:
        stop("rt run failed in crates/bench:\n" + (ran.stdout + ran.stderr)[-2000:])
    return built


class Original:
    """The driver over the originals, which lie in a folder of cargo packages."""

    def __init__(self, registry=REGISTRY):
        folder = COMPARE / "original"
        self.program = built_by_cargo(folder, PACKAGES, registry) / "original"

    def outputs(self, runs):
        """Returns the lines that each run prints."""
        return [run_program(self.program, lines) for lines in runs]


class Port:
    """The driver over the port: the built program, or else one that `rt try` builds, which proves
    nothing."""

    def __init__(self):
        self.program = DRIVER / "out" / "driver"
        if not is_up_to_date(self.program, "driver"):
            self.program = None
            if not shutil.which("rt"):
                stop("put rt, the command of the Rattle kit, on the PATH")

    def outputs(self, runs):
        """Returns the lines that each run prints."""
        if self.program:
            return [run_program(self.program, lines) for lines in runs]
        # Each half builds the program once more, and takes a processor of its own.
        halves = [half for half in (runs[::2], runs[1::2]) if half]
        with concurrent.futures.ThreadPoolExecutor() as pool:
            outputs = list(pool.map(tried, halves))
        return [outputs[number % len(outputs)][number // len(outputs)]
                for number in range(len(runs))]


def tried(runs):
    """Runs the port without a proof, and returns the lines that each run prints."""
    with tempfile.TemporaryDirectory() as folder:
        for number, lines in enumerate(runs):
            (pathlib.Path(folder) / f"{number:06}").write_text(text_of(lines))
        ran = subprocess.run(
            ["rt", "try", "--cases", folder, "--steps", "1"],
            cwd=DRIVER, capture_output=True, text=True)
    return outputs_of_cases(ran.stdout, ran.stderr, len(runs))


def is_up_to_date(program, crate):
    """Tells whether the built program of a crate is there, and younger than every source."""
    if not program.exists():
        return False
    built = program.stat().st_mtime
    sources = [path for name in (crate, *LIBRARIES)
               for path in (TOP / "crates" / name / "src").rglob("*.rt")]
    return all(path.stat().st_mtime < built for path in sources)


def text_of(lines):
    """Returns the text of some lines."""
    return "".join(line + "\n" for line in lines)


def run_program(program, lines):
    """Runs a program on some lines, and returns the lines that it prints."""
    ran = subprocess.run([str(program)], input=text_of(lines), capture_output=True, text=True)
    output = ran.stdout.splitlines()
    if ran.returncode != 0:
        output.append(f"(it ended with status {ran.returncode}: {ran.stderr.strip()[:200]})")
    return output


def outputs_of_cases(output, outcomes, count):
    """Takes apart what `rt try --cases` printed."""
    outputs = {}
    current = None
    for line in output.splitlines():
        if line.startswith("== "):
            current = outputs.setdefault(int(line[3:]), [])
        elif current is not None:
            current.append(line)
    for line in outcomes.splitlines():
        if line.startswith("case="):
            name, outcome = line[5:].split(" ", 1)
            if not outcome.startswith("run=ended status=0"):
                outputs.setdefault(int(name), []).append(f"({outcome})")
    if len(outputs) != count:
        stop("rt try gave no answer:\n" + (output + outcomes)[-2000:])
    return [outputs[number] for number in range(count)]
