"""What the benchmarks share: ways that are timed in turns, and tables of their times.

Each way is timed from its files to its file in three rounds, in turns with the others, and its best time counts.
Nothing is asserted of the times: they are for this machine and this run.
"""

import collections
import glob
import math
import os
import resource
import subprocess
import sys
import tempfile
import time

TOP = os.path.dirname(os.path.dirname(os.path.realpath(__file__)))
BCL = os.path.join(TOP, "bcl")

ROUNDS = 3
BEST = f"seconds, best of {ROUNDS}"

# Pages of memory, and whether the C library asks for large ones.
PAGES = {"large": 1, "small": 0}

Way = collections.namedtuple("Way", "name timed line")
Run = collections.namedtuple("Run", "seconds peak")


def fail(reason):
    sys.exit(f"{sys.argv[0]}: {reason}")


def build():
    """Builds the program, where it isn't built. On no input it writes nothing."""
    if subprocess.run([BCL, "count", "1"], stdin=subprocess.DEVNULL).returncode:
        fail("./bcl is not built")


def built():
    """The program behind the front door, so that what the door itself costs isn't timed."""
    programs = glob.glob(f"{TOP}/crates/bcl_cli/out/proved/*/bcl")
    return programs[0] if len(programs) == 1 else BCL


def over_ranks(words, ranks, pages, given):
    """The built program on these words by so many ranks, from a file to its own."""
    name = f"bcl.{ranks}.{pages}"
    # (`exec` leaves the shell's process to the program, whose memory is measured)
    line = f'GLIBC_TUNABLES=glibc.malloc.hugetlb={PAGES[pages]} exec "$BUILT" {words} --ranks {ranks}'
    return Way(name, f"bcl {words} --ranks {ranks}, {pages} pages", f"{line} <{given} >{name}")


def run(way, folder):
    """Runs a way once."""
    start = time.perf_counter()
    started = subprocess.Popen(["sh", "-c", way.line], cwd=folder, env={**os.environ, "BCL": BCL, "BUILT": built(), "LC_ALL": "C"})
    _, status, usage = os.wait4(started.pid, 0)
    seconds = time.perf_counter() - start
    started.returncode = os.waitstatus_to_exitcode(status)
    if status:
        fail(f"{way.name} failed, with status {started.returncode}")
    return Run(seconds, usage.ru_maxrss * 1024)


def best_of(ways, folder):
    """The best run of each way, by its name."""
    rounds = [{way.name: run(way, folder) for way in ways} for _ in range(ROUNDS)]
    return {way.name: min(it[way.name] for it in rounds) for way in ways}


def at_most(ran):
    """'at most ' where the peak of a run is no more than a bound."""
    # The system counts the peak of a process from its start on, when it still was a copy of this one.
    return "at most " * (ran.peak <= resource.getrusage(resource.RUSAGE_SELF).ru_maxrss * 1024)


def table(head, rows):
    """Prints rows of a name and numbers in columns."""
    first, *others = [max(map(len, column)) for column in zip(head, *rows)]
    for name, *numbers in [head, *rows]:
        print(name.ljust(first), *[number.rjust(width) for number, width in zip(numbers, others)], sep="  ")


def growth(way, what, sizes, write_input):
    """Times a way on inputs of these sizes, and prints how its time grows, beside n log n."""
    rows, first = [], None
    for size in sizes:
        with tempfile.TemporaryDirectory(prefix="bench-") as folder:
            write_input(folder, size)
            seconds = best_of([way], folder)[way.name].seconds
        first = first or (seconds, size * math.log(size))
        expected = size * math.log(size) / first[1]
        rows.append([f"{size:,}", f"{seconds:.2f}", f"{seconds / first[0]:.2f}", f"{expected:.2f}"])
    table([what, BEST, "times the first", "n log n"], rows)
