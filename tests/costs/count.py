#!/usr/bin/env python3
"""Counts instructions of calls, workloads and relays, and compares them with bench/costs.txt.

    count.py [--write]    --write: writes the file anew, and its figures to docs/COSTS.md

TREE (environment) is the tree whose library and programs are counted, this one unless it is said. Its last line is
`N passed, M failed`."""
import concurrent.futures
import os
import platform
import subprocess
import sys
import tempfile
from pathlib import Path

HERE = Path(__file__).resolve().parent
sys.path.insert(0, str(HERE.parent / "relay"))
import growth
import page
import relays
from base import Checks
from callgrind import Broken, build, count, total
from figures import Counted, Figures, text_of

ROOT = HERE.parents[1]
TREE = Path(os.environ.get("TREE", ROOT)).resolve()
FILE, PAGE = ROOT / "bench/costs.txt", ROOT / "docs/COSTS.md"
SEED = "1"


def machine():
    """What figures depend on beside the code that is counted: the kit that compiles it, and the C library's moves."""
    kit = subprocess.run(["rt", "version"], capture_output=True, text=True, check=True).stdout.strip()
    moves = "with AVX2" if " avx2 " in Path("/proc/cpuinfo").read_text() else "without AVX2"
    return f"{kit}, {' '.join(platform.libc_ver())} {moves}"


def call(program, name):
    """One of the works of calls.c."""
    times, phases = count(program, name)
    return [Counted(name, f"{sum(phases[0].values()) / int(times):.1f}")]


def workload(name, crate, words):
    """A workload of bench/, of a fortieth and of a twentieth of its turns: both digests, and what the turns between them took."""
    program, full = TREE / "crates" / crate / "out" / crate, int(words[-1])
    short, long = max(1, full // 40), max(2, full // 20)
    (one, less), (two, more) = (total(program, *words[:-1], str(turns)) for turns in (short, long))
    digests = [Counted(f"digest of {name} with {turns}", told.split()[-1], exact=True) for turns, told in ((short, one), (long, two))]
    return [*digests, Counted(f"a turn of {name}", f"{(more - less) / (long - short):.0f}")]


def workloads():
    """The workloads of bench/workloads.txt: a name, a crate, and words."""
    for line in (ROOT / "bench/workloads.txt").read_text().splitlines():
        name, crate, *words = line.split()
        yield name, crate, [SEED if word == "SEED" else word for word in words]


def jobs(calls):
    """What is counted, each a function with its arguments. Those that take long stand first."""
    yield relays.packets, TREE / "crates/gozdrit_relay/out/gozdrit_relay"
    for one in workloads():
        yield workload, *one
    for name in subprocess.run([calls], capture_output=True, text=True, check=True).stdout.splitlines():
        yield call, calls, name


def count_all(checks):
    """Checks how turns grow, and answers all that is counted."""
    with tempfile.TemporaryDirectory() as room, concurrent.futures.ThreadPoolExecutor(os.cpu_count()) as pool:
        calls, turns = Path(room) / "calls", Path(room) / "turns"
        build(HERE / "calls.c", TREE, calls)
        build(HERE / "turns.c", TREE, turns)
        running = [pool.submit(*job) for job in jobs(calls)]
        for good, words in growth.turns(turns):
            checks.count(good, words)
        return [one for made in running for one in made.result()]


def main():
    checks, figures = Checks(), Figures(FILE.read_text())
    try:
        counted = count_all(checks)
    except (Broken, OSError, subprocess.SubprocessError) as error:
        checks.count(False, error)
        checks.tell()
    if sys.argv[1:] == ["--write"]:
        FILE.write_text(text_of(figures.head, machine(), counted))
        PAGE.write_text(page.written(PAGE.read_text(), Figures(FILE.read_text()).words))
        checks.tell()
    for good, words in figures.judge(counted, machine()):
        checks.count(good, words)
        if good and words:
            print(words)
    checks.tell()


main()
