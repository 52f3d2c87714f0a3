"""Programs under callgrind, and the instructions that their calls of the library took.

A program does what is to be counted in its function `counted`. Each call of that is a phase, and callgrind leaves a file for it."""
import os
import re
import subprocess
import tempfile
from pathlib import Path

# Callgrind counts `rep movsb` as one instruction for each octet: the C library is told to move and fill without it.
PLAIN_MOVES = "glibc.cpu.x86_rep_movsb_threshold=1000000:glibc.cpu.x86_rep_stosb_threshold=1000000"
NAMED = re.compile(r"c?fn=\((\d+)\)(?: (.*))?")
# Calls that version 1 of the header names otherwise, which the older of two trees may have.
OLD_NAMES = {"gozdrit_next_moment": "gozdrit_next_timeout"}


class Broken(Exception):
    """A program or valgrind that failed."""


def calls_of(path, prefix="gozdrit_"):
    """The instructions of a phase by the call that they were in, with all below it, by the names of version 2."""
    names, taken, caller, called, is_cost = {}, {}, "", "", False
    for line in path.read_text().splitlines():
        if is_cost:
            is_cost = False
            if called.startswith(prefix) and not caller.startswith(prefix):
                taken[called] = taken.get(called, 0) + int(line.split()[-1])
        elif found := NAMED.fullmatch(line):
            name = names.setdefault(found[1], OLD_NAMES.get(found[2], found[2]))
            if line[0] == "c":
                called = name
            else:
                caller = name
        elif line.startswith("calls="):
            is_cost = True
    return taken


def tool(out, *options):
    """The command line that a program is to be put behind, and its environment, where callgrind is to write to `out`."""
    return ["valgrind", "--tool=callgrind", f"--callgrind-out-file={out}", *options], {**os.environ, "GLIBC_TUNABLES": PLAIN_MOVES}


def run(out, options, words, given=""):
    """Runs a program under callgrind."""
    before, environment = tool(out, *options)
    done = subprocess.run([*before, *words], input=given, env=environment, capture_output=True, text=True)
    if done.returncode != 0:
        raise Broken(f"{' '.join(map(str, words))}: status {done.returncode}: {done.stderr[-400:]}")
    return done


def count(*words, given=""):
    """What a program printed, and the instructions of each phase by call."""
    with tempfile.TemporaryDirectory() as room:
        done = run(Path(room) / "out", ["--toggle-collect=counted", "--dump-after=counted"], words, given)
        last = len(list(Path(room).glob("out.*")))
        return done.stdout, [calls_of(Path(room) / f"out.{i + 1}") for i in range(last)]


def collected(told):
    """All instructions of a program, by what callgrind told of it."""
    if not (found := re.search(r"Collected : (\d+)", told)):
        raise Broken(f"callgrind told no count: {told[-400:]}")
    return int(found[1])


def total(*words):
    """What a program printed, and all its instructions."""
    done = run(os.devnull, [], words)
    return done.stdout, collected(done.stderr)


def build(source, tree, program):
    """Builds a program in C with the library of a tree."""
    kit = Path(subprocess.run(["rt", "doc"], capture_output=True, text=True, check=True).stdout.strip()).parent
    library = tree / "crates/gozdrit/out/libgozdrit.a"
    words = [os.environ.get("CC", "cc"), "-std=c99", "-O2", "-Wall", "-Wextra", "-pedantic", "-Wconversion", "-Werror",
             f"-I{tree / 'include'}", source, library, kit / "c/liblibc_c.a", "-o", program]
    done = subprocess.run(words, capture_output=True, text=True)
    if done.returncode != 0:
        raise Broken(f"{source} with {library}: {done.stderr[-2000:]}")
