"""What the tiers of edits and of pairs share: the toolchain's own functions, a copy of the tree, and notes of what was refused."""
import glob
import hashlib
import importlib.util
import os
import shutil
import subprocess
import sys
from importlib.machinery import SourceFileLoader

import listed
import refusals

ONE_JOB = ["--jobs", "1"]
NOTES = f"{os.environ.get('XDG_CACHE_HOME') or os.path.expanduser('~/.cache')}/gozdrit/refused"


def loaded(path):
    """The functions of a script of the toolchain."""
    name = os.path.basename(path)
    loader = SourceFileLoader(name, path)
    made = importlib.util.module_from_spec(importlib.util.spec_from_loader(name, loader))
    loader.exec_module(made)
    return made


def kit():
    """The functions of the toolchain's `rt`, by which `rt ci` tries edits. Some kits keep what checks proved for other copies of a crate; in the
    place of the functions of those that don't there are some that find what this tree kept."""
    refusals.needs("rt")
    start = subprocess.run(["rt", "doc"], stdout=subprocess.PIPE, check=True, text=True).stdout.strip()
    made = loaded(f"{os.path.dirname(start)}/bin/rt")
    made.rtlib.guarded()  # (it has to be called by the main thread once)
    top = os.path.dirname(os.path.dirname(os.path.abspath(__file__)))
    for name, one in ("linked", copied), ("listing", listing), ("offer", lambda crate, stamp: None), ("work_for", lambda crate: kept_here(top, crate)):
        if not hasattr(made, name):
            setattr(made, name, one)
    return made


def copied(here, there):
    """Puts a folder there too, with files of its own: the prover of such a kit writes into those that it finds."""
    shutil.copytree(here, there, dirs_exist_ok=True)


def kept_here(top, crate):
    """What `rt check` kept of a crate in this tree, if it did."""
    there = f"{top}/crates/{crate.name}/out/incremental"
    return there if os.path.isdir(there) else None


def listing(folder):
    """The files of a folder, and what tells whether one was written anew; but for the one by which the prover notes that it was there."""
    found = {}
    for at, _, names in os.walk(folder):
        for name in set(names) - {"rattle-last-used"}:
            one = os.stat(f"{at}/{name}")
            found[os.path.relpath(f"{at}/{name}", folder)] = one.st_ino, one.st_size, one.st_mtime_ns
    return found


def part(rt, name):
    """The functions of another script beside it."""
    return loaded(f"{rt.rtlib.KIT}/bin/{name}")


def copy(room, proved):
    """Copies the tree as it stands, with the libraries that runs left in out/ and nothing else of theirs."""
    os.makedirs(room, exist_ok=True)
    there = "\0".join(listed.files(".", "crates", "crates.txt", "HANDLES"))
    subprocess.run(["xargs", "-0", "cp", "--parents", "-t", room], input=there, check=True, text=True)
    for library in glob.glob("crates/*/out/rlib"):
        if proved or os.path.isfile(f"{library}/stamp"):
            shutil.copytree(library, f"{room}/{library}")


def builds(crates, proved):
    """Whether these libraries are proved, the lowest first. What there is of them is taken as it is, and with `proved` it is `rt ci`'s."""
    for crate in crates:
        # `rt ci` leaves what it proved without the mark by which rt knows that it is up to date.
        if proved and os.path.isdir(crate.rlib):
            with open(f"{os.path.dirname(crate.rlib)}/stamp", "w", encoding="utf-8") as it:
                it.write(crate.stamp())
        if crate.build_rlib(ONE_JOB, anew=False):
            return False
    return True


def is_settled(rt, told):
    """Whether what `rt` told of an edit stands as it is: some kits tell it by a name, and others only whether it is refused."""
    return told in rt.SETTLED if hasattr(rt, "SETTLED") else told


def is_refused(rt, told):
    """Whether `rt` told that the prover refuses an edit."""
    return told in (rt.REFUSED, rt.AT_LIMIT) if hasattr(rt, "REFUSED") else told


def note(*read):
    """The file whose being there says that what was read so was refused."""
    os.makedirs(NOTES, exist_ok=True)
    return f"{NOTES}/{hashlib.sha256(repr(read).encode()).hexdigest()}"


def write(name, text):
    """Writes a text to a file in the place of the one that is there, which may be another tree's too."""
    if os.path.lexists(name):
        os.unlink(name)
    with open(name, "w", encoding="utf-8") as it:
        it.write(text)


def begun(rt, crate, to):
    """Puts to a crate's proofs what a check on this machine kept of it, in this tree or in another copy: `rt check` begins with that too."""
    there = rt.work_for(crate)
    try:
        if there:
            rt.linked(there, to)
    except (OSError, shutil.Error):
        shutil.rmtree(to, ignore_errors=True)  # (another command may write what this one copies)
    os.makedirs(to, exist_ok=True)


def leave(rt, kept, crate):
    """Leaves what proofs of a crate kept in its out/, as `rt check` does, for checks here and in other copies to begin with."""
    there = f"{crate.folder}/out/incremental"
    shutil.rmtree(there, ignore_errors=True)
    os.makedirs(os.path.dirname(there), exist_ok=True)
    rt.linked(kept, there)
    rt.offer(crate, crate.stamp())


def heed(words, told, known):
    """Ends where help is asked for, which is what a tool tells of itself, or where a word is no option that it knows."""
    if {"-h", "--help"} & set(words):
        print(told)
        sys.exit(0)
    for word in words:
        if word.startswith("-") and word not in known:
            print(f"{os.path.basename(sys.argv[0])}: no option {word}; --help tells of those there are", file=sys.stderr)
            sys.exit(2)


def lanes_of(words):
    """Takes `--lanes N` out of a command line, and answers N: so many at a time; else one for each processor."""
    if "--lanes" not in words:
        return os.cpu_count()
    at = words.index("--lanes")
    count = int(words[at + 1])
    del words[at : at + 2]
    return count


def link(here, there):
    """Puts a folder there too, without copying what its files hold where that can be had: no tool writes into a file that is there."""

    def one(name, to):
        try:
            os.link(name, to)
        except OSError:
            shutil.copy2(name, to)

    shutil.copytree(here, there, copy_function=one, dirs_exist_ok=True)
