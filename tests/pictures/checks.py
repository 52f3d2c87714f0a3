"""Counts checks as tests/counts.sh does, and finds the tools."""
import os
import subprocess
import sys
import tempfile

ROOT = os.path.realpath(os.path.join(os.path.dirname(__file__), "..", ".."))
TOOLS = os.path.join(ROOT, "tools")
PROGRAM = os.environ.get("PROGRAM", "")
sys.path.insert(0, TOOLS)
room = tempfile.TemporaryDirectory()
passed = failed = 0


def same(name, came, wanted):
    """A check: what came is what was wanted."""
    global passed, failed
    if came == wanted:
        passed += 1
    else:
        failed += 1
        print(f"FAILED: {name}: {str(came)[:200]} in the place of {str(wanted)[:200]}")


def path(name):
    """A file of this run of tests."""
    return os.path.join(room.name, name)


def put(name, octets):
    """Writes a file of this run of tests, and answers its path."""
    with open(path(name), "wb") as file:
        file.write(octets)
    return path(name)


def get(name):
    """The octets of a file, or None where there is none."""
    if not os.path.exists(name):
        return None
    with open(name, "rb") as file:
        return file.read()


def tool(name, *words, **more):
    """Runs a tool: its status, its output and its error output."""
    done = subprocess.run([os.path.join(TOOLS, name), *words], capture_output=True, check=False, **more)
    return done.returncode, done.stdout.decode(), done.stderr.decode()


def has_program():
    """Whether rtxtool was built."""
    return os.access(PROGRAM, os.X_OK)


def program(*words):
    """What rtxtool prints."""
    return subprocess.run([PROGRAM, *words], capture_output=True, check=True).stdout


def end():
    """The last line, and the status."""
    print(f"{passed} passed, {failed} failed")
    sys.exit(failed != 0)
