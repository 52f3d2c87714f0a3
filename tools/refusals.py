"""What a tool says of input that it can't use: one line on the error output, a status, and no output file.

Status 1 is for input that is not as its format has it, with the line, frame or packet it stands in; 3 is for files that can't be
read or written, as rtxtool has it; 2 is what argparse answers to a bad command line.
"""
import importlib.util
import os
import subprocess
import sys
import tempfile


class Refused(Exception):
    """Input that is not as its format has it: `where` is as `line 3`, `what` a text for people."""

    def __init__(self, where, what):
        super().__init__(f"{where}: {what}")


def wants(module):
    """Ends with status 2, and a line on the error output, where a module of Debian's is missing."""
    if importlib.util.find_spec(module) is None:
        print(f"{os.path.basename(sys.argv[0])}: missing: python3:{module} (Debian's python3-{module})", file=sys.stderr)
        sys.exit(2)


def needs(*programs):
    """Ends with status 2 where one of these programs is missing, which tools/need tells in a line."""
    if subprocess.run([os.path.join(os.path.dirname(os.path.abspath(__file__)), "need"), *programs]).returncode:
        sys.exit(2)


def read(name):
    """The octets of a file."""
    with open(name, "rb") as file:
        return file.read()


def write(name, octets):
    """Writes a file whole or not at all: a picture or a trace that is half there would look like one."""
    folder = os.path.dirname(os.path.abspath(name))
    handle, part = tempfile.mkstemp(dir=folder)
    try:
        with os.fdopen(handle, "wb") as file:
            file.write(octets)
        mask = os.umask(0)
        os.umask(mask)
        os.chmod(part, 0o666 & ~mask)
        os.replace(part, name)
    except OSError as fault:
        os.unlink(part)
        raise OSError(fault.errno, fault.strerror, name) from None


def run(main):
    """Runs a tool, and ends the program with its status."""
    try:
        main()
    except Refused as refused:
        print(refused, file=sys.stderr)
        sys.exit(1)
    except OSError as fault:
        print(f"{fault.filename or 'a file'}: {fault.strerror}", file=sys.stderr)
        sys.exit(3)
