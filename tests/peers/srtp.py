#!/usr/bin/env python3
"""SRTP of the library beside libsrtp's, both ways over each profile, with a million random and mutated datagrams between.

    srtp.py FOLDER SEED"""
import os
import subprocess
import sys
from pathlib import Path

STRANGE = "1000000"


def main():
    folder, seed = sys.argv[1:3]
    compiler = os.environ.get("CC", "cc")
    found = subprocess.run([compiler, "-E", "-x", "c", "-"], input="#include <srtp2/srtp.h>", capture_output=True, text=True)
    if found.returncode:
        print("skipped: it wants libsrtp2-dev\n0 passed, 0 failed")
        return 0
    subprocess.run(["make", "-s", f"BUILD={folder}", f"{folder}/srtp"], cwd=Path(__file__).resolve().parent, check=True)
    return subprocess.run([f"{folder}/srtp", seed, STRANGE], timeout=120).returncode


if __name__ == "__main__":
    sys.exit(main())
