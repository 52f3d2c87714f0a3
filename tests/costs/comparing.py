#!/usr/bin/env python3
"""The comparison with a file of figures, on figures that are made up. The last line is `N passed, M failed`."""
import sys
from pathlib import Path

sys.path.insert(0, str(Path(__file__).resolve().parents[1] / "relay"))
from base import Checks
from figures import Counted, Figures, text_of

HERE, ELSEWHERE = "kit 1, glibc 2", "kit 2, glibc 2"
TOLD = Figures(f"# head\nmachine: {HERE}\na call, in order: 1000\nnothing: 0\ndigest: 1234567890123456789\n")


def judged(*counted, machine=HERE):
    """What is wrong of these, where the other lines of the file are counted as they are."""
    names = [one.name for one in counted]
    others = [Counted(name, word, exact=name == "digest") for name, word in TOLD.words.items() if name not in names]
    return [words for good, words in TOLD.judge([*counted, *others], machine) if not good]


def call(word, spread=0.0):
    return Counted("a call, in order", word, spread)


def main():
    checks = Checks()
    checks.same(judged(), [], "what is as it was")
    for word, machine, wrong in [("1020", HERE, 0), ("1021", HERE, 1), ("980", HERE, 0), ("979", HERE, 1), ("1120", ELSEWHERE, 0),
                                 ("1121", ELSEWHERE, 1), ("880", ELSEWHERE, 0), ("879", ELSEWHERE, 1)]:
        checks.same(len(judged(call(word), machine=machine)), wrong, f"{word} for 1000 with {machine}")
    checks.same(len(judged(call("1100", 0.1))), 0, "a figure that may differ by a tenth")
    checks.same(len(judged(call("1101", 0.1))), 1, "the same, beyond that")
    checks.count("a call, in order: 979" in judged(call("979"))[0], "the line of a figure that fell is told")
    checks.same(len(judged(Counted("nothing", "1"))), 1, "one for none")
    near = Counted("digest", "1234567890123456788", exact=True)
    checks.same((len(judged(near)), len(judged(near, machine=ELSEWHERE))), (1, 1), "another digest, with the same kit and with another one")
    checks.count("another: 5" in judged(Counted("another", "5"))[0], "the line of a figure that is missing is told")
    some = TOLD.judge([call("1000"), Counted("nothing", "0")], HERE)
    checks.same([good for good, _ in some], [True, True, False], "a line that nothing counts")
    checks.same([good for good, _ in Figures("machine: x\na line\n").judge([], "x")], [False], "a line that is none")
    again = Figures(text_of(TOLD.head, HERE, [Counted(*pair) for pair in TOLD.words.items()]))
    checks.same((again.head, again.machine, again.words), (TOLD.head, HERE, TOLD.words), "a file that is written and read")
    checks.tell()


main()
