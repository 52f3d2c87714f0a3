"""Words of scripts and logs, as docs/SCRIPT.md has them: each check takes a word and gives its value, or None."""
import re

from refusals import Refused

DECIMAL = re.compile("0|[1-9][0-9]{0,19}")
OCTETS = re.compile("-|([0-9a-fA-F]{2})+")
SOURCES = re.compile("-|([0-9a-fA-F]{8}){1,15}")
EXTENSION = re.compile("-|[0-9a-fA-F]{4}([0-9a-fA-F]{8}){0,16}")
SSRC = re.compile("[0-9a-fA-F]{8}")


def number(least, most):
    """A decimal between two bounds."""

    def check(word):
        if not DECIMAL.fullmatch(word) or not least <= int(word) <= most:
            return None
        return int(word)

    return check


def text(pattern):
    """A word that fits a pattern, as it stands."""
    return lambda word: word if pattern.fullmatch(word) else None


def octets(word):
    """Octets in hexadecimal."""
    if not OCTETS.fullmatch(word):
        return None
    return b"" if word == "-" else bytes.fromhex(word)


def or_none(check):
    """What a check takes, or a hyphen."""
    return lambda word: "-" if word == "-" else check(word)


MOMENT = INDEX = COUNT = number(0, 2**64 - 1)
PLACE = number(0, 2**48 - 1)
CONTENT = (number(0, 2**32 - 1), number(0, 1), octets, text(SOURCES), text(EXTENSION))


def split(data):
    """The lines of a file as lists of words, and whether octets without a line feed follow them: a program that was cut off
    leaves the beginning of a line, which tells nothing."""
    *lines, rest = data.split(b"\n")
    split_lines = []
    for at, line in enumerate(lines, 1):
        if not line.isascii():
            raise Refused(f"line {at}", "there are octets that are no ASCII")
        split_lines.append(line.decode().split(" "))
    return split_lines, rest != b""


def values(where, words, grammar):
    """The values of a line whose first word chooses the checks of the others."""
    checks = grammar.get(words[0])
    if checks is None:
        raise Refused(where, f"'{words[0][:40]}' is no word of such a line")
    if len(words) != len(checks) + 1:
        raise Refused(where, f"'{words[0]}' has {len(checks)} words behind it, not {len(words) - 1}")
    found = []
    for word, check in zip(words[1:], checks):
        value = check(word)
        if value is None:
            raise Refused(where, f"'{word[:40]}' is not what stands there behind '{words[0]}'")
        found.append(value)
    return found
