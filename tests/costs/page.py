"""The figures of bench/costs.txt that docs/COSTS.md shows: in its tables of instructions, and in its sentence on the relays."""
import re

END = "The same work by the clock"  # the tables behind it have the same names, and other figures
ROW = re.compile(r"^\| ([^|]+) \| ([0-9.]+) \|", re.M)
TURNS = "| A turn of | Instructions |"
RELAYS = re.compile(r"(\d+) of the sending one, (\d+) of the receiving one")


def with_rows(table, words, before):
    """A table with the figures whose names begin with these words."""
    return ROW.sub(lambda row: row[0].replace(f"| {row[2]} |", f"| {words.get(before + row[1], row[2])} |", 1), table)


def written(page, words):
    """The page with these figures in the place of those that it has."""
    calls, of, rest = page.partition(TURNS)
    turns, end, rest = rest.partition(END)
    relays = "{} of the sending one, {} of the receiving one".format(*(words[f"a packet of the {one} relay"] for one in ("sending", "receiving")))
    return with_rows(calls, words, "") + of + with_rows(turns, words, "a turn of ") + end + RELAYS.sub(relays, rest)
