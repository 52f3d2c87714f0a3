"""The file of figures, bench/costs.txt, and how what was counted is compared with it."""
import re
from typing import NamedTuple

SAME, OTHER = 0.02, 0.12  # by how much a figure may differ: with the kit and the C library of the file, and with others
NUMBER = re.compile(r"[0-9]+(\.[0-9]+)?")


class Counted(NamedTuple):
    """A figure, and by how much it may differ, where that is more than usual; or a digest, which is exact."""
    name: str
    word: str
    spread: float = 0.0
    exact: bool = False


class Figures:
    """What the file tells: the lines of its head, of which machine its figures are, and the figures by name."""

    def __init__(self, text):
        lines = text.splitlines()
        self.head = [line for line in lines if line.startswith("#")]
        pairs = [line.rpartition(": ") for line in lines if line and not line.startswith("#")]
        self.words = {name: word for name, colon, word in pairs if colon}
        self.broken = [word for _, colon, word in pairs if not colon]
        self.machine = self.words.pop("machine", "")

    def judge(self, counted, machine):
        """What is to be said of each thing that was counted, and of each line that no count has: whether it is good, and words."""
        for one in counted:
            yield compare(one, self.words.get(one.name), machine == self.machine)
        names = {one.name for one in counted}
        for name in [*self.words, *self.broken]:
            if name not in names:
                yield False, f"nothing counts the line: {name}"


def compare(one, told, is_same_machine):
    """What is to be said of one thing that was counted."""
    line = f"{one.name}: {one.word}"
    if told is None:
        return False, f"there is no figure; the line would be  {line}"
    if one.exact or not NUMBER.fullmatch(told):
        return one.word == told, "" if one.word == told else f"{line}, where {told} is right"
    most = max(SAME if is_same_machine else OTHER, one.spread)
    before, more = float(told), float(one.word) - float(told)
    if abs(more) <= most * before + 1e-9:
        return True, "" if is_same_machine else f"{one.name}: {told} was counted elsewhere, and is {one.word} here: count anew"
    change = f"{100 * abs(more) / (before or 1):.1f} % {'more' if more > 0 else 'less'} than {told}"
    if more > 0:
        return False, f"{one.name} takes {one.word} instructions, {change}"
    return False, f"{one.name} takes {change}; so that it stays so, the line is  {line}"


def text_of(head, machine, counted):
    """The file of what was counted."""
    return "".join(f"{line}\n" for line in [*head, f"machine: {machine}", *(f"{one.name}: {one.word}" for one in counted)])
