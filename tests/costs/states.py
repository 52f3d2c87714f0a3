"""Descriptions of states and turns as turns.c reads them: those that are known, those drawn anew, and others made of one."""
import random
from pathlib import Path

WINDOWS = (64, 128, 256, 512, 512, 1024, 2048, 8192)
TIMES = (1, 5, 10, 20, 40, 60, 100, 300, 1000)
SHARES = (0, 1, 10, 50, 100, 200, 330, 500, 800, 950, 1000)
FEW = (1, 2, 3, 4, 8, 16, 64)
# What each word of a description may be drawn from. A count of places goes up to that of the window.
DRAWN = {
    "window": WINDOWS, "patience": (50, 200, 1000, 1000000), "delay": (0, 0, 5, 20, 60), "retry": TIMES, "nacks": (1, 2, 4, 10, 255),
    "follows": (0, 0, 1, 2), "burst": "places", "lone": "places", "apart": (2, 3, 5, 10, 17, 21, 31, 33, 41, 51, 64, 67, 100, 130),
    "drawn": "places", "share": SHARES, "asked": (0, 0, 1, 2, 4), "silence": (0, 0, *TIMES), "turns": (4, 10, 20, 40), "step": TIMES,
    "sends": (0, 1, 1, 2, 5, 10, 20), "skips": (0, 0, 1, 2, 16, 70), "lost": SHARES, "run": (1, 1, 2, 5, 20, 70), "late": SHARES,
    "behind": TIMES, "answers": SHARES, "trip": TIMES, "asks": (0, 1, 2), "most": (1, 2, 17, 64, 1088), "each": (0, 1), "plays": (0, 1),
    "reads": (0, 1),
}
BEFORE = ("burst", "lone", "drawn")
IDLE = 1000  # instructions of a turn


def known():
    """The states of states.txt: pairs of a name and a description."""
    name = ""
    for line in (Path(__file__).parent / "states.txt").read_text().splitlines():
        if line.startswith(" "):
            yield name, dict(word.split("=") for word in line.split())
        name = line


def text(state):
    """A description as a line."""
    return " ".join(f"{name}={value}" for name, value in state.items())


def value(draws, name, state):
    """A value for a word."""
    if DRAWN[name] != "places":
        return draws.choice(DRAWN[name])
    window = int(state.get("window", 512))
    return draws.choice((0, 1, 2, *FEW, window // 40, window // 10, window // 4, window // 2, window * 9 // 10, draws.randrange(window)))


def anew(draws):
    """A state that is drawn: mostly as the program has it, with some words of its own."""
    state = {"window": draws.choice(WINDOWS)}
    for name in [draws.choice(BEFORE), *draws.sample(sorted(DRAWN), 8)]:
        state[name] = value(draws, name, state)
    return bounded(state)


def changed(draws, state):
    """A state near another one."""
    state = dict(state)
    for name in draws.sample(sorted(DRAWN), draws.randint(1, 3)):
        if name in state and str(state[name]).isdigit() and draws.random() < 0.5 and int(state[name]) > 3:
            state[name] = max(1, int(int(state[name]) * draws.choice((0.5, 0.8, 0.95, 1.05, 1.3, 2))))
        elif name in state and draws.random() < 0.2:
            del state[name]
        else:
            state[name] = value(draws, name, state)
    return bounded(state)


def bounded(state):
    """The state within what ends allow, and with no more places before the first turn than fit the window."""
    most = {"window": 8192, "nacks": 255, "follows": 2, "most": 1088, "apart": 8192, "turns": 60, "sends": 40,
            "asked": 4, "lost": 1000}
    state = {name: min(int(one), most.get(name, 1000000)) for name, one in state.items()}
    window = state.get("window", 512)
    for name in BEFORE:
        each = state.get("apart", 2) if name == "lone" else 1
        if name in state:
            state[name] = min(state[name], max(1, window // each))
    return state


def kind(state, part, took):
    """What tells states apart of which the worst is kept: where they are dearer, and what they are about. Of those in whose turns next to
    nothing is done one is kept."""
    def is_set(name):
        return int(state.get(name, 0)) > 0

    if took < IDLE * int(state.get("turns", 20)):
        return part, "idle"
    before = max(BEFORE, key=lambda name: int(state.get(name, 0)))
    network = is_set("answers"), is_set("lost") or is_set("skips")
    sizes = int(state.get("most", 1088)) < 64, int(state.get("window", 512)) > 1024
    return part, is_set(before) and before, is_set("asks"), *network, *sizes


class Climb:
    """The worst state of each kind so far, of which others are made."""

    def __init__(self, seed):
        self.draws, self.worst = random.Random(seed), {}

    def propose(self, count):
        """States to try next: a fifth of them drawn anew."""
        kept = sorted(self.worst.values(), key=lambda one: -one[0])
        for _ in range(count):
            if not kept or self.draws.random() < 0.2:
                yield anew(self.draws)
            else:
                yield changed(self.draws, kept[int(len(kept) * self.draws.random() ** 2)][1])

    def take(self, ratio, part, state, old, new):
        """Keeps a state where it is worse than the others of its kind."""
        key = kind(state, part, sum(new.values()))
        if key not in self.worst or self.worst[key][0] < ratio:
            self.worst[key] = (ratio, state, old, new)
