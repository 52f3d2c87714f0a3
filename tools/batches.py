"""Which edits of a crate one check can try, and what that check says of each of them.

A function is proved from the contracts of those that it calls, and no contract reads a body. So edits of the bodies of different functions
can stand in one check, and each shows at its own function: a goal that lies there is not proved, or an answer in its proof's files fits none.
What a check can't say so is nothing that counts, and such an edit is tried by itself:

- one that changes a head, a type, a constant, a definition, or the bodies of two functions, or a function in a cycle of calls;
- one whose function is told to call what is not proved, or is refused by a search that gave up, or in its proof's files for a name alone;
- each of a check that says anything else than that the crate is not proved, or finds a function that no edit is in not proved for any
  other reason than what it leads to. So an edit that does not compile, and one that does reach further than its function, judge none beside it.

That is why no edit is put beside one in a function that its own leads to, as far as their words tell.
"""
import glob
import re
from collections import Counter, defaultdict

import tiers

MOST = 8  # edits of one check
CALLS = "it calls|it passes|a call of"  # how a check begins to say that what a function calls is not proved
NAMES = r"has no |is not in scope|is no name|was not admitted"  # what a proof's file is told that names what went away
GOAL = r"note: (?:\./)?(src/\S+):(\d+):\d+: it is not proved that (?!.*\bgave up\b)"


class Edit:
    """What an edit changes: the octets of a file from `start` to `end`, which lie in the body of a function."""

    def __init__(self, path, function, start, end, new):
        self.path, self.function, self.start, self.end, self.new = path, function, start, end, new


class Functions:
    """The functions of a crate as the toolchain reads them, with the names by which a check that proved them tells of them."""

    def __init__(self, rt, crate, said):
        self.rt, self.crate = rt, crate
        self.proved = re.findall(r"^fn (\S+): proved\b", said, re.M)
        self.source = tiers.part(rt, "rt-plant-bodies").Source(crate.folder)
        self.source.read("src/main.rt" if crate.is_program else "src/lib.rt")
        self.named = defaultdict(list)
        for it in self.source.functions:
            self.named[it.name].append(it)
        self.calls = {it: self.called(it) for it in self.source.functions}

    def symbol(self, function):
        """The name by which a check tells of a function, or None where more than one can be meant."""
        start = "::".join([self.crate.name, *function.module, ""])
        if not function.block:
            return start + function.name if start + function.name in self.proved else None
        owners = [it[len(start) : -len(function.name) - 2] for it in self.proved if it.startswith(start) and it.endswith(f"::{function.name}")]
        exact = function.owner + (function.block.trait[0] if function.in_trait else "")
        owners = [exact] if exact in owners else [it for it in owners if function.in_trait and "::" not in it and function.block.fits(it)]
        return f"{start}{owners[0]}::{function.name}" if len(owners) == 1 else None

    def closures(self, function):
        """How the names of a function's closures begin."""
        start = "::".join([self.crate.name, *function.module, ""])
        return f"{start}fn::{self.symbol(function)[len(start) :]}::"

    def called(self, function):
        """The functions of the crate that the words of a body may mean."""
        found, words = set(), ["", "", "", *function.body]
        for at, word in enumerate(words):
            named, before = self.named.get(word, []), words[max(at - 3, 0) : at]
            if named and before[-1] == ".":
                found.update(it for it in named if it.block)
            elif named and before[1:] == [":", ":"] and before[0] not in ("self", "super", "crate"):
                owner = function.owner if before[0] == "Self" else before[0]
                found.update([it for it in named if it.owner == owner] or [it for it in named if it.in_trait])
            else:
                found.update(it for it in named if not it.block)
        return found - {function}

    def reached(self, function):
        """The functions that one leads to."""
        found, left = set(), [function]
        while left:
            new = self.calls[left.pop()] - found
            found |= new
            left += new
        return found

    def read(self, file):
        """The edit of a file, where it changes the body of one function alone; else None."""
        texts, _ = self.rt.read_edit(file, self.crate.folder)
        path, text = next(iter(texts.items())) if texts and len(texts) == 1 else ("", "")
        old, new = self.source.data.get(path, b""), text.encode()
        if not old or old.count(b"\n") != new.count(b"\n"):
            return None
        start, most = 0, min(len(old), len(new))
        while start < most and old[start] == new[start]:
            start += 1
        same = 0
        while same < most - start and old[-1 - same] == new[-1 - same]:
            same += 1
        end = len(old) - same
        inside = [it for it in self.source.functions if it.file == path and it.opens < start and end < it.end and not it.in_cycle and self.symbol(it)]
        return Edit(path, inside[0], start, end, new[start : len(new) - same]) if len(inside) == 1 else None

    def batches(self, files):
        """The edits that can be tried beside others, in checks of at most MOST; each is a dict from an edit's file to what it changes."""
        edits = {it: edit for it in files for edit in [self.read(it)] if edit}
        reached = {edit.function: self.reached(edit.function) for edit in edits.values()}
        count, made = Counter(it.function for it in edits.values()), []

        def is_apart(one, other):
            return one is not other and one not in reached[other] and other not in reached[one]

        for file, edit in sorted(edits.items(), key=lambda it: (-count[it[1].function], -len(reached[it[1].function]))):
            fits = (it for it in made if len(it) < MOST and all(is_apart(edit.function, other.function) for other in it.values()))
            batch = next(fits, None)
            if batch is None:
                made.append(batch := {})
            batch[file] = edit
        return [it for it in made if len(it) > 1]

    def texts(self, batch):
        """The files of the crate with the edits of a batch in them."""
        made = {}
        for path in {it.path for it in batch.values()}:
            old, text, at = self.source.data[path], b"", 0
            for it in sorted((it for it in batch.values() if it.path == path), key=lambda it: it.start):
                text, at = text + old[at : it.start] + it.new, it.end
            made[path] = (text + old[at:]).decode()
        return made

    def answers(self, function):
        """How a check begins to tell what is wrong in the files of a function's proof; None: some proof names another function's theorem."""
        for file in glob.glob(f"{self.crate.folder}/proofs/**/*.antt", recursive=True):
            with open(file, encoding="utf-8") as it:
                if re.search(rf"\bRattle\.{self.crate.name}\.proofs\.\S+\.Met\b", it.read()):
                    return None
        return rf"(?:\./)?proofs/{'/'.join(self.symbol(function).split('::')[1:])}/\w+\.antt:\d+:\d+: error: (?!.*(?:{NAMES}))"

    def lines(self, function):
        """The lines of a function in its file."""
        data = self.source.data[function.file]
        return range(data.count(b"\n", 0, function.first) + 1, data.count(b"\n", 0, function.end) + 2)


def is_called(words):
    """Whether all that a check says of a function that is not proved is that it calls such a one."""
    return bool(re.match(rf"no proof: (?:{CALLS}) ", words)) and "did not prove" not in words and "expected" not in words


def is_led_on(words):
    """Whether a function whose proof is by hand, and names that of one which it calls, is told to have none since that one has none."""
    return words == "not proved" or bool(re.match(r"not proved; .*; it calls `[^`]+`, which is not proved;", words))


def is_accounted(functions, batch, told):
    """Whether each function that no edit is in is proved, or not for what it calls: a proof by hand may name another function's."""
    edited = {it.function for it in batch.values()}
    leading = {functions.symbol(it) for it in functions.source.functions if it in edited or functions.reached(it) & edited}
    inside = tuple(functions.closures(it) for it in edited)
    others = [words for name, words in told.items() if not name.startswith(inside) and not (name in leading and is_led_on(words))]
    return all(words.startswith("proved") or is_called(words) for words in others)


def refused(functions, batch, said):
    """What a check of a batch says of the edits that it refuses at their own functions, by the edit's file: one thing that it tells there."""
    told = dict(re.findall(r"^fn (\S+): (.*)$", said, re.M))
    edited = {functions.symbol(it.function) for it in batch.values()}
    if not is_accounted(functions, batch, {name: words for name, words in told.items() if name not in edited}):
        return {}
    goals = [(it[0], it[1], int(it[2])) for it in re.findall(rf"^({GOAL}.*)$", said, re.M)]
    found = {}
    for file, edit in batch.items():
        words, lines = told.get(functions.symbol(edit.function), ""), functions.lines(edit.function)
        own, answers = [goal for goal, path, line in goals if path == edit.path and line in lines], functions.answers(edit.function)
        own += [it for it in said.split("\n") if answers and re.match(answers, it)]
        if own and re.match("not proved|no proof", words) and not re.search(CALLS, words):
            found[file] = own[0]
    return found


def is_verdict(rt, ran, texts):
    """Whether a check came to its end, and read all that was edited: its verdict is that the crate is not proved."""
    lines = ran.stdout.rstrip("\n").split("\n")
    is_read = not rt.rtlib.STALE.search(ran.stdout) and not any(rt.unread(it, texts) for it in lines)
    return ran.returncode == 1 and lines[-1].startswith("logic=not-proved") and is_read
