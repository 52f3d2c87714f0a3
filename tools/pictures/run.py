"""A run: what happened to which place, and when. Readers of logs tell it what they read, and the drawing asks it."""
from pictures import nacks
from pictures.window import Window
from refusals import Refused

# What can happen to a place, in the order in which it is drawn and told.
KINDS = ("sent", "played", "asked", "retransmitted", "lost", "ask lost", "given up", "overrun")


class Run:
    """`shift` is what a sender's place is above the receiver's own of the same packet, a multiple of 65536."""

    def __init__(self, shift=0):
        self.shift = shift
        self.marks = {kind: [] for kind in KINDS}  # moments and places
        self.repairs = []  # moments, and how many milliseconds a repair took
        self.held = []  # moments, the places that the window spans, and the missing ones of them
        self.trips = []  # moments, and round-trip times
        self.counts = {}  # what has no place: refused datagrams and such
        self.repaired_by = "noticed missing → retransmission taken"
        self.window = Window()
        self.on_wire = {}  # the index of each datagram, with its kind and places
        self.first_sent = {}
        self.asked = set()
        self.last_played = None

    def mark(self, kind, moment, place):
        """Something happened to a place."""
        self.marks[kind].append((moment, place))

    def tally(self, word, many=1):
        """Something happened that has no place."""
        self.counts[word] = self.counts.get(word, 0) + many

    def leaves(self, where, index, kind, moment, found):
        """A datagram is on the wire."""
        if index in self.on_wire:
            raise Refused(where, f"the index {index} stands for a datagram already")
        self.on_wire[index] = (kind, moment, found)
        for place in found:
            self.mark(kind, moment, place)

    def sent(self, where, moment, place, index):
        """A content was sent for the first time."""
        self.first_sent[place] = moment
        self.leaves(where, index, "sent", moment, [place])

    def repair(self, where, moment, place, index):
        """A content was retransmitted."""
        self.leaves(where, index, "retransmitted", moment, [place])

    def ask(self, where, moment, index, datagram):
        """The receiver asked for places."""
        own = nacks.places(where, datagram, self.window.highest)
        self.asked.update(own)
        self.leaves(where, index, "asked", moment, [place + self.shift for place in own])

    def lost(self, where, index):
        """A datagram that is on the wire never arrived. It is drawn where it left."""
        if index not in self.on_wire:
            raise Refused(where, f"no datagram of the index {index} left before")
        kind, moment, found = self.on_wire[index]
        for place in found:
            self.mark("ask lost" if kind == "asked" else "lost", moment, place)

    def taken(self, moment, place, overrun, by_repair):
        """The receiver took a place; where a log can't tell a retransmission, what was asked for counts as one."""
        noticed, dropped = self.window.take(moment, place, overrun)
        for passed in dropped:
            self.mark("overrun", moment, passed + self.shift)
        if by_repair is None:
            by_repair = place in self.asked
            if by_repair and noticed is not None:
                self.mark("retransmitted", moment, place)
        if by_repair and noticed is not None:
            self.repairs.append((moment, moment - noticed))
        self.look(moment)

    def passes(self, where, moment, place, kind):
        """The receiver played a place, or gave it up."""
        if self.last_played is not None and place <= self.last_played:
            raise Refused(where, f"place {place} comes behind place {self.last_played}")
        self.last_played = place
        self.mark(kind, moment, place + self.shift)
        self.window.pass_by(place + 1)
        self.look(moment)

    def restarted(self, moment, place):
        """The stream restarted: what the window held is gone."""
        self.tally("restarted")
        self.window, self.last_played = Window(), None
        self.asked.clear()
        self.taken(moment, place, 0, False)

    def look(self, moment):
        """Notes what the window holds."""
        self.held.append((moment, *self.window.size()))
