"""The receiver's window as its log tells it: the next place to play, the highest place, and what is missing between them."""


class Window:
    """Places here are the receiver's own."""

    def __init__(self):
        self.cursor = None
        self.highest = None
        self.missing = {}  # each missing place, with the moment at which it was noticed

    def begin(self, place):
        """It begins before any packet came: the first one is missing until it does."""
        self.cursor, self.highest, self.missing = place, place - 1, {}

    def take(self, moment, place, overrun):
        """A place was taken. Answers the moment at which it was noticed to be missing, or None, and the places overrun."""
        if self.highest is None:
            self.begin(place)
        noticed = self.missing.pop(place, None)
        dropped = range(self.cursor, self.cursor + overrun)
        self.pass_by(self.cursor + overrun)
        for lost in range(max(self.highest + 1, self.cursor), place):
            self.missing[lost] = moment
        self.highest = max(self.highest, place)
        return noticed, dropped

    def pass_by(self, cursor):
        """The cursor rises, by a play, a gap or an overrun."""
        self.cursor = max(self.cursor or 0, cursor)
        for place in [place for place in self.missing if place < self.cursor]:
            del self.missing[place]

    def size(self):
        """How many places it spans from the next one to play to the highest, and how many of them are missing."""
        if self.highest is None:
            return 0, 0
        return max(self.highest + 1 - self.cursor, 0), len(self.missing)
