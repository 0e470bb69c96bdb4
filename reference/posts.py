"""The wires and the posts, written from docs/RULES.md alone and in another way than the library: with dicts and growing lists."""
from collections import defaultdict, deque

from diners import Refused


def check_pattern(text):
    """Answers the longest run of 1. Written down twice, the pattern shows the run round its end too."""
    if not 1 <= len(text) <= 64 or not set(text) <= {"0", "1"} or "0" not in text:
        raise Refused(9)
    bound = max(len(run) for run in (text + text).split("0"))
    if bound > 7:
        raise Refused(9)
    return bound


class Wire:
    """What both wires have in common: which frames and lines there are. A wire tells what it `loses`."""

    def check(self, line):
        if line not in range(128):
            raise Refused(18)

    def carry(self, line, frame):
        self.check(line)
        if frame[0] not in (0, 1) or frame[1] not in (0, 1, 2):
            raise Refused(18)
        return None if self.loses(line) else frame


class FaultlessWire(Wire):
    bound = 0

    def loses(self, line):
        return False


class PatternWire(Wire):
    """`turned` holds, for each line, the pattern turned so that the digit at the line's place is the first."""

    def __init__(self, text):
        try:
            self.bound = check_pattern(text)
        except Refused:
            self.bound, text = 0, "0"
        self.turned = defaultdict(lambda: deque(text))

    def loses_next(self, line):
        self.check(line)
        return self.turned[line][0] == "1"

    def loses(self, line):
        lost = self.loses_next(line)
        self.turned[line].rotate(-1)
        return lost


class Post:
    """What both posts have in common: when a call is refused. A post keeps, by number, what is `within` a channel."""

    channels = 64

    def check(self, c):
        if c not in range(self.channels):
            raise Refused(18)

    def waiting(self, c):
        self.check(c)
        return len(self.within[c].waits())

    def put(self, c, m):
        if m not in (1, 2):
            raise Refused(18)
        if self.waiting(c) == 2:
            raise Refused(19)
        self.within[c].outgoing.append(m)

    def take(self, c):
        self.check(c)
        arrived = self.within[c].arrived
        return arrived.pop(0) if arrived else None


class Pipe:
    """A channel in which what goes out has arrived at once."""

    def __init__(self):
        self.outgoing = self.arrived = []

    def waits(self):
        return self.arrived


class QueuePost(Post):
    lag = 1

    def __init__(self):
        self.within = defaultdict(Pipe)

    def tick(self):
        pass


class Ends:
    """The two ends of a channel. The bits differ exactly while the first outgoing message has arrived."""

    def __init__(self):
        self.outgoing, self.bit = [], 0
        self.arrived, self.expected = [], 0

    def waits(self):
        return self.arrived + (self.outgoing if self.bit == self.expected else self.outgoing[1:])


class AlternatingPost(Post):
    def __init__(self, wire):
        self.wire = wire
        self.lag = (wire.bound + 1) * (wire.bound + 2)
        self.within = defaultdict(Ends)

    def tick(self):
        for c, ends in sorted(self.within.items()):
            frame = self.wire.carry(2 * c, (ends.bit, ends.outgoing[0])) if ends.outgoing else None
            if frame is None:
                continue
            bit, message = frame
            if bit == ends.expected:
                ends.arrived.append(message)
                ends.expected = 1 - ends.expected
            if self.wire.carry(2 * c + 1, (bit, 0)) is not None:
                ends.outgoing.pop(0)
                ends.bit = 1 - ends.bit
