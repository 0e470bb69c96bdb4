"""The fixed generator that chooses the calls of the long runs, so that they come out the same everywhere."""


class Chooser:
    """A linear congruential generator with the constants of Knuth's MMIX; the upper bits choose."""

    def __init__(self, seed):
        self.state = seed

    def below(self, n):
        self.state = (self.state * 6364136223846793005 + 1442695040888963407) % 2**64
        return (self.state >> 33) % n

    def among(self, usual, seldom):
        members = seldom if self.below(14) == 0 else usual
        return members[self.below(len(members))]
