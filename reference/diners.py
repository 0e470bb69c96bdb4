"""The graph and the two diners, written from docs/RULES.md alone and in another way than the library: as sets and lists."""


class Refused(Exception):
    def __init__(self, number):
        super().__init__(number)
        self.number = number


class Graph:
    def __init__(self, drinkers):
        if not 1 <= drinkers <= 16:
            raise Refused(11)
        self.drinkers = drinkers
        self.ends = []

    def join(self, u, v):
        if len(self.ends) == 32:
            raise Refused(11)
        if not u < v < self.drinkers or (u, v) in self.ends:
            raise Refused(10)
        self.ends.append((u, v))
        return len(self.ends) - 1

    def shared_by(self, p):
        return [b for b, ends in enumerate(self.ends) if p in ends]

    def neighbours(self, p):
        return {q for ends in self.ends if p in ends for q in ends if q != p}


class Diner:
    """What both diners have in common: who is hungry, who eats, and when a call is refused."""

    def __init__(self, graph):
        self.drinkers = graph.drinkers
        self.near = [graph.neighbours(p) for p in range(graph.drinkers)]
        self.is_hungry = set()
        self.is_eating = set()

    def check(self, p, allowed):
        if p >= self.drinkers:
            raise Refused(1)
        if not allowed(p):
            raise Refused(3)

    def hungry(self, p):
        self.check(p, lambda q: q not in self.is_hungry | self.is_eating)
        self.is_hungry.add(p)
        self.joins(p)

    def done(self, p):
        self.check(p, lambda q: q in self.is_eating)
        self.is_eating.remove(p)
        self.leaves(p)

    def feed(self, p):
        self.is_hungry.remove(p)
        self.is_eating.add(p)


class ForkDiner(Diner):
    """`first` holds, for each pair of neighbours, the one that precedes."""

    def __init__(self, graph):
        super().__init__(graph)
        self.cap = graph.drinkers + 2 * len(graph.ends)
        self.first = {frozenset(ends): min(ends) for ends in graph.ends}

    def joins(self, p):
        pass

    def leaves(self, p):
        for q in self.near[p]:
            self.first[frozenset((p, q))] = q

    def turn(self):
        for p in range(self.drinkers):
            if p not in self.is_hungry or self.near[p] & self.is_eating:
                continue
            if not any(self.first[frozenset((p, q))] == q for q in self.near[p] & self.is_hungry):
                self.feed(p)


class QueueDiner(Diner):
    """`queue` holds the hungry and the eating, the earliest first."""

    def __init__(self, graph):
        super().__init__(graph)
        self.cap = graph.drinkers - 1
        self.queue = []

    def joins(self, p):
        self.queue.append(p)

    def leaves(self, p):
        self.queue.remove(p)

    def turn(self):
        for place, p in enumerate(self.queue):
            if p in self.is_hungry and not self.near[p] & set(self.queue[:place]):
                self.feed(p)
