#!/usr/bin/env python3
"""Makes the input of the program `diner_runs`, or what it has to print:

    python3 reference/diner_runs.py input > crates/diner_runs/stdin
    python3 reference/diner_runs.py output > crates/diner_runs/stdout

The calls are chosen by a fixed generator, so that both come out the same everywhere.
"""
import sys

from chooser import Chooser
from diners import ForkDiner, Graph, QueueDiner, Refused

GRAPHS = 24
CALLS = 60


def lines():
    choose = Chooser(2026)
    for case in range(GRAPHS):
        drinkers = [0, 17, 1, 2, 16][case] if case < 5 else 2 + choose.below(15)
        yield f"graph {drinkers}"
        for _ in range([5, 20, 60, 120][choose.below(4)]):
            u = choose.below(drinkers + 1)
            yield f"join {u} {u + choose.below(9)}"
        for _ in range(CALLS):
            kind = choose.below(5)
            p = choose.below(drinkers + 1)
            yield "turn" if kind == 0 else f"done {p}" if kind < 3 else f"hungry {p}"


def phases(diner):
    return "".join("h" if p in diner.is_hungry else "e" if p in diner.is_eating else "t" for p in range(diner.drinkers))


def code(call, *arguments):
    try:
        call(*arguments)
        return 0
    except Refused as refused:
        return refused.number


def output():
    graph = Graph(1)
    both = [ForkDiner(graph), QueueDiner(graph)]
    for line in lines():
        call, *numbers = line.split(" ")
        numbers = [int(n) for n in numbers]
        try:
            if call == "graph":
                graph = Graph(*numbers)
                yield f"graph of {graph.drinkers}"
            elif call == "join":
                yield f"bottle {graph.join(*numbers)}"
        except Refused as refused:
            yield f"refused {refused.number}"
            continue
        if call in ("graph", "join"):
            both = [ForkDiner(graph), QueueDiner(graph)]
            continue
        codes = [code(getattr(diner, call), *numbers) for diner in both]
        yield " ".join(str(c) for c in codes) + "".join(" " + phases(diner) for diner in both)


print("\n".join(lines() if sys.argv[1:] == ["input"] else output()))
