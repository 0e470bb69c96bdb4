#!/usr/bin/env python3
"""Prints what the program `walkthrough` has to print. Run it as: python3 reference/walkthrough.py > crates/walkthrough/stdout"""
from diners import ForkDiner, Graph, QueueDiner
from shown import show


def show_eating(diner):
    print("  eating now:" + "".join(f" {p}" for p in sorted(diner.is_eating)))


def serve_all(diner, order):
    print(f"  cap {diner.cap}")
    for p in order + [0, diner.drinkers]:
        show(f"hungry {p}", lambda: diner.hungry(p), lambda _: "granted")
    diner.turn()
    show_eating(diner)
    show("done 4", lambda: diner.done(4), lambda _: "granted")
    while diner.is_eating:
        p = min(diner.is_eating)
        show(f"done {p}", lambda: diner.done(p), lambda _: "granted")
        diner.turn()
        show_eating(diner)


graph = Graph(5)
print("a graph of five drinkers")
for u, v in [(0, 1), (1, 2), (2, 3), (3, 4), (1, 2), (4, 0), (0, 4)]:
    show(f"join {u} {v}", lambda: graph.join(u, v), lambda bottle: f"bottle {bottle}")
for p in range(graph.drinkers):
    print(f"  drinker {p} shares" + "".join(f" {b}" for b in graph.shared_by(p)))
for name, diner in [("fork", ForkDiner(graph)), ("queue", QueueDiner(graph))]:
    print(f"the {name} diner")
    serve_all(diner, [3, 1, 4, 0, 2])
