#!/usr/bin/env python3
"""Prints what the program `deliveries` has to print. Run it as: python3 reference/deliveries.py > crates/deliveries/stdout"""
from posts import AlternatingPost, PatternWire
from shown import show

MESSAGES = {None: "not yet", 1: "Bottle", 2: "Token"}


def next_tick(post):
    """What the next tick does on channel 0."""
    ends = post.within[0]
    if not ends.outgoing:
        return "nothing is sent"
    sent = f"{MESSAGES[ends.outgoing[0]]} with bit {ends.bit}"
    if post.wire.loses_next(0):
        return f"{sent}: lost"
    fate = "its acknowledgement is lost" if post.wire.loses_next(1) else "so does its acknowledgement"
    return f"{sent}: comes through, and {fate}"


print("two messages over a wire that loses two frames of three")
post = AlternatingPost(PatternWire("110"))
print(f"  lag {post.lag}")
for c, m in [(0, 1), (0, 2), (0, 2), (64, 1)]:
    show(f"put {c} {MESSAGES[m]}", lambda: post.put(c, m), lambda _: "granted")
for tick in range(1, post.lag + 1):
    print(f"  tick {tick}: {next_tick(post)}")
    post.tick()
    show("take 0", lambda: post.take(0), lambda m: MESSAGES[m])
