#!/usr/bin/env python3
"""Makes the input of the program `post_runs`, or what it has to print:

    python3 reference/post_runs.py input > crates/post_runs/stdin
    python3 reference/post_runs.py output > crates/post_runs/stdout

The calls are chosen by a fixed generator, so that both come out the same everywhere.
"""
import sys

from chooser import Chooser
from diners import Refused
from posts import AlternatingPost, FaultlessWire, PatternWire, QueuePost, check_pattern

TELLING = [
    "0", "1", "101", "10", "01", "110", "11111110", "111111110", "11110111", "111101111", "", "1x0", "20",
    "1110010" * 9 + "0", "10" * 32 + "1", "1111" + "0" * 57 + "111", "1111" + "0" * 56 + "1111",
]
PATTERNS = 40
CALLS = 88
BEYOND = 2**32 - 1


def pattern(choose):
    length = 1 + choose.below([10, 30, 64][choose.below(3)])
    ones = 3 + choose.below(3)
    return "".join("1" if choose.below(8) < ones else "0" for _ in range(length))


def sweep(text):
    """Once round the pattern on a line, and two messages through a channel, looking for them after each tick."""
    yield from ["carry 127 1 2"] * (len(text) + 2)
    yield from ["put 5 1", "put 5 2"]
    yield from ["tick", "take 5"] * AlternatingPost(PatternWire(text)).lag


def calls(choose, text):
    """Calls without end. One channel is busier than the others, and ticks come in bursts where many frames are lost in a row."""
    busy = [0, 1, 31, 63][choose.below(4)]
    burst = 1 + PatternWire(text).bound // 3
    while True:
        kind = choose.below(20)
        channel = choose.among([0, 1, 31, 63, busy, busy, busy, busy], [64, BEYOND])
        if kind < 2:
            line = choose.among([0, 1, 5, 127], [128, BEYOND])
            yield f"carry {line} {choose.among([0, 1], [2])} {choose.among([0, 1, 2], [3])}"
        elif kind < 7:
            yield f"put {channel} {choose.among([1, 2], [0, 3])}"
        elif kind < 13:
            yield f"take {channel}"
        elif kind < 14:
            yield f"waiting {channel}"
        else:
            yield from ["tick"] * (1 + choose.below(burst))


def lines():
    choose = Chooser(2027)
    for case in range(PATTERNS):
        text = TELLING[case] if case < len(TELLING) else pattern(choose)
        yield f"pattern {text}"
        if case < len(TELLING):
            yield from sweep(text)
        chosen = calls(choose, text)
        for _ in range(CALLS):
            yield next(chosen)


def answer(call, *arguments):
    try:
        return call(*arguments) or 0
    except Refused as refused:
        return refused.number


def output():
    for line in lines():
        call, *words = line.split(" ")
        if call == "pattern":
            text = words[0]
            wire = PatternWire(text)
            posts = [QueuePost(), AlternatingPost(FaultlessWire()), AlternatingPost(PatternWire(text))]
            lags = " ".join(str(post.lag) for post in posts)
            try:
                yield f"bound {check_pattern(text)} lag {lags}"
            except Refused as refused:
                yield f"refused {refused.number} lag {lags}"
            continue
        numbers = [int(word) for word in words]
        if call == "carry":
            line, *frame = numbers
            try:
                yield "lost" if wire.carry(line, tuple(frame)) is None else "carried"
            except Refused as refused:
                yield f"refused {refused.number}"
            continue
        answers = [answer(getattr(post, call), *numbers) for post in posts]
        yield call if call == "tick" else " ".join(str(a) for a in answers)


print("\n".join(lines() if sys.argv[1:] == ["input"] else output()))
