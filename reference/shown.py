"""How the programs show a call with what it answered."""
from diners import Refused

NAMES = {1: "NoSuchDrinker", 3: "WrongState", 10: "BadEnds", 18: "NothingSuchToCarry", 19: "ChannelFull"}


def show(call, run, granted):
    try:
        answer = run()
        print(f"  {call}: {granted(answer)}")
    except Refused as refused:
        print(f"  {call}: refused with {refused.number} ({NAMES[refused.number]})")
