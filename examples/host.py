"""A small host: examples/host.c in Python, with the same commands, the same answers and the same file, also beside it.

    PYTHONPATH=PREFIX/share/moonhalyard/python python3 host.py FILE load|post|offers|step|run|collect|tally|orders ..
"""

import sys
from typing import List

import moonhalyard
from moonhalyard import Refused, Step

ENDS = {"none": "", "well": ", the order ended well", "handled": ", the order ended handled", "failed": ", the order failed", "left": ", the order left"}
# For each command how many numbers it takes, at least and at most.
TAKES = {"post": (3, 1024), "offers": (0, 0), "step": (1, 1), "run": (1, 1024), "collect": (0, 0), "tally": (0, 0), "orders": (0, 0)}


def told(step: Step) -> str:
    fault = ", fault %d" % step.fault if step.end in ("handled", "failed") else ""
    return "slot %d, activity %d, message place %d%s%s" % (step.slot, step.activity, step.place, ENDS[step.end], fault)


def load(name: str, plan_name: str) -> int:
    try:
        with open(plan_name, "rb") as file:
            plan = moonhalyard.text(file.read())
    except OSError:
        print("load: cannot read %s" % plan_name)
        return 1
    except Refused as refused:
        print("load: %s, line %d: %s" % (plan_name, refused.place, moonhalyard.says(refused.number)))
        return 1
    with moonhalyard.kept(name, plan, fresh=True):
        print("load: a plan of %d bytes" % len(plan))
    return 0


def done(state: moonhalyard.State, word: str, numbers: List[int], replies: bool) -> None:
    if word == "post":
        state.post(*numbers[: len(numbers) - replies], reply=numbers[-1] if replies else 0)
        print("post: it waits")
    elif word == "offers":
        offers = state.offers()
        print("offers: %d, %s" % (offers.many, "something is held" if offers.held else "nothing is held"))
        for choice in range(offers.many):
            print("  offered: " + told(state.offer(choice)))
    elif word == "step":
        print("step: " + told(state.step(numbers[0])))
    elif word == "run":
        ran = state.run(numbers[1:], numbers[0])
        print("run: %d steps, refusal %d, %d left of the budget" % (ran.taken, ran.refusal, numbers[0] - ran.taken))
    elif word == "collect":
        message = state.collect()
        if message is None:
            raise Refused(15)
        values = " ".join(map(str, message.values))
        print("collect: to partner %d, operation %d: %s, reply to partner %d" % (message.partner, message.operation, values, message.reply))
    elif word == "tally":
        print("tally: started %d, well %d, handled %d, failed %d, left %d" % state.tally)
    else:
        print("orders: %d messages wait" % len(state.waiting))
        for order in state.orders:
            print("  order %d:%s" % (order.slot, "".join(" v%d is %d" % v for v in order.variables.items())))
    # What was answered must have gone out before what it says becomes lasting.
    sys.stdout.flush()


def main(words: List[str]) -> int:
    if len(words) < 2:
        print("usage: host FILE load|post|offers|step|run|collect|tally|orders ..")
        return 2
    name, word, rest = words[0], words[1], words[2:]
    if word == "load" and len(rest) == 1:
        return load(name, rest[0])
    # The word before the last number is left out, and the number is the partner to reply to.
    replies = word == "post" and rest[-2:-1] == ["reply"]
    if replies:
        rest = rest[:-2] + rest[-1:]
    most = 2**32 - 1 if word == "post" else 2**64 - 1
    for digits in rest if word != "load" else []:
        if not (digits.isascii() and digits.isdigit() and int(digits) <= most):
            print("%s: '%s' is no number" % (word, digits))
            return 2
    try:
        with moonhalyard.kept(name) as state:
            least, most = TAKES.get(word, (1, 0))
            if not least <= len(rest) - replies <= most:
                print("%s: no such command, or not with so many numbers" % word)
                return 2
            done(state, word, [int(digits) for digits in rest], replies)
    except (moonhalyard.NoState, FileNotFoundError):
        print("%s: no state in %s" % (word, name))
        return 1
    except Refused as refused:
        print("%s: refused, %d: %s" % (word, refused.number, moonhalyard.says(refused.number)))
        return 1
    return 0


if __name__ == "__main__":
    sys.exit(main(sys.argv[1:]))
