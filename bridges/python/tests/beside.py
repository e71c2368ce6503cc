"""Compares the package with pywatchman's own module on messages.

Arguments: a file with the names of messages; and `--speed` to print times instead.
"""

import gc
import sys
import time
from statistics import geometric_mean

import kuvtsada_bser as ours
from pywatchman import bser as theirs
from recorded import messages


def check(name, message):
    value = theirs.loads(message, True)
    pairs = [
        (theirs.loads(message, True), ours.loads(message, True)),
        (theirs.loads(message), ours.loads(message)),
        (theirs.loads(message, True, "utf-8", "surrogateescape"),
         ours.loads(message, True, "utf-8", "surrogateescape")),
        (theirs.dumps(value), ours.dumps(value)),
        (theirs.dumps(value, 2, 0), ours.dumps(value, 2, 0)),
        (theirs.dumps(value, version=2, capabilities=3), ours.dumps(value, version=2, capabilities=3)),
        (theirs.pdu_len(message), ours.pdu_len(message)),
        (theirs.pdu_len(message), ours.pdu_len(message[:15])),
        (theirs.pdu_info(message)[::2], ours.pdu_info(message)[::2]),
    ]
    first = theirs.dumps(value)
    pairs.append((theirs.loads(first), ours.loads(first)))
    pairs.append((theirs.pdu_info(first), ours.pdu_info(first)))
    for number, (one, other) in enumerate(pairs):
        if repr(one) != repr(other):
            sys.exit(f"{name}: {number}: {one!r:.200} and {other!r:.200}")


def best(calls, argument, times):
    """The least microseconds that each call took, in turns."""
    least = [None] * len(calls)
    for _ in range(75):
        for at, call in enumerate(calls):
            start = time.perf_counter()
            for _ in range(times):
                call(argument)
            took = (time.perf_counter() - start) / times * 1e6
            least[at] = took if least[at] is None else min(least[at], took)
    return least


def show_speed(name, message):
    """Prints the times of a message, and answers their ratios."""
    times = max(1, 100_000 // len(message))
    a, b = best([theirs.loads, ours.loads], message, times)
    c, d = best([theirs.dumps, ours.dumps], theirs.loads(message), times)
    print(f"{name.rsplit('/', 1)[-1]} {len(message)} bytes: loads {a:.3g} us pywatchman, {b:.3g} here "
          f"({b / a:.2f}); dumps {c:.3g} us pywatchman, {d:.3g} here ({d / c:.2f})")
    return b / a, d / c


def main(names, *rest):
    gc.disable()
    if "--speed" not in rest:
        count = 0
        for name, message in messages(names):
            check(name, message)
            count += 1
        print(f"{count} messages the same")
        return
    ratios = [show_speed(name, message) for name, message in messages(names)]
    for call, of_call in zip(("loads", "dumps"), zip(*ratios)):
        print(f"{call}: {geometric_mean(of_call):.2f} over {len(of_call)} messages, {max(of_call):.2f} at most")


main(*sys.argv[1:])
