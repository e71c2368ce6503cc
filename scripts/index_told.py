"""Parts of scripts/index_test that tell an index a few messages."""
import contextlib
import os
import sqlite3
import subprocess

from bser_messages import message
from index_file import PROGRAMS, Index

FIRST = {b"src/a", b"\xff\xfe"}  # what an index is told at first


def clock(tick):
    return f"c:1:1:1:{tick}"


def told(tick, fresh, names, exists=True, **more):
    """A message of one server at this tick, that tells whether these names exist."""
    row = {"exists": exists, "size": 1, "mtime_ms": 1000, "mode": 0o100644, "type": "f"}
    files = [{"name": name, **row} for name in names]
    fields = {"version": "4.9.0", "clock": clock(tick), "is_fresh_instance": fresh}
    return message({**fields, "files": files, **more})


def event(since, tick, *names):
    """A message of a subscription, which tells what changed since a tick."""
    subscribed = {"subscription": "live", "unilateral": True, "root": "/r"}
    return told(tick, False, names, since=clock(since), **subscribed)


def made(folder):
    """An index that was told all files."""
    index = Index(os.path.join(folder, "index.db")).init("/r")
    index.add(told(1, True, FIRST))
    return index


def not_made(folder, *messages):
    """An index that `init` did not make, the status of adding these messages, and its names."""
    index = Index(os.path.join(folder, "index.db"))
    status, _report = index.add(b"".join(messages))
    names = index.names() if os.path.exists(index.path) else set()
    return status, names


def empty_answer(part, folder):
    """A fresh answer without files says that all is gone, though none may have been asked for."""
    status, names = not_made(folder, told(1, True, FIRST), told(2, True, ()))
    part.check(status == 1 and names in (FIRST, set()), f"status {status}, {names}")


def gap(part, folder):
    """A subscription's message that begins behind the last clock is no message to take."""
    status, names = not_made(folder, told(1, True, (b"src/a",)), event(7, 9, b"\xff\xfe"))
    part.check(status == 1 and b"\xff\xfe" not in names, f"status {status}, {names}")


def clock_before(part, folder):
    """`changes` since a clock without files, that lies before the last one, leaves nothing out."""
    index = made(folder)
    alone = message({"version": "4.9.0", "clock": clock(10)})
    index.add(told(12, False, (b"b\xff",)) + alone)
    changed = index.changed(clock(10))
    part.check(b"b\xff" in changed, f"{changed} are said to have changed")


def gap_filled(part, folder):
    """Behind a gap nothing is taken until an answer fills it; what it tells is not told again."""
    index = made(folder)
    status, report = index.add(event(3, 5, b"c") + event(5, 7, b"d"))
    is_named = clock(1) in report and clock(3) in report
    part.check(status == 1 and is_named and index.names() == FIRST, f"status {status}, {report}")
    filled = told(6, False, (b"b", b"c")) + event(3, 5, b"c") + event(6, 7, b"d")
    status, report = index.add(event(3, 5, b"c") + filled, "--recording")
    is_all = index.names() == FIRST | {b"b", b"c", b"d"}
    is_counted = "told before 1, gaps 1," in report
    part.check(status == 0 and is_all and is_counted, f"status {status}, {report}, {index.names()}")
    status, report = index.add(event(7, 8, b"e"))
    is_there = b"e" in index.names()
    part.check(status == 1 and is_there, f"the end of a subscription: status {status}, {report}")


def cursor(part, folder):
    """A cursor moves behind what was printed, and only once the output was taken."""
    index = made(folder)
    words = ["--cursor", "seen"]
    part.check(index.changes(*words) == FIRST, "all files, at first")
    part.check(index.changes(*words) == set(), "nothing behind it")
    index.add(told(2, False, (b"b",)))
    command = [PROGRAMS["bser_index"], "changes", index.path, *words]
    with open("/dev/full", "wb") as full:
        done = subprocess.run(command, stdout=full, stderr=subprocess.PIPE, check=False)
    part.check(done.returncode == 1, f"a full device: status {done.returncode}")
    part.check(index.changes(*words) == {b"b"}, "what was not taken")


def pruned(part, folder):
    """What was deleted before a clock is forgotten, and so are the clocks before it."""
    index = made(folder)
    index.add(told(2, False, (b"b",)) + told(3, False, (b"\xff\xfe",), exists=False))
    index.add(told(4, False, (b"c",)))
    index.run("prune", index.path, "--before", clock(3))
    kept = {b"src/a", b"b", b"c"}
    part.check(index.names("--all") == kept, f"what is kept: {index.names('--all')}")
    part.check(index.changed(clock(3)) == {b"c"}, "changes since the clock")
    part.check(index.changed(clock(1)) == kept, "changes since a clock before it")


def locked(part, folder):
    """Where another program writes, a question is answered, and `add` waits and says why."""
    index = made(folder)
    with contextlib.closing(sqlite3.connect(index.path, isolation_level=None)) as conn:
        conn.execute("BEGIN IMMEDIATE")
        part.check(index.names() == FIRST, "a question is not answered")
        status, report = index.add(told(2, False, (b"b",)), "--wait", "1")
        part.check(status == 1 and "another program" in report, f"status {status}, {report}")
    status, report = index.add(told(2, False, (b"b",)))
    part.check(status == 0 and b"b" in index.names(), f"status {status}, {report}")


TOLD = {
    "empty-without-init": empty_answer,
    "gap-without-init": gap,
    "clock-before": clock_before,
    "gap-filled": gap_filled,
    "cursor": cursor,
    "pruned": pruned,
    "locked": locked,
}
