"""Parts of scripts/live_test that each look for one fault of a follower, an index or a client."""
import itertools
import json
import os
import shutil
import subprocess
import time

from beside_watchman import Connection, Follower, Place, Proxy, Recorder, beside, started
from bser_messages import decoded, messages
from index_file import FIELDS, PROGRAMS
from parts import Failure

WAIT = 30  # seconds that a program may take, beside load, to see what it waits for
SUFFIX = ["suffix", "txt"]
EXPRESSIONS = {
    "suffix": SUFFIX,
    "type": ["type", "f"],
    "size": ["size", "gt", 100],
    "exists": "exists",
    "empty": ["not", ["empty"]],
    "all of": ["allof", ["type", "f"], ["not", SUFFIX]],
}


def dropped(part, where):
    """Each third message of a subscription is dropped, and `add` takes the next one."""
    place = Place(where)
    index = place.index("index")
    place.update(index)
    place.folder.write(b"in the first message \xff", 1)
    seen = []

    def but_each_third(one):
        if b"subscription" in one and b"files" in one:
            seen.append(one)
            return [one] if len(seen) % 3 else []
        return [one]

    proxy = Proxy(os.path.join(where, "proxy"), place.server, lambda: but_each_third)
    connection = Connection(proxy.path)
    connection.send(*json.loads(index.run("request", "--subscribe=live", index.path)))
    for number in range(9):
        until(lambda: len(seen) > number)
        place.folder.write(b"%d \xff" % number, 1)
    until(lambda: len(seen) > 9)
    connection.end()
    status, errors = index.add(b"".join(iter(connection.receive, None)))
    differ = place.differing(index)
    is_told = status == 1 and errors.count("c:") >= 2
    part.check(is_told or not differ, f"status {status}, {len(differ)} names differ, {errors!r}")
    place.update(index)
    differ = place.differing(index)
    part.check(not differ, f"behind an answer {len(differ)} names differ")
    part.figure(f"{len(seen) // 3} messages dropped")


def until(holds):
    """Waits until it holds, a while at most."""
    end = time.time() + WAIT
    while not holds() and time.time() < end:
        time.sleep(0.02)


def late(part, where):
    """An answer comes late, behind one that tells what was done since."""
    place = Place(where)
    index = place.index("index")
    answer = place.answer(index)
    for name in b"a", b"\xff\xfe":
        os.remove(place.folder.at(name))
        place.update(index)
        index.add(answer)
        differ = place.differing(index)
        part.check(not differ, f"behind a late answer {len(differ)} names differ")


def aged_out(part, where):
    """The server ages out a deleted file, and answers freshly, with files that were changed."""
    place = Place(where, config={"gc_age_seconds": 1, "gc_interval_seconds": 1})
    kept = {"name": ("name",), "mode": ("mode",), "all fields": FIELDS}
    indexes = {name: place.index(name, fields=fields) for name, fields in kept.items()}
    for index in indexes.values():
        place.update(index)
    clocks = {name: index.clock() for name, index in indexes.items()}
    place.folder.write(b"a", 20)
    place.folder.replace(place.folder.at(b"\xff\xfe"))
    os.remove(place.folder.at(b"c"))
    until(lambda: place.names(since=clocks["name"])[0])
    for name, index in indexes.items():
        place.update(index)
        missing = {b"a", b"\xff\xfe"} - index.changed(clocks[name])
        part.check(not missing, f"an index of {name}: changes leaves out {sorted(missing)}")


# ---- the end is told


def ends(part, where, end):
    """A follower ends by itself, with a status of its own, behind what ends what it follows."""
    place = Place(where)
    index = place.index("index")
    follower = Follower(place.server.socket, index)
    until(lambda: follower.times("follows since"))
    place.folder.write(b"\xff", 1)
    until(lambda: b"\xff" in index.rows())
    begin = time.time()
    end(place)
    status = follower.status(WAIT)
    follower.end()
    says = any(at > begin for at, _line in follower.said)
    part.check(status == 1 and says, f"status {status}, {follower.text()!r}")


def watch_deleted(part, where):
    ends(part, where, lambda place: place.server.ask("watch-del", place.root))


def root_removed(part, where):
    def remove(place):
        shutil.rmtree(place.folder.project)
        time.sleep(1)
        place.folder.make()

    ends(part, where, remove)


def server_killed(part, where):
    ends(part, where, lambda place: place.server.kill())


def client_told_the_end(part, where):
    """`example_client`, whose streams are the socket, says that the server ends."""
    place = Place(where)
    connection = Connection(place.server.socket).socket
    words = [PROGRAMS["example_client"], place.folder.path]
    streams = {"stdin": connection.fileno(), "stdout": connection.fileno()}
    client = started(words, **streams, stderr=subprocess.PIPE)
    time.sleep(1)
    place.folder.write(b"\xff", 1)
    time.sleep(0.5)
    place.server.kill()
    connection.close()
    try:
        _output, errors = client.communicate(timeout=WAIT)
    except subprocess.TimeoutExpired:
        client.kill()
        _output, errors = client.communicate()
    lines = errors.decode(errors="replace").splitlines()
    part.check(client.returncode > 0, f"status {client.returncode}, {lines[-1:]}")


def index_made_anew(part, where):
    """A follower whose index is removed makes no other. It adds nothing to one of another folder that
    was put in its place."""
    place = Place(where)
    place.folder.write(os.path.join(place.folder.project, b"beside/file"), 1)
    for relative in None, "beside":
        index = place.index(relative or "removed")
        follower = Follower(place.server.socket, index)
        until(lambda: follower.times("follows since"))
        for path in index.path, index.path + "-wal":
            os.remove(path)
        if relative:
            index.init(place.root, relative)
            place.update(index)
        place.folder.write(b"%d \xff" % bool(relative), 1)
        status = follower.status(WAIT)
        follower.end()
        found = index.names() if os.path.exists(index.path) else None
        wanted = place.names(relative_root=relative)[1] if relative else None
        what = f"status {status}, {found} for {wanted}, {follower.text()!r}"
        part.check(status == 1 and found == wanted, what)


# ---- others


def busy_start(part, where):
    """Followers of a folder in which files come and go, while another client asks queries."""
    place = Place(where)
    with beside(lambda stop: come_and_go(place, stop), place.ask_others):
        followed = [start_busy(place, f"index{number}") for number in range(3)]
        time.sleep(1)
        statuses = [follower.status() for _index, follower in followed]
    for (index, follower), status in zip(followed, statuses):
        differ = place.differing(index, WAIT)
        follower.end()
        what = f"status {status}, {len(differ)} names differ, {follower.text()}"
        part.check(status is None and not differ, what)


def start_busy(place, name):
    """A new index, and a follower of it."""
    index = place.index(name)
    place.update(index)
    follower = Follower(place.server.socket, index)
    time.sleep(1)
    return index, follower


def come_and_go(place, stop):
    """Makes and removes files until it is to stop, 20 changes a second."""
    for number in itertools.count():
        name = place.folder.at(b"%d \xff" % (number % 100))
        os.remove(name) if os.path.exists(name) else place.folder.write(name, 1)
        if stop.wait(0.05):
            return


def state_clock(part, where):
    """A follower keeps the clock of a state that begins, with which no file comes."""
    place = Place(where)
    index = place.index("index")
    follower = Follower(place.server.socket, index)
    until(lambda: follower.times("follows since"))
    other = Connection(place.server.socket)
    other.ask("subscribe", place.root, "other", {"fields": ["name"]})
    other.send("state-enter", place.root, "build")
    told = {}
    while told.get("state-enter") != b"build" or "clock" not in told:
        told = decoded(other.receive())
    words = ["changes", "--since", told["clock"].decode(), index.path]
    until(lambda: b"fresh instance" not in index.tried(*words).stdout)
    done = index.tried(*words)
    other.close()
    follower.end()
    part.check(done.stdout.count(b"\n") == 1, f"{done.stdout!r}, {follower.text()!r}")


def expressions(part, where):
    """An expression that looks at more than names, by which files leave the set without a word."""
    place = Place(where)
    for name in b"c", b"\xff.txt":
        place.folder.write(name, 2000)
    indexes = {}
    for name, expression in EXPRESSIONS.items():
        try:
            indexes[name] = place.index(name, expression=expression)
            place.update(indexes[name])
        except Failure as refusal:
            part.check("looks at more than" in str(refusal), str(refusal))
    os.remove(place.folder.at(b"a"))
    os.mkdir(place.folder.at(b"a"))
    os.remove(place.folder.at(b"c"))
    os.truncate(place.folder.at(b"b"), 0)
    time.sleep(0.5)
    for name, index in indexes.items():
        place.update(index)
        _fresh, wanted = place.names(expression=EXPRESSIONS[name])
        differ = wanted ^ index.rows().keys()
        part.check(not differ, f"by {EXPRESSIONS[name]} {sorted(differ)} differ")


def version_1(part, where):
    """What `watchman` and the server send each other in version 1, and `bser` reads."""
    place = Place(where)
    proxy = Recorder(os.path.join(where, "proxy"), place.server)
    request = json.dumps(["query", place.root, {"fields": ["name"]}]).encode()
    subprocess.run(place.server.words("bser", proxy.path), input=request, capture_output=True)
    for stream in proxy.recorded[0]:
        done = subprocess.run([PROGRAMS["bser"], "json"], input=stream, capture_output=True)
        read = len(done.stdout.splitlines()) == len(messages(stream)[0])
        part.check(done.returncode == 0 and read, done.stderr.decode(errors="replace").strip())


FAULTS = {
    "dropped": dropped,
    "late": late,
    "aged-out": aged_out,
    "watch-deleted": watch_deleted,
    "root-removed": root_removed,
    "server-killed": server_killed,
    "made-anew": index_made_anew,
    "client-end": client_told_the_end,
    "busy-start": busy_start,
    "state-clock": state_clock,
    "expressions": expressions,
    "version-1": version_1,
}
