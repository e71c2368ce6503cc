"""Parts of scripts/live_test that try followers on a machine that is loaded: what a server tells
them is dropped, repeated, late and cut, and servers and followers are killed."""
import collections
import contextlib
import os
import random
import signal
import sys
import time

from beside_watchman import Adding, Cut, Follower, Place, Proxy, beside, started

LATEST = 300  # seconds at most until an index has read a last change, beside load
CLOCKS = 50  # old clocks of each index that are compared
ROUND = 60  # seconds at most from a start of the server until the folder is quiet
KILLS = signal.SIGKILL, signal.SIGTERM
STARTS = 20
EACH = 0.5  # seconds between two of them
ALIVE = 8  # followers that are there at once, of those that start
AGES = {"gc_age_seconds": 4, "gc_interval_seconds": 2}
GAP = "a gap, from"
FRESH = "a fresh instance"
GOES_ON = "asks", "follows since", FRESH  # what a line says that is not the last
LATE = 0.6  # seconds by which an answer may come later
OVERLAP = 10  # seconds before a clock, whose changes a message may tell again


@contextlib.contextmanager
def load():
    """A busy process on each processor, beside a block."""
    busy = [started([sys.executable, "-c", "while True: pass"]) for _ in range(os.cpu_count())]
    try:
        yield
    finally:
        for process in busy:
            process.kill()
            process.wait()


class Adversary(Proxy):
    """Does not hand on what a server tells as the server told it, until it is honest. `seen` counts
    what it did."""

    def __init__(self, path, server, seed):
        self.chance, self.seen, self.is_honest = random.Random(seed), collections.Counter(), False
        super().__init__(path, server, self.new_hand)

    def new_hand(self):
        late = []

        def hand_on(one):
            held = late[:]
            late.clear()
            is_event = b"unilateral" in one
            self.seen["messages of subscriptions" if is_event else "answers"] += 1
            if self.is_honest:
                yield one
            else:
                yield from self.cut(one)
                yield from self.event(one, late) if is_event else self.delayed(one)
            yield from held

        return hand_on

    def cut(self, one):
        if self.chance.random() < 0.005:
            self.seen["cut"] += 1
            yield one[: self.chance.randrange(len(one))]
            raise Cut

    def delayed(self, one):
        if self.chance.random() < 0.05:
            self.seen["delayed"] += 1
            time.sleep(self.chance.random() / 2)
        yield one

    def event(self, one, late):
        """What the client gets in the place of a subscription's message."""
        way = self.chance.random()
        if way < 0.15:
            self.seen["dropped"] += 1
        elif way < 0.20:
            self.seen["late, behind the next"] += 1
            late.append(one)
        elif way < 0.25:
            self.seen["repeated"] += 1
            yield one
            yield one
        else:
            yield from self.delayed(one)


class Kept:
    """A follower that is started again where it ends."""

    def __init__(self, path, index, way):
        self.path, self.index, self.way = path, index, way
        self.past, self.wrong = [], []
        self.follower, self.is_killed = None, False

    def keep(self, stop):
        while not stop.is_set():
            self.is_killed = False
            try:
                self.follower = self.way(self.path, self.index)
            except OSError:  # the server is away
                stop.wait(0.2)
                continue
            while self.follower.status(0.1) is None:
                if stop.is_set():
                    self.is_killed = True
                    self.follower.end()
            self.past.append(self.follower)
            if not self.is_killed:
                self.check_end(self.follower)
            stop.wait(0.2)

    def check_end(self, follower):
        """It ends by itself with status 1, and says why."""
        says = follower.said and not any(what in follower.said[-1][1] for what in GOES_ON)
        if follower.status() != 1 or not says:
            self.wrong.append(f"a follower ended with {follower.status()}: {follower.text()}")

    def kill(self, how):
        if self.follower is not None:
            self.is_killed = True
            self.follower.process.send_signal(how)

    def times(self, what):
        followers = self.past + [self.follower] if self.follower else self.past
        return [at for follower in followers for at in follower.times(what)]


class Watched:
    """An index of the trial, what keeps it, and the clocks that it had."""

    def __init__(self, place, proxy, name, ways=(Follower,), pause=None, **words):
        self.place, self.name, self.expression = place, name, words.get("expression")
        self.index = place.index(name, **words)
        self.kept = [Kept(proxy.path, self.index, way) for way in ways]
        self.pause = pause
        self.clocks, self.fresh, self.wrong, self.again, self.waited = [], [], [], 0, 0

    def wants(self, name):
        """Whether the index is to have a file of this name."""
        return self.expression is None or name.lower().endswith(b".txt")

    def bodies(self):
        """What runs beside the trial."""
        return [kept.keep for kept in self.kept] + [self.ask, self.look]

    def ask(self, stop):
        """Asks for what comes next, at intervals."""
        while self.pause and not stop.wait(self.pause):
            self.update()

    def update(self):
        """Asks for what comes next, where the server is there and watches."""
        answer = self.place.answer(self.index)
        if b"is_fresh_instance" not in answer:
            return
        time.sleep(self.place.folder.chance.random() * LATE)
        status, errors = self.index.add(answer)
        if status != 0 and GAP not in errors:
            self.wrong.append(f"an answer is not added: {errors}")
        if b"is_fresh_instance\x08" in answer:
            self.fresh.append(time.time())

    def look(self, stop):
        """Asks the index, which is written meanwhile, and notes its clocks."""
        while not stop.wait(1):
            before = time.time()
            told = self.index.tried("clock", self.index.path)
            if told.returncode == 0:
                clock = told.stdout.decode().strip()
                self.clocks.append((before, time.time(), clock))
                told = self.index.tried("changes", "--since", clock, self.index.path)
            if told.returncode != 0 and self.clocks:
                self.wrong.append(f"a question is not answered: {told.stderr!r}")

    def fresh_since(self, at):
        """Whether the index took a fresh answer behind this time."""
        times = self.fresh + [time for kept in self.kept for time in kept.times(FRESH)]
        return any(time >= at - OVERLAP for time in times)

    def check_rows(self, part, last, rows):
        """Compares the index with the rows of the folder, which is quiet, once it has read the last
        change: beside load that takes a while."""
        waited = self.place.until_read(self.index, last, LATEST)
        self.waited = max(self.waited, waited or 0)
        differ = self.index.differing({name: rows[name] for name in rows if self.wants(name)})
        what = f"{len(differ)} names differ {sorted(differ)[:5]}"
        is_read = waited is not None
        part.check(is_read and not differ, f"{self.name}: last change read {is_read}, {what}")

    def check_clocks(self, part):
        """Compares what changed since its old clocks with what the server and the folder say."""
        chance = self.place.folder.chance
        rows = {name for name in self.place.folder.rows() if self.wants(name)}
        for clock in chance.sample(self.clocks, min(CLOCKS, len(self.clocks))):
            self.check_clock(part, rows, *clock)
        wrong = self.wrong + [what for kept in self.kept for what in kept.wrong]
        part.check(not wrong, f"{self.name}: {wrong[:5]}")

    def check_clock(self, part, rows, before, after, clock):
        """Compares what changed since a clock, that the index had at this time, with the server's
        answer. A server that answers freshly doesn't know what changed since; the folder does."""
        query = {"expression": self.expression} if self.expression else {}
        query["empty_on_fresh_instance"] = True
        fresh, told = self.place.names(since=clock, **query)
        found = self.index.changed(clock)
        changed = self.place.folder.changed
        missing = changed(after) & rows - found if fresh else told - found
        what = f"{self.name}: changes since {clock}{', fresh,' if fresh else ''}"
        part.check(not missing, f"{what} leaves out {len(missing)} {sorted(missing)[:5]}")
        if not fresh and not self.fresh_since(before):
            self.again += len(found - told)
            more = found - told - changed(before - OVERLAP)
            part.check(not more, f"{what} has {len(more)} more {sorted(more)[:5]}")


def change(folder, files, stop):
    """Changes that trickle, and come in bursts, with a pause behind each. Where many files were
    removed with their folder, as many are made."""
    chance = folder.chance
    while not stop.wait(chance.uniform(0.01, 0.05)):
        folder.change()
        if chance.random() < 0.01:
            for _ in range(chance.randrange(300)):
                folder.change()
            if chance.random() < 0.3:
                folder.move_folder()
                folder.fill(files - len(folder.files))
            stop.wait(0.5)


def kill(place, kept, seconds):
    """Kills followers at random, and first of all the server, which is started anew."""
    chance, end = place.folder.chance, time.time() + seconds
    place.server.kill(chance.choice(KILLS))
    time.sleep(chance.random())
    place.server.start()
    place.watch()
    while time.time() < end:
        time.sleep(chance.uniform(0.3, 1.5))
        chance.choice(kept).kill(chance.choice(KILLS))


def adversary(part, where, seconds, files, seed):
    """Followers behind an adversary, beside load, changes, and clients that ask."""
    place = Place(where, seed, AGES)
    place.folder.fill(files)
    proxy = Adversary(os.path.join(where, "proxy"), place.server, seed)
    watched = [
        Watched(place, proxy, "one"),
        Watched(place, proxy, "two", ways=(Follower, Follower)),
        Watched(place, proxy, "beside", pause=1),
        Watched(place, proxy, "names", fields=("name",)),
        Watched(place, proxy, "suffix", expression=["suffix", "txt"]),
        Watched(place, proxy, "adding", ways=(Adding,), pause=1),
        Watched(place, proxy, "asking", ways=(), pause=AGES["gc_age_seconds"] + 3),
    ]
    kept = [kept for it in watched for kept in it.kept]
    rounds = max(1, seconds // ROUND)
    with beside(*(body for it in watched for body in it.bodies())):
        for number in range(rounds):
            changing = lambda stop: change(place.folder, files, stop)
            with load(), beside(changing, place.ask_others):
                kill(place, kept, seconds / rounds)
            proxy.is_honest = True
            last = b"last %d \xff.txt" % number
            place.folder.write(last, 1)
            rows = place.folder.rows()
            for it in watched:
                it.check_rows(part, last, rows)
            proxy.is_honest = False
    for it in watched:
        it.check_clocks(part)
    part.figure(f"rounds {rounds}")
    report(part, place, proxy, watched, kept)


def report(part, place, proxy, watched, kept):
    part.figure(f"files {len(place.folder.rows())}, changes {len(place.folder.done)}")
    for what, count in sorted(proxy.seen.items()):
        part.figure(f"{what} {count}")
    part.figure(f"gaps filled {sum(len(it.times(GAP)) for it in kept)}")
    part.figure(f"fresh instances {sum(len(it.times(FRESH)) for it in kept)}")
    ends = sum(len(it.past) for it in kept)
    part.figure(f"ends of followers {ends}")
    part.figure(f"clocks {sum(min(CLOCKS, len(it.clocks)) for it in watched)}")
    waited = max(it.waited for it in watched)
    part.figure(f"seconds waited for a last change to be read, at most {waited:.1f}")
    again = " ".join(f"{it.name} {it.again}" for it in watched)
    part.figure(f"names told again that changed shortly before a clock: {again}")


def starts(part, where, files):
    """Followers that start while files come and go, on a machine that is loaded, go on."""
    place = Place(where)
    place.folder.fill(files)
    indexes = [place.index(f"index{number}") for number in range(STARTS)]
    followers = []

    def come_and_go(stop):
        while not stop.wait(0.004):
            place.folder.change()

    with load(), beside(come_and_go):
        for index in indexes:
            followers.append(Follower(place.server.socket, index))
            time.sleep(EACH)
            for follower in followers[-ALIVE - 1 : -ALIVE]:
                check_start(part, follower)
                follower.end()
        time.sleep(ALIVE * EACH)
        for follower in followers[-ALIVE:]:
            check_start(part, follower)
    last = b"last \xff"
    place.folder.write(last, 1)
    for index in indexes[:-ALIVE]:
        place.update(index)
    for index, follower in zip(indexes, followers):
        waited = place.until_read(index, last, LATEST)
        differ = place.differing(index)
        what = f"{len(differ)} names differ, {follower.text()}"
        part.check(waited is not None and not differ, f"last change read {waited}, {what}")
    part.figure(f"changes {len(place.folder.done)}")


def check_start(part, follower):
    """It follows, and goes on."""
    status = follower.status()
    follows = status is None and follower.times("follows since")
    part.check(follows, f"status {status}, {follower.text()}")
