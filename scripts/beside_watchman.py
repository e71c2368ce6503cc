"""A Watchman server of a test's own, its clients, and indexes of a folder that it watches."""
import contextlib
import os
import random
import signal
import socket
import subprocess
import threading
import time

from bser_messages import decoded, message, messages
from index_file import PROGRAMS, Index
from parts import Failure
from watched_folder import Folder

STARTED = []  # processes that are ended with this one


def started(words, **streams):
    """Starts a process that is ended with this one."""
    STARTED.append(subprocess.Popen(words, **streams))
    return STARTED[-1]


def end_started():
    while STARTED:
        process = STARTED.pop()
        process.kill()
        process.wait()


@contextlib.contextmanager
def beside(*bodies):
    """Runs each of these in a thread beside a block. Each is given the event by which it stops."""
    stop, failed = threading.Event(), []

    def run(body):
        try:
            body(stop)
        except Exception as error:
            failed.append(error)

    threads = [threading.Thread(target=run, args=(body,), daemon=True) for body in bodies]
    for thread in threads:
        thread.start()
    try:
        yield
    finally:
        stop.set()
        for thread in threads:
            thread.join()
    if failed:
        raise failed[0]


# ---- the server


class Connection:
    """A client's connection to a server, in BSER of version 2."""

    def __init__(self, path):
        self.socket = socket.socket(socket.AF_UNIX)
        self.socket.connect(path)
        self.rest = b""

    def send(self, *request):
        self.socket.sendall(message(list(request)))

    def receive(self):
        """The next message, as bytes. None at the end."""
        while True:
            found, _rest = messages(self.rest)
            if found:
                self.rest = self.rest[len(found[0]) :]
                return found[0]
            piece = self.socket.recv(1 << 16)
            if not piece:
                return None
            self.rest += piece

    def ask(self, *request):
        """The answer to a request, where nothing else is told on this connection."""
        self.send(*request)
        answer = self.receive()
        if answer is None:
            raise Failure("the server ends the connection")
        answer = decoded(answer)
        if "error" in answer:
            raise Failure("the server refuses: %r" % answer["error"])
        return answer

    def end(self):
        """Sends nothing more."""
        self.socket.shutdown(socket.SHUT_WR)

    def close(self):
        self.socket.close()


class Server:
    """A Watchman server with a socket, a log and a state of its own."""

    def __init__(self, folder):
        self.folder = folder
        self.socket = os.path.join(folder, "socket")
        self.process = None

    def start(self):
        words = ["watchman", "--foreground", "--sockname=" + self.socket]
        names = ("logfile", "pidfile", "statefile")
        words += ["--%s=%s" % (name, os.path.join(self.folder, name)) for name in names]
        quiet = {"stdout": subprocess.DEVNULL, "stderr": subprocess.DEVNULL}
        self.process = started(words, **quiet)
        for _ in range(400):
            try:
                return self.ask("version")
            except (OSError, Failure):
                time.sleep(0.05)
        raise Failure("the server does not start")

    def kill(self, how=signal.SIGKILL):
        self.process.send_signal(how)
        self.process.wait()
        if os.path.exists(self.socket):
            os.remove(self.socket)

    def ask(self, *request):
        connection = Connection(self.socket)
        try:
            return connection.ask(*request)
        finally:
            connection.close()

    def words(self, encoding="bser-v2", path=None):
        """The words that carry a request on standard input to the server."""
        words = ["watchman", "--no-spawn", "--sockname=" + (path or self.socket)]
        return words + ["--output-encoding=" + encoding, "--no-pretty", "-j"]


class Proxy:
    """Stands between a server and its clients. For each connection `new_hand` makes what is given
    each message that the server sends, and gives the pieces that the client gets in its place."""

    def __init__(self, path, server, new_hand):
        self.path, self.server, self.new_hand = path, server, new_hand
        self.listening = socket.socket(socket.AF_UNIX)
        self.listening.bind(path)
        self.listening.listen(16)
        threading.Thread(target=self.accept, daemon=True).start()

    def accept(self):
        while True:
            client, _address = self.listening.accept()
            try:
                upstream = Connection(self.server.socket).socket
            except OSError:
                client.close()
                continue
            asked, told = self.pieces()
            for words in (client, upstream, asked), (upstream, client, told):
                threading.Thread(target=carry, args=words, daemon=True).start()

    def pieces(self):
        """What gives the pieces for the server and for the client, of what the other one sends."""
        return (lambda data: [data]), by_messages(self.new_hand())


class Recorder(Proxy):
    """Records what each client asks and what the server tells it."""

    def __init__(self, path, server):
        self.recorded = []
        super().__init__(path, server, None)

    def pieces(self):
        streams = bytearray(), bytearray()
        self.recorded.append(streams)
        return tuple(recording(stream) for stream in streams)


def recording(stream):
    def pieces(data):
        stream.extend(data)
        return [data]

    return pieces


def by_messages(hand):
    """What gives the pieces for the client, of the bytes that the server sends next."""
    rest = b""

    def pieces(data):
        nonlocal rest
        found, rest = messages(rest + data)
        for one in found:
            yield from hand(one)

    return pieces


class Cut(Exception):
    """Ends a connection."""


def carry(source, target, pieces):
    """Carries what comes until one side ends, or it is cut, and then ends both."""
    try:
        while data := source.recv(1 << 16):
            for piece in pieces(data):
                target.sendall(piece)
    except (OSError, Cut):
        pass
    for side in (source, target):
        try:
            side.shutdown(socket.SHUT_RDWR)
        except OSError:
            pass


# ---- what follows it


class Follower:
    """`bser_index follow`, whose streams are a connection to the server. `said` has its lines, each
    with its time."""

    def __init__(self, path, index):
        program = 'EXEC:"%s follow %s",nofork' % (PROGRAMS["bser_index"], index.path)
        self.start(["socat", "UNIX-CONNECT:" + path, program])

    def start(self, words, **streams):
        self.process = started(words, stderr=subprocess.PIPE, **streams)
        self.said = []
        self.listening = threading.Thread(target=self.listen, daemon=True)
        self.listening.start()

    def listen(self):
        with self.process.stderr as lines:
            for line in lines:
                self.said.append((time.time(), line.decode(errors="replace").strip()))

    def status(self, wait=0):
        """Its status, where it ends by itself within so many seconds."""
        try:
            status = self.process.wait(wait)
        except subprocess.TimeoutExpired:
            return None
        self.listening.join()
        return status

    def times(self, what):
        """When it said so."""
        return [at for at, line in self.said if what in line]

    def text(self):
        return "; ".join(line for _at, line in self.said[-3:])

    def end(self, how=signal.SIGKILL):
        self.process.send_signal(how)
        self.process.wait()
        self.listening.join()


class Adding(Follower):
    """`bser_index add`, whose input is a connection over which a subscription was asked for."""

    def __init__(self, path, index):
        connection = Connection(path)
        connection.socket.sendall(index.run("request", "--subscribe", "--bser", index.path))
        words = [PROGRAMS["bser_index"], "add", index.path]
        self.start(words, stdin=connection.socket.fileno(), stdout=subprocess.DEVNULL)
        connection.close()


class Place:
    """A server, a folder below the root that it watches, and indexes of that folder."""

    def __init__(self, where, seed=1, config=None):
        self.where = where
        self.server = Server(os.path.join(where, "server"))
        os.mkdir(self.server.folder)
        chance = random.Random(seed)
        self.folder = Folder(os.path.join(os.fsencode(where), b"project"), chance, config or {})
        for name in b"a", b"b", b"c", b"\xff\xfe":
            self.folder.write(name, 1)
            self.folder.files.append(self.folder.at(name))
        self.server.start()
        self.watch()

    def watch(self):
        told = self.server.ask("watch-project", self.folder.path)
        self.root, self.relative = (os.fsdecode(told[it]) for it in ("watch", "relative_path"))

    def index(self, name, **words):
        """A new index, which has been told nothing."""
        return Index(os.path.join(self.where, name)).init(self.root, self.relative, **words)

    def answer(self, index):
        """The server's answer to what the index asks next."""
        request = index.run("request", index.path)
        return subprocess.run(self.server.words(), input=request, capture_output=True).stdout

    def update(self, index):
        """Asks the server for what comes next, and adds it."""
        index.run("add", index.path, input=self.answer(index))

    def names(self, **query):
        """Whether the server's answer to this query is fresh, and the names that it tells."""
        query = {"fields": ["name"], "relative_root": self.relative, **query}
        answer = self.server.ask("query", self.root, query)
        return answer["is_fresh_instance"], set(answer["files"])

    def ask_others(self, stop):
        """Asks queries all the time, as another client does, where the server is there."""
        while not stop.wait(0.1):
            with contextlib.suppress(OSError, Failure):
                self.names(expression=["name", "none"])

    def until_read(self, index, name, wait):
        """For how many seconds it was waited until the index knows a file of this name. None where it
        does not within so many seconds."""
        begin = time.time()
        while index.tried("stat", index.path, "--names", input=name + b"\0").returncode != 0:
            if time.time() - begin > wait:
                return None
            time.sleep(0.5)
        return time.time() - begin

    def differing(self, index, wait=0):
        """The names that differ between index and folder, once none does or the time is over."""
        end = time.time() + wait
        while (differ := index.differing(self.folder.rows())) and time.time() < end:
            time.sleep(0.5)
        return differ
