"""An index, by its program alone."""
import json
import subprocess

from parts import Failure
from watched_folder import compared

FIELDS = ("name", "exists", "size", "mode", "mtime_ms", "type")
COMPARED = ("size", "mode", "mtime_ms", "type")
PROGRAMS = {}  # the path of each program by its name


class Index:
    """An index, which is not made yet."""

    def __init__(self, path):
        self.path, self.fields = path, FIELDS

    def init(self, root, relative=None, fields=FIELDS, expression=None):
        """The index, made for this root."""
        self.fields = fields
        words = [word for name in fields for word in ("--field", name)]
        if relative is not None:
            words += ["--relative-root", relative]
        if expression is not None:
            words += ["--expression", json.dumps(expression)]
        self.run("init", self.path, "--root", root, *words)
        return self

    def run(self, *words, input=b""):
        """What the program writes, which is to end with status 0."""
        done = self.tried(*words, input=input)
        if done.returncode != 0:
            errors = done.stderr.decode(errors="replace")
            raise Failure("%s: status %d, %s" % (" ".join(words), done.returncode, errors))
        return done.stdout

    def tried(self, *words, input=b""):
        return subprocess.run([PROGRAMS["bser_index"], *words], input=input, capture_output=True)

    def clock(self):
        return self.run("clock", self.path).decode().strip()

    def add(self, data, *words):
        """The status of `add` of these messages, and what it reports."""
        done = self.tried("add", self.path, *words, input=data)
        return done.returncode, (done.stdout + done.stderr).decode(errors="replace")

    def names(self, *words):
        """The names that are listed."""
        return set(self.run("list", "-z", self.path, *words).split(b"\0")[:-1])

    def rows(self):
        lines = self.run("list", "--json", self.path).splitlines()
        rows = json.loads(b"[%s]" % b",".join(lines))
        return {as_bytes(row["name"]): compared(*map(row.get, COMPARED)) for row in rows}

    def differing(self, rows):
        """The names that differ between these rows of a folder and the index."""
        wanted = {name: self.kept(row) for name, row in rows.items()}
        found = self.rows()
        names = wanted.keys() | found.keys()
        return {name for name in names if wanted.get(name) != found.get(name)}

    def kept(self, row):
        """What the index keeps of a row."""
        return tuple(value if field in self.fields else None for field, value in zip(COMPARED, row))

    def changed(self, clock):
        """The names that have changed since a clock."""
        return self.changes("--since", clock)

    def changes(self, *words):
        return set(self.run("changes", "-z", self.path, *words).split(b"\0")[:-1])


def as_bytes(text):
    """The bytes of a string of JSON, or of a mark."""
    return bytes.fromhex(text["$bytes"]) if isinstance(text, dict) else text.encode()
