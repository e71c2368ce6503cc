"""A folder that a server watches, which is not the project's root, and what is done in it."""
import json
import os
import shutil
import stat
import time

ODD_NAMES = b"\xff\xfe", b"a\\xff", b'quote"', b"line\nbreak", b"back\\slash", b"\xc3\xa9", b"-"
KINDS = {stat.S_IFREG: "f", stat.S_IFDIR: "d", stat.S_IFLNK: "l"}
MODES = 0o600, 0o644, 0o755
IN_A_FOLDER = 1000  # files that `fill` makes in a folder


class Folder:
    """The folder. `done` has what was changed, each with a time at which it was not yet."""

    def __init__(self, project, chance, config):
        self.project = project
        self.chance = chance
        self.path = os.path.join(project, b"below/here")
        self.config = config
        self.count = 0
        self.files, self.folders, self.done = [], [], []
        self.make()

    def make(self):
        os.makedirs(self.path)
        os.mkdir(os.path.join(self.project, b"beside"))
        with open(os.path.join(self.project, b".watchmanconfig"), "w") as file:
            json.dump(self.config, file)

    def at(self, name):
        """The path of a name below the folder."""
        return os.path.join(self.path, name)

    def begin(self, *paths):
        """Notes that these paths are about to be changed."""
        now = time.time()
        self.done += [(now, os.path.relpath(path, self.path)) for path in paths]

    def write(self, name, size):
        """Writes so many bytes into the file at this path, or at this name below the folder."""
        path = self.at(name)
        self.begin(path)
        with open(path, "wb") as file:
            file.write(self.chance.randbytes(size))

    def fill(self, files):
        """Makes so many files more, if any, in folders of their own."""
        for number in range(files):
            if number % IN_A_FOLDER == 0:
                folder = self.new_path()
                self.begin(folder)
                os.mkdir(folder)
                self.folders.append(folder)
            self.files.append(os.path.join(folder, b"file %d.c" % number))
            self.write(self.files[-1], number % 7)

    def paths(self):
        """The paths below the folder, not through links."""
        found = []
        for top, folders, files in os.walk(self.path):
            found += [os.path.join(top, name) for name in folders + files]
        return found

    def new_path(self):
        """A path that there is not yet, in one of the folders."""
        self.count += 1
        odd = self.chance.choice(ODD_NAMES) if self.chance.random() < 0.2 else b""
        name = b"%d%s.%s" % (self.count, odd, self.chance.choice((b"txt", b"c", b"TXT")))
        return os.path.join(self.chance.choice(self.folders + [self.path]), name)

    # ---- changes

    def change(self):
        """Does one change, of a kind by chance."""
        ways = (self.append, self.set_mode, self.rename, self.replace, self.link, self.make_folder)
        if self.chance.random() < 0.1:
            with open(os.path.join(self.project, b"beside/file"), "ab") as file:
                file.write(b"more")
        elif not self.files or self.chance.random() < 0.3:
            self.files.append(self.new_path())
            self.write(self.files[-1], self.chance.randrange(2000))
        else:
            at = self.chance.randrange(len(self.files))
            self.files[at], self.files[-1] = self.files[-1], self.files[at]
            path = self.files.pop()
            if self.chance.random() < 0.3:
                self.begin(path)
                os.remove(path)
            else:
                self.chance.choice(ways)(path)

    def append(self, path):
        self.begin(path)
        with open(path, "ab") as file:
            file.write(b"more")
        self.files.append(path)

    def set_mode(self, path):
        self.begin(path)
        os.chmod(path, self.chance.choice(MODES))
        self.files.append(path)

    def rename(self, path):
        self.files.append(self.new_path())
        self.begin(path, self.files[-1])
        os.rename(path, self.files[-1])

    def replace(self, path):
        """Replaces a file by another one of equal size, mode and time."""
        old = os.lstat(path)
        new = self.new_path()
        self.write(new, old.st_size)
        os.chmod(new, stat.S_IMODE(old.st_mode))
        os.utime(new, ns=(old.st_atime_ns, old.st_mtime_ns))
        self.begin(path, new)
        os.rename(new, path)
        self.files.append(path)

    def link(self, path):
        """Makes a link to the file."""
        new = self.new_path()
        self.begin(new)
        os.symlink(path, new)
        self.files.append(path)

    def make_folder(self, path):
        """Makes a folder in the file's place."""
        self.begin(path)
        os.remove(path)
        os.mkdir(path)
        self.folders.append(path)

    def move_folder(self):
        """Renames a folder with all that is in it, or removes it."""
        if not self.folders:
            return
        folder = self.chance.choice(self.folders)
        new = self.at(b"moved %d" % self.count)
        self.count += 1
        self.begin(folder, *self.below(folder))
        if self.chance.random() < 0.5:
            shutil.rmtree(folder)
        else:
            self.begin(new, *(new + path[len(folder) :] for path in self.below(folder)))
            os.rename(folder, new)
        found = [(path, os.lstat(path).st_mode) for path in self.paths()]
        self.files = [path for path, mode in found if stat.S_ISREG(mode)]
        self.folders = [path for path, mode in found if stat.S_ISDIR(mode)]

    def below(self, folder):
        return [path for path in self.paths() if path.startswith(folder + b"/")]

    # ---- what there is

    def rows(self):
        """What there is below the folder, as an index has to have it."""
        rows = {}
        for path in self.paths():
            found = os.lstat(path)
            kind = KINDS[stat.S_IFMT(found.st_mode)]
            row = compared(found.st_size, found.st_mode, found.st_mtime_ns // 1000000, kind)
            rows[os.path.relpath(path, self.path)] = row
        return rows

    def changed(self, since):
        """The names that were changed since a time."""
        return {name for at, name in self.done if at >= since}


def compared(size, mode, time_ms, kind):
    """What is compared of a file. A server doesn't look each time that a folder's size and time
    change."""
    return (None, mode, None, kind) if kind == "d" else (size, mode, time_ms, kind)
