"""The Debian packages of a release, made by dpkg-deb of what `make install` installs."""
import hashlib
import re
import shutil
import subprocess
import sys
import zipfile
from email.utils import format_datetime
from datetime import datetime, timezone

from releasing import elf
from releasing.packing import gzipped
from releasing.tree import LIBRARY, SONAME, put, run

PROGRAMS = """look into messages of BSER, and keep an index of them
 The file watcher Watchman speaks BSER, a binary form of JSON. bser shows,
 converts and makes such messages. bser_index keeps a SQLite file of what a
 Watchman server says of the files below a folder."""
SHARED = """messages of BSER, by a library that is proved
 It reads messages of BSER version 2 into tapes, writes them, and rewrites them
 in a canonical or in the shortest form. No input makes a call fail otherwise
 than by its code."""
DEVELOPMENT = """messages of BSER for C and C++: header and libraries
 The header, the static library and the files of pkg-config and CMake for
 programs that read and write messages of BSER version 2."""
PYTHON = """messages of BSER for Python, by a library that is proved
 The calls of the module bser of pywatchman, for versions 1 and 2."""
# By which packages of Debian the scripts of python3-kuvtsada-bser compile and clean its modules.
POSTINST = """#!/bin/sh
set -e
if [ "$1" = configure ] && command -v py3compile > /dev/null; then py3compile -p python3-kuvtsada-bser; fi
"""
PRERM = """#!/bin/sh
set -e
if command -v py3clean > /dev/null; then py3clean -p python3-kuvtsada-bser; fi
"""


def said(*words):
    """What a command prints."""
    return subprocess.run(words, capture_output=True, text=True, check=True).stdout.strip()


class Packages:
    """The packages of one release, as they are made."""

    def __init__(self, top, out, work, version, when, maintainer):
        self.top, self.out, self.work, self.version, self.maintainer = top, out, work, version, maintainer
        self.when = when
        self.architecture = said("dpkg", "--print-architecture")
        self.triple = said("cc", "-print-multiarch") or said("dpkg-architecture", "-qDEB_HOST_MULTIARCH")
        self.staged = work / "staged"
        libdir = f"/usr/lib/{self.triple}"
        run("make", "-s", "-C", top, "install", f"DESTDIR={self.staged}", "PREFIX=/usr", f"LIBDIR={libdir}", f"TREE={out / 'tree'}")

    def copyright(self):
        """The file that Debian wants of each package."""
        lines = (self.top / "LICENSE").read_text().splitlines()
        holder = next(line for line in lines if line.startswith("Copyright"))
        text = [f" {line}" if line else " ." for line in lines[4:]]
        # (Debian has the text of the Apache License)
        apache = "==== ryu\n\nApache License 2.0: /usr/share/common-licenses/Apache-2.0\n\n==== zmij"
        notices = re.sub("==== ryu\n.*?==== zmij", apache, (self.top / "NOTICES").read_text(), flags=re.S)
        notices = [f" {line}" if line.strip() else " ." for line in notices.splitlines()]
        form = "https://www.debian.org/doc/packaging-manuals/copyright-format/1.0/"
        head = [f"Format: {form}", "Upstream-Name: kuvtsada", "Comment:", *notices, "", "Files: *"]
        return "\n".join([*head, holder.replace("Copyright (c)", "Copyright:"), "License: Expat", *text]) + "\n"

    def changelog(self):
        """Debian's changelog of the package, which names the release."""
        date = format_datetime(datetime.fromtimestamp(self.when, timezone.utc))
        who = self.maintainer if "<" in self.maintainer else f"{self.maintainer} <>"
        text = f"kuvtsada ({self.version}-1) unstable; urgency=medium\n\n  * Release {self.version}.\n\n"
        return gzipped(f"{text} -- {who}  {date}\n".encode())

    def control(self, name, folder, section, depends, about, fields):
        """The file that names the package and what it needs."""
        size = sum(it.stat().st_size for it in folder.rglob("*") if it.is_file() and not it.is_symlink())
        says = {
            "Package": name, "Source": "kuvtsada", "Version": f"{self.version}-1", "Architecture": self.architecture,
            "Maintainer": self.maintainer, "Installed-Size": str(size // 1024 + 1), "Section": section,
            "Priority": "optional", "Depends": depends, **fields, "Description": about,
        }  # fmt: skip
        return "".join(f"{key}: {value}\n" for key, value in says.items())

    def libc(self, folder):
        """Which libc6 the files of a package ask for."""
        files = [it for it in folder.rglob("*") if it.is_file() and not it.is_symlink()]
        dynamic = [it for it in files if it.read_bytes()[:4] == b"\x7fELF"]
        return f"libc6 (>= {elf.dotted(max(elf.libc_of(it) for it in dynamic))})"

    def move(self, folder, *moves):
        """Moves what `make install` staged into a package: each with its path there and in the package."""
        for source, to in moves:
            for path in sorted(self.staged.glob(source)):
                target = folder / to / path.name
                target.parent.mkdir(parents=True, exist_ok=True)
                shutil.move(path, target)

    def make(self, name, section, about, depends="", scripts=None, **fields):
        """Makes a package of what was moved into its folder."""
        folder = self.work / name
        put(folder / f"usr/share/doc/{name}/copyright", self.copyright())
        put(folder / f"usr/share/doc/{name}/changelog.Debian.gz", self.changelog())
        fields = {key.replace("_", "-"): value for key, value in fields.items()}
        control = self.control(name, folder, section, depends or self.libc(folder), about, fields)
        files = sorted(it for it in folder.rglob("*") if it.is_file() and not it.is_symlink())
        sums = "".join(f"{hashlib.md5(it.read_bytes()).hexdigest()}  {it.relative_to(folder)}\n" for it in files)
        put(folder / "DEBIAN/control", control)
        put(folder / "DEBIAN/md5sums", sums)
        for script, content in (scripts or {}).items():
            put(folder / f"DEBIAN/{script}", content, 0o755 if content.startswith("#!") else 0o644)
        for path in [folder, *folder.rglob("*")]:
            if path.is_dir():
                path.chmod(0o755)
        run("find", folder, "-exec", "touch", "-h", "-d", f"@{self.when}", "{}", "+")
        made = self.out / f"{name}_{self.version}-1_{self.architecture}.deb"
        run("dpkg-deb", "--root-owner-group", "-Zxz", "-b", folder, made, stdout=subprocess.DEVNULL)

    # ---- the four packages

    def programs(self):
        folder, doc = self.work / "kuvtsada", "usr/share/doc/kuvtsada"
        self.move(folder, ("usr/bin/*", "usr/bin"), ("usr/share/man/man1/*", "usr/share/man/man1"),
                  ("usr/share/bash-completion/completions/*", "usr/share/bash-completion/completions"),
                  ("usr/share/zsh/site-functions/*", "usr/share/zsh/vendor-completions"),
                  ("usr/share/fish/vendor_completions.d/*", "usr/share/fish/vendor_completions.d"))  # fmt: skip
        for name in ("PROGRAMS", "INDEX", "FORMAT", "PROVED"):
            page = self.staged / doc / f"docs/{name}.md"
            put(folder / doc / f"{name}.md.gz", gzipped(page.read_bytes()))
        for name in ("BUILT", "SECURITY.md"):
            put(folder / doc / name, (self.staged / doc / name).read_bytes())
        change = self.staged / doc / "CHANGELOG.md"
        put(folder / doc / "changelog.gz", gzipped(change.read_bytes()))
        self.make("kuvtsada", "utils", PROGRAMS, Suggests="jq, socat, watchman")

    def shared(self):
        name, lib = f"libkuvtsada-bser{SONAME}", f"usr/lib/{self.triple}"
        self.move(self.work / name, (f"{lib}/lib{LIBRARY}.so.*", lib))
        for path in (self.work / name / lib).iterdir():
            if not path.is_symlink():
                path.chmod(0o644)
        scripts = {
            "triggers": "activate-noawait ldconfig\n",
            "shlibs": f"lib{LIBRARY} {SONAME} {name} (>= {self.version})\n",
        }
        self.make(name, "libs", SHARED, scripts=scripts, Multi_Arch="same")

    def development(self):
        name, lib = "libkuvtsada-bser-dev", f"usr/lib/{self.triple}"
        self.move(self.work / name, (f"{lib}/*", lib), ("usr/include/*", "usr/include"))
        needs = f"libkuvtsada-bser{SONAME} (= {self.version}-1)"
        self.make(name, "libdevel", DEVELOPMENT, needs, Multi_Arch="same")

    def python(self, wheel, minor):
        name = "python3-kuvtsada-bser"
        site = self.work / name / "usr/lib/python3/dist-packages"
        site.mkdir(parents=True)
        with zipfile.ZipFile(wheel) as packed:
            packed.extractall(site)
        for path in site.rglob("*"):
            if path.name in ("RECORD", "NOTICES", "LICENSE"):
                path.unlink()
            elif path.is_file():
                path.chmod(0o644)
        needs = f"python3 (>= 3.{minor}), python3 (<< 3.{minor + 1}), {self.libc(self.work / name)}"
        scripts = {"postinst": POSTINST, "prerm": PRERM}
        self.make(name, "python", PYTHON, needs, scripts, Suggests="python3-pywatchman")


def make(top, out, work, version, when, maintainer):
    """Makes the packages; that of Python where there is a wheel for the system's."""
    packages = Packages(top, out, work, version, when, maintainer)
    packages.programs()
    packages.shared()
    packages.development()
    try:
        minor = int(said("/usr/bin/python3", "-c", "import sys; print(sys.version_info[1])"))
    except OSError:
        minor = None
    wheels = sorted(out.glob(f"{LIBRARY}-{version}-cp3{minor}-*.whl"))
    if wheels:
        packages.python(wheels[0], minor)
    else:
        print("no package for Python: there is no wheel for the system's", file=sys.stderr)
