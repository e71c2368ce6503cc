#!/usr/bin/env python3
"""Writes and reads stamps. A stamp lies beside what a proved build made, and says of what it was made.

usage: scripts/stamp.py sources              prints the commit of the checkout, and whether files differ from it
       scripts/stamp.py write SOURCES FILE.. writes FILE.stamp beside each file; SOURCES is what `sources`
                                             printed before the build
       scripts/stamp.py check FILE..         prints what keeps a file from being released

A stamp has the version, the commit, the toolchain (`rt version`), and the sha256 of the file. None is written where files
differ from the commit, or where they changed during the build. The status of `check` is 1 where a file has no stamp, where
the stamp is of another file, commit or version, or where two stamps name other toolchains.
"""
import hashlib
import subprocess
import sys
from pathlib import Path

TOP = Path(__file__).resolve().parent.parent


def version():
    """The version of the repository."""
    return (TOP / "VERSION").read_text().strip()


def git(*words):
    """What git prints, or nothing where it fails."""
    ran = subprocess.run(["git", "-C", str(TOP), *words], capture_output=True, text=True)
    return ran.stdout.strip() if ran.returncode == 0 else ""


def commit():
    """The commit that is checked out."""
    return git("rev-parse", "HEAD")


def sources():
    """The commit, and whether files differ from it."""
    if not commit():
        return "no commit"
    return f"{commit()} {'changed' if git('status', '--porcelain') else 'clean'}"


def toolchain():
    """What `rt version` prints."""
    return subprocess.run(["rt", "version"], capture_output=True, text=True, check=True).stdout.strip()


def digest(path):
    """The sha256 of a file."""
    return hashlib.sha256(Path(path).read_bytes()).hexdigest()


def stamp_of(path):
    """The path of a file's stamp."""
    return Path(f"{path}.stamp")


def write(before, paths):
    """Writes the stamps of files that were built of these sources."""
    if before != sources() or not before.endswith(" clean"):
        print(f"no stamp: the sources are {before}, and after the build {sources()}", file=sys.stderr)
        return
    for path in paths:
        says = {"version": version(), "commit": commit(), "toolchain": toolchain(), "sha256": digest(path), "proved": "yes"}
        stamp_of(path).write_text("".join(f"{name}: {value}\n" for name, value in says.items()))
        print(stamp_of(path))


def write_unproved(path):
    """Writes the stamp of a file of which nothing is proved, whatever the sources are."""
    says = {"version": version(), "commit": sources(), "toolchain": toolchain(), "sha256": digest(path), "proved": "no"}
    stamp_of(path).write_text("".join(f"{name}: {value}\n" for name, value in says.items()))


def read(path):
    """What the stamp of a file says."""
    if not stamp_of(path).exists():
        return {}
    return dict(line.split(": ", 1) for line in stamp_of(path).read_text().splitlines() if ": " in line)


def faults(paths):
    """What keeps these files from being released together."""
    toolchains = set()
    for path in paths:
        says = read(path)
        toolchains.add(says.get("toolchain"))
        if not Path(path).exists():
            yield f"{path} is not there"
        elif not says:
            yield f"{path} has no stamp: scripts/bridge_archive and scripts/build_programs write stamps"
        else:
            wanted = {"version": version(), "commit": commit(), "sha256": digest(path), "proved": "yes"}
            for name, value in wanted.items():
                if says.get(name) != value:
                    yield f"{path}: {name} is {says.get(name)} in the stamp, and {value} is wanted"
    if len(toolchains) > 1:
        yield f"the stamps name several toolchains: {sorted(map(str, toolchains))}"


def main(words):
    if words == ["sources"]:
        print(sources())
    elif len(words) > 2 and words[0] == "write":
        write(words[1], words[2:])
    elif len(words) > 1 and words[0] == "check":
        found = list(faults(words[1:]))
        print("\n".join(found) or "each stamp is true")
        return 1 if found else 0
    else:
        print(__doc__)
        return 0 if words in (["-h"], ["--help"]) else 2
    return 0


if __name__ == "__main__":
    sys.exit(main(sys.argv[1:]))
