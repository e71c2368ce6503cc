"""Archives whose bytes depend on nothing but what is in them."""
import gzip
import io
import os
import tarfile
from pathlib import Path


def gzipped(content):
    """The content by gzip, without a name and a time."""
    out = io.BytesIO()
    # (gzip.compress writes other heads in other Pythons)
    with gzip.GzipFile(filename="", mode="wb", fileobj=out, mtime=0) as packed:
        packed.write(content)
    return out.getvalue()


def pack(entries, out, when):
    """Writes a tar.gz of these names, each with the path of its file or with its content."""
    packed = io.BytesIO()
    with tarfile.open(fileobj=packed, mode="w", format=tarfile.GNU_FORMAT) as tar:
        for name, source in sorted(entries.items()):
            entry = tarfile.TarInfo(name)
            entry.mtime = when
            if isinstance(source, Path) and source.is_symlink():
                entry.type, entry.linkname, entry.mode = tarfile.SYMTYPE, os.readlink(source), 0o777
                tar.addfile(entry)
                continue
            content = source if isinstance(source, bytes) else source.read_bytes()
            executable = isinstance(source, Path) and os.access(source, os.X_OK)
            entry.size, entry.mode = len(content), 0o755 if executable else 0o644
            tar.addfile(entry, io.BytesIO(content))
    out.write_bytes(gzipped(packed.getvalue()))


def pack_tree(root, out, when, name):
    """Writes the tar.gz of a tree, whose folder has this name there."""
    files = [it for it in root.rglob("*") if it.is_symlink() or it.is_file()]
    pack({f"{name}/{it.relative_to(root)}": it for it in files}, out, when)
