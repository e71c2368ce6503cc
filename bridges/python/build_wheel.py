"""Builds the wheel: the extension over the archive that KUVTSADA_BSER_ARCHIVE names, by the C compiler.

pip calls `build_wheel`, and `build_editable` for `pip install -e`. `build_sdist` packs the sources with the archive.
They take nothing but Python's own library, so that a build needs no network. Times in what they write are those of
SOURCE_DATE_EPOCH, or 1980, so that two builds give the same bytes.
"""

import base64
import gzip
import hashlib
import io
import os
import shlex
import shutil
import subprocess
import sys
import sysconfig
import tarfile
import tempfile
import time
import zipfile
from pathlib import Path

HERE = Path(__file__).resolve().parent
# A source package has the header and the archive in itself, and the repository beside this folder.
IS_PACKED = (HERE / "c").is_dir()
BRIDGES = HERE if IS_PACKED else HERE.parent
TOP = HERE if IS_PACKED else BRIDGES.parent
NAME, VERSION = "kuvtsada_bser", (TOP / "VERSION").read_text().strip()
FLAGS = ["-std=c99", "-Wall", "-Wextra", "-O2", "-DNDEBUG", "-fPIC", "-fvisibility=hidden"]
# The archive's names are the extension's alone, and it keeps no names for a debugger.
LINK_FLAGS = ["-Wl,--exclude-libs,ALL", "-Wl,--build-id=none", "-s"] if sys.platform == "linux" else []
METADATA = f"""Metadata-Version: 2.1
Name: {NAME}
Version: {VERSION}
Summary: Messages of BSER, by a library that is proved
Author: the authors of this repository
License: MIT
Keywords: watchman,bser,pywatchman
Classifier: License :: OSI Approved :: MIT License
Classifier: Operating System :: POSIX :: Linux
Classifier: Programming Language :: C
Classifier: Programming Language :: Python :: 3 :: Only
Classifier: Programming Language :: Python :: Implementation :: CPython
Requires-Python: >=3.10
Description-Content-Type: text/markdown
License-File: LICENSE
License-File: NOTICES

"""
# What a source package has beside this file: each path there, and where it lies here.
PACKED = {
    "pyproject.toml": HERE / "pyproject.toml",
    "README.md": HERE / "README.md",
    "VERSION": TOP / "VERSION",
    "LICENSE": TOP / "LICENSE",
    "NOTICES": TOP / "NOTICES",
    "c/bser.h": BRIDGES / "c" / "bser.h",
}


def metadata():
    """What a package says of itself."""
    return (METADATA + (HERE / "README.md").read_text()).encode()


def built_at():
    """The time that each file in a package has, in seconds since 1970; a wheel has none before 1980."""
    return max(int(os.environ.get("SOURCE_DATE_EPOCH", 0)), 315532800)


def words(variable, otherwise):
    """What Python was built with, as words of a command, but for folders of the machine that built it."""
    found = shlex.split(sysconfig.get_config_var(variable) or otherwise)
    return [word for word in found if not word.startswith(("-Wl,-rpath", "-L"))]


def archive_path():
    """Where the archive is."""
    archive = Path(os.environ.get("KUVTSADA_BSER_ARCHIVE", BRIDGES / "build" / "libkuvtsada_bser.a"))
    if not archive.exists():
        raise SystemExit(f"no archive {archive}: run scripts/bridge_archive, or set KUVTSADA_BSER_ARCHIVE")
    return archive


def compile_extension(out):
    """Compiles and links the extension into the file `out`."""
    archive = str(archive_path())
    include = [f"-I{BRIDGES / 'c'}", f"-I{sysconfig.get_path('include')}"]
    with tempfile.TemporaryDirectory() as folder:
        objects = []
        for source in sorted((HERE / "src").glob("*.c")):
            objects.append(str(Path(folder) / f"{source.stem}.o"))
            subprocess.check_call([*words("CC", "cc"), *FLAGS, *include, "-c", str(source), "-o", objects[-1]])
        subprocess.check_call([*words("LDSHARED", "cc -shared"), *objects, archive, *LINK_FLAGS, "-o", str(out)])


def tag(config_settings=None):
    """The interpreter and the machine that the extension is for; the setting `platform` names another machine."""
    number = sysconfig.get_config_var("py_version_nodot")
    platform = (config_settings or {}).get("platform") or sysconfig.get_platform()
    return f"cp{number}-cp{number}-{platform.replace('-', '_').replace('.', '_')}"


def line_of(name, content):
    """The line of a file in the wheel's list."""
    digest = base64.urlsafe_b64encode(hashlib.sha256(content).digest()).rstrip(b"=").decode()
    return f"{name},sha256={digest},{len(content)}\n"


def package_files():
    """The files of the package as they stand here."""
    return sorted(path for path in (HERE / NAME).iterdir() if path.is_file())


def extension_name():
    """The name that this interpreter looks for."""
    return f"_bser{sysconfig.get_config_var('EXT_SUFFIX')}"


def write_wheel(folder, files, name):
    """Writes a wheel of these files with this tag into the folder, and answers its name."""
    info = f"{NAME}-{VERSION}.dist-info"
    files[f"{info}/METADATA"] = metadata()
    files[f"{info}/WHEEL"] = f"Wheel-Version: 1.0\nRoot-Is-Purelib: false\nTag: {name}\n".encode()
    for path in (TOP / "LICENSE", TOP / "NOTICES"):
        files[f"{info}/{path.name}"] = path.read_bytes()
    record = "".join(line_of(name, content) for name, content in files.items())
    files[f"{info}/RECORD"] = f"{record}{info}/RECORD,,\n".encode()
    wheel = f"{NAME}-{VERSION}-{name}.whl"
    with zipfile.ZipFile(Path(folder) / wheel, "w", zipfile.ZIP_DEFLATED) as out:
        for name, content in files.items():
            entry = zipfile.ZipInfo(name, time.gmtime(built_at())[:6])
            entry.compress_type, entry.external_attr = zipfile.ZIP_DEFLATED, 0o644 << 16
            out.writestr(entry, content)
    return wheel


def build_wheel(wheel_directory, config_settings=None, metadata_directory=None):
    """Makes the wheel, and answers its name."""
    files = {f"{NAME}/{path.name}": path.read_bytes() for path in package_files()}
    with tempfile.TemporaryDirectory() as folder:
        extension = Path(folder) / "_bser.so"
        compile_extension(extension)
        files[f"{NAME}/{extension_name()}"] = extension.read_bytes()
    return write_wheel(wheel_directory, files, tag(config_settings))


def build_editable(wheel_directory, config_settings=None, metadata_directory=None):
    """Makes a wheel that leads to links to the package's files, beside an extension, and answers its name."""
    folder = BRIDGES / "build" / tag()
    shutil.rmtree(folder, ignore_errors=True)
    (folder / NAME).mkdir(parents=True)
    for path in package_files():
        (folder / NAME / path.name).symlink_to(path)
    compile_extension(folder / NAME / extension_name())
    return write_wheel(wheel_directory, {f"{NAME}.pth": f"{folder}\n".encode()}, tag())


def source_files():
    """The files of a source package, each with its content: the archive is one of them."""
    files = {name: path.read_bytes() for name, path in PACKED.items()}
    files["build/libkuvtsada_bser.a"] = archive_path().read_bytes()
    for folder in ("src", NAME, "tests"):
        for path in sorted((HERE / folder).iterdir()):
            if path.is_file():
                files[f"{folder}/{path.name}"] = path.read_bytes()
    files["build_wheel.py"] = Path(__file__).read_bytes()
    files["PKG-INFO"] = metadata()
    return files


def build_sdist(sdist_directory, config_settings=None):
    """Packs the sources and the archive, and answers the package's name."""
    root, packed = f"{NAME}-{VERSION}", io.BytesIO()
    with tarfile.open(fileobj=packed, mode="w", format=tarfile.PAX_FORMAT) as out:
        for name, content in sorted(source_files().items()):
            entry = tarfile.TarInfo(f"{root}/{name}")
            entry.size, entry.mtime, entry.mode = len(content), built_at(), 0o644
            out.addfile(entry, io.BytesIO(content))
    sdist = Path(sdist_directory, f"{root}.tar.gz")
    # (gzip.compress writes other heads in other Pythons)
    with open(sdist, "wb") as file, gzip.GzipFile(filename="", mode="wb", fileobj=file, mtime=0) as out:
        out.write(packed.getvalue())
    return sdist.name
