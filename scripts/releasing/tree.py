"""The tree that a release installs: bin, lib, include and share, and the tar.gz of it."""
import hashlib
import re
import shutil
import subprocess
from pathlib import Path

from releasing import elf, help_pages

LIBRARY = "kuvtsada_bser"
# The number of the soname. It rises where a call goes, or a call, a code or a word of a tape changes its meaning;
# what is added leaves it (bridges/c/bser.h).
SONAME = 1
SYMLINKS = (f"lib{LIBRARY}.so.{SONAME}", f"lib{LIBRARY}.so")
PKG_CONFIG = """prefix=${{pcfiledir}}/../..
libdir=${{prefix}}/lib
includedir=${{prefix}}/include/kuvtsada

Name: {library}
Description: Messages of BSER, by a library that is proved
Version: {version}
Libs: -L${{libdir}} -l{library}
Cflags: -I${{includedir}}
"""
CMAKE = """get_filename_component(_kuvtsada "${{CMAKE_CURRENT_LIST_DIR}}/../../.." ABSOLUTE)
foreach(_kind STATIC SHARED)
    string(TOLOWER ${{_kind}} _name)
    if(NOT TARGET {library}::${{_name}})
        add_library({library}::${{_name}} ${{_kind}} IMPORTED)
        set_target_properties({library}::${{_name}} PROPERTIES
            INTERFACE_INCLUDE_DIRECTORIES "${{_kuvtsada}}/include/kuvtsada")
    endif()
endforeach()
set_target_properties({library}::static PROPERTIES IMPORTED_LOCATION "${{_kuvtsada}}/lib/lib{library}.a")
set_target_properties({library}::shared PROPERTIES IMPORTED_LOCATION "${{_kuvtsada}}/lib/lib{library}.so.{soname}"
    IMPORTED_SONAME lib{library}.so.{soname})
"""
# A program of version 1.4 takes 1.5, and does not take 2.0.
CMAKE_VERSION = """set(PACKAGE_VERSION {version})
if(PACKAGE_FIND_VERSION VERSION_LESS_EQUAL PACKAGE_VERSION AND PACKAGE_FIND_VERSION_MAJOR EQUAL {major})
    set(PACKAGE_VERSION_COMPATIBLE TRUE)
endif()
if(PACKAGE_FIND_VERSION VERSION_EQUAL PACKAGE_VERSION)
    set(PACKAGE_VERSION_EXACT TRUE)
endif()
"""


def run(*words, **more):
    """Runs a command, whose failure ends the release."""
    subprocess.run([str(word) for word in words], check=True, **more)


def put(path, content, mode=0o644):
    """Writes a file of the tree."""
    path.parent.mkdir(parents=True, exist_ok=True)
    path.write_bytes(content if isinstance(content, bytes) else content.encode())
    path.chmod(mode)


def calls_of(header):
    """The calls that the header declares."""
    text = re.sub(r"/\*.*?\*/", "", header.read_text(), flags=re.S)
    return sorted(set(re.findall(r"^(?:uint32_t|bser_outcome) (bser_\w+)\(", text, re.M)))


def link_shared(archive, out, calls):
    """Links the shared library, which exports these calls at a version of their own."""
    names = out.parent / "exports.map"
    names.write_text(f"KUVTSADA_BSER_{SONAME} {{\n  global: {' '.join(f'{it};' for it in calls)}\n  local: *;\n}};\n")
    undefined = [f"-Wl,-u,{call}" for call in calls]
    flags = ["--gc-sections", "-z,now", "--no-undefined", "--build-id=none", f"--version-script={names}"]
    words = ["cc", "-shared", "-s", f"-Wl,-soname,{SYMLINKS[0]}", *(f"-Wl,{flag}" for flag in flags), *undefined]
    run(*words, archive, "-o", out)
    names.unlink()
    out.chmod(0o755)


def libraries(root, top, archive, version):
    """The header, the libraries, and what pkg-config and CMake read of them."""
    lib, header = root / "lib", top / "bridges/c/bser.h"
    put(lib / f"lib{LIBRARY}.a", archive.read_bytes())
    run("strip", "--strip-debug", "--enable-deterministic-archives", lib / f"lib{LIBRARY}.a")
    put(root / "include/kuvtsada/bser.h", header.read_bytes())
    shared = lib / f"lib{LIBRARY}.so.{version}"
    link_shared(archive, shared, calls_of(header))
    for name in SYMLINKS:
        (lib / name).symlink_to(shared.name)
    words = {"library": LIBRARY, "version": version, "soname": SONAME, "major": version.split(".")[0]}
    put(lib / f"pkgconfig/{LIBRARY}.pc", PKG_CONFIG.format(**words))
    put(lib / f"cmake/{LIBRARY}/{LIBRARY}Config.cmake", CMAKE.format(**words))
    put(lib / f"cmake/{LIBRARY}/{LIBRARY}ConfigVersion.cmake", CMAKE_VERSION.format(**words))


def programs(root, paths, version, date):
    """The programs, their pages and their completions."""
    for path in paths:
        put(root / "bin" / path.name, path.read_bytes(), 0o755)
        run("strip", root / "bin" / path.name)
        help_pages.write(root / "bin" / path.name, root / "share", version, date)


def documents(root, top):
    """The pages, the licence and the notices."""
    folder = root / "share/doc/kuvtsada"
    tops = ["LICENSE", "NOTICES", "README.md", "CHANGELOG.md", "SECURITY.md"]
    for path in [*(top / name for name in tops), *sorted((top / "docs").glob("*.md"))]:
        put(folder / path.relative_to(top), path.read_bytes())


def built(root, says, version):
    """What was built of what, and what it asks of a system."""
    files = sorted([*(root / "bin").iterdir(), *(it for it in (root / "lib").iterdir() if it.is_file() and not it.is_symlink())])
    dynamic = [it for it in files if it.suffix != ".a"]
    lines = [f"kuvtsada {version}", f"commit {says['commit']}", f"toolchain {says['toolchain']}"]
    lines += [f"glibc {elf.dotted(elf.libc_of(it))} for {it.relative_to(root)}" for it in dynamic]
    lines += [f"sha256 {hashlib.sha256(it.read_bytes()).hexdigest()} {it.relative_to(root)}" for it in files]
    put(root / "share/doc/kuvtsada/BUILT", "\n".join(lines) + "\n")


def make(root, top, archive, paths, says, version, date):
    """Makes the whole tree anew."""
    shutil.rmtree(root, ignore_errors=True)
    (root / "lib").mkdir(parents=True)
    programs(root, paths, version, date)
    libraries(root, top, archive, version)
    documents(root, top)
    built(root, says, version)
    put(root / "Makefile", (top / "Makefile").read_bytes())
