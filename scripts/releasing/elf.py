"""What a program or a library asks of the system that it runs on."""
import re
import subprocess


def tool(*words):
    """What a tool of binutils prints."""
    return subprocess.run(words, capture_output=True, text=True, check=True).stdout


def libc_of(path):
    """The newest version of glibc's symbols that the file names, as a tuple."""
    found = re.findall(r"GLIBC_([\d.]+)", tool("objdump", "-T", str(path)))
    return max((tuple(map(int, number.split("."))) for number in found), default=(0,))


def needed(path):
    """The libraries that the file names, but for the C library."""
    found = re.findall(r"\(NEEDED\).*\[(.*)\]", tool("readelf", "-d", str(path)))
    return [name for name in found if not name.startswith(("libc.so", "ld-linux", "libm.so"))]


def search_paths(path):
    """The folders in which the file looks for libraries by itself."""
    return re.findall(r"\((?:RPATH|RUNPATH)\).*\[(.*)\]", tool("readelf", "-d", str(path)))


def exported(path):
    """The functions that a shared library exports."""
    lines = tool("nm", "-D", "--defined-only", str(path)).splitlines()
    return sorted(line.split()[-1].split("@")[0] for line in lines if line.split()[-2] == "T")


def dotted(numbers):
    """A version as text."""
    return ".".join(map(str, numbers))
