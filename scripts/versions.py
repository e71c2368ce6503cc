"""Compares the version of the file VERSION with the places that cannot read it."""
import re
from pathlib import Path

TOP = Path(__file__).resolve().parent.parent
# Each file, and what stands around the version there.
PLACES = [
    ("bridges/c/bser.h", r'#define BSER_VERSION "(.*)"'),
    ("bridges/rust/Cargo.toml", r'^version = "(.*)"'),
    ("bridges/serde_bser/Cargo.toml", r'kuvtsada-bser = .*version = "(.*)"'),
    ("CHANGELOG.md", r"^## (\S+)"),
    ("README.md", r"kuvtsada-(.*)-linux"),
    ("README.md", r"kuvtsada_(.*)-1_amd64"),
    ("README.md", r"kuvtsada_bser-(.*)-cp311"),
    ("crates/bser_cli/src/command.rt", r'const VERSION: &str = "(.*)";'),
    ("crates/bser_index_cli/src/command.rt", r'const VERSION: &str = "(.*)";'),
    ("crates/table_commands/stdout", r"^bser (\d\S*)$"),
    ("crates/table_commands/stdout", r"^bser_index (\d\S*)$"),
]
# The facade has the version of the crate that it stands for.
FACADE = ("bridges/serde_bser/Cargo.toml", r'^version = "(0\.4\.\d+)"')


def differing():
    """A line for each place that has another version."""
    version = (TOP / "VERSION").read_text().strip()
    for path, form in [*PLACES, FACADE]:
        found = re.search(form, (TOP / path).read_text(), re.M)
        if not found or (form != FACADE[1] and found[1] != version):
            yield f"{path}: the version is {found and found[1]}, and {version} stands in VERSION"
