"""The packages for Cargo: kuvtsada-bser with the archive in it, and the facade serde_bser over it."""
import re

from releasing.packing import pack

# What each package has, below its folder in bridges.
SOURCES = {
    "rust": ["Cargo.toml", "README.md", "build.rs", "src/**/*.rs", "examples/*.rs", "tests/*.rs"],
    "serde_bser": ["Cargo.toml", "src/**/*.rs", "tests/*.rs"],
}


def head_of(manifest):
    """The name and the version of a package."""
    text = manifest.read_text()
    return re.search(r'^name = "(.*)"', text, re.M)[1], re.search(r'^version = "(.*)"', text, re.M)[1]


def files_of(top, folder):
    """The files of a package, each by its path there."""
    here = top / "bridges" / folder
    return {str(path.relative_to(here)): path for glob in SOURCES[folder] for path in sorted(here.glob(glob))}


def make(top, out, archive, target, when):
    """Packs both. Unpacked beside each other they are found by each other."""
    name, version = head_of(top / "bridges/rust/Cargo.toml")
    for folder, more in (("rust", {f"native/{target}/libkuvtsada_bser.a": archive}), ("serde_bser", {})):
        files = {**files_of(top, folder), "LICENSE": top / "LICENSE", "NOTICES": top / "NOTICES", **more}
        manifest = files["Cargo.toml"].read_text().replace('path = "../rust"', f'path = "../{name}-{version}"')
        files["Cargo.toml"] = manifest.encode()
        root = "-".join(head_of(top / "bridges" / folder / "Cargo.toml"))
        pack({f"{root}/{path}": content for path, content in files.items()}, out / f"{root}.crate", when)
