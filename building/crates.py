"""The crates that a build takes, by crates.txt, and the version that they have in common."""
import re

from building.commands import ROOT, Failed

# The crate of the program, and that of the library for C.
PROGRAM, LIBRARY = "smith_wasm", "smith_c"

# The one place of the version. Versions with the same second number produce the same file of the same configuration and bytes.
PLACE = "crates/smith_wasm/src/words.rt"
VERSION = re.compile(r'(const VERSION: &str = ")(\d+\.\d+\.\d+)(";)')
# The files that repeat it, since they are used as they are too.
PYTHON = "bindings/python/smith.py"
CARGO = re.compile(r'^version = "(.*)"$', re.M)
COPIES = {"bindings/rust/Cargo.toml": CARGO, "bindings/rust/drop_in/Cargo.toml": CARGO, PYTHON: re.compile(r'^__version__ = "(.*)"$', re.M)}


def dependencies() -> dict:
    """Returns the dependencies of each crate of crates.txt, those of the kit among them."""
    found = {}
    for line in (ROOT / "crates.txt").read_text().splitlines():
        name, colon, below = line.partition("#")[0].partition(":")
        if colon:
            found[name.split()[0]] = below.split()
    return found


def below(*names: str) -> list:
    """Returns the crates of this repository below the given ones, sorted."""
    ours, found, left = dependencies(), set(), list(names)
    while left:
        new = {name for name in ours[left.pop()] if name in ours} - found
        found |= new
        left += new
    return sorted(found)


def version() -> str:
    """Returns the version. Raises `Failed` if a file that repeats it has another."""
    found = VERSION.findall((ROOT / PLACE).read_text())
    if len(found) != 1:
        raise Failed(f'{PLACE} has {len(found)} lines `const VERSION: &str = "X.Y.Z";`, and not one')
    for path, line in COPIES.items():
        copies = line.findall((ROOT / path).read_text())
        if copies != [found[0][1]]:
            raise Failed(f"{path} has the version {' '.join(copies) or 'nowhere'}, and {PLACE} has {found[0][1]}")
    return found[0][1]
