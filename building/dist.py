"""The folder `dist`: the files around the program and the library for C, and their places in an installation."""
import dataclasses
import hashlib
import pathlib
import shutil

from building.commands import ROOT, Failed, run
from building.crates import PROGRAM, PYTHON
from building.manual import page

DIST = ROOT / "dist"
SUMS = "SHA256SUMS"
COMMANDS = ("print", "shape", "check")
DOES = "make valid WebAssembly modules from bytes"

# The places of the files in an installation.
PLACES = {
    PROGRAM: "bin",
    "libsmith.a": "lib",
    "libsmith.so": "lib",
    "smith.h": "include",
    "smith.pc": "lib/pkgconfig",
    f"{PROGRAM}.1": "share/man/man1",
    "smith.py": "python",
    "VERSION": "share/doc/smith",
    "LICENSE": "share/doc/smith",
}

# The lines of smith.pc with the folders, and those in an installation.
INSTALLED = {
    "prefix=${pcfiledir}": "prefix=${pcfiledir}/../..",
    "includedir=${prefix}": "includedir=${prefix}/include",
    "libdir=${prefix}": "libdir=${prefix}/lib",
}


@dataclasses.dataclass
class Build:
    """What a build is: its version, whether it is proved, the kit's line, the commit, and in words what was proved."""

    version: str
    is_proved: bool
    kit: str
    commit: str
    proved: str

    def full_version(self) -> str:
        """Returns the version, with a word if nothing is proved."""
        return self.version if self.is_proved else f"{self.version} (unproved)"


def version_text(build: Build) -> str:
    """Returns the contents of VERSION."""
    return f"smith {build.full_version()}\nCommit: {build.commit}\nKit: {build.kit}\nProved: {build.proved}\n"


def header_text(build: Build) -> str:
    """Returns the header with the macros of the build."""
    text = (ROOT / "bindings/smith.h").read_text()
    begin = "#define SMITH_H\n"
    if text.count(begin) != 1:
        raise Failed(f"bindings/smith.h has no single line `{begin.strip()}`")
    macros = f'\n#define SMITH_VERSION "{build.version}"\n'
    if not build.is_proved:
        macros += "/* This build is unproved. */\n#define SMITH_UNPROVED 1\n"
    return text.replace(begin, begin + macros)


def python_text(build: Build) -> str:
    """Returns the Python module, with a version that says so if nothing is proved."""
    text = (ROOT / PYTHON).read_text()
    return text if build.is_proved else text.replace(f'__version__ = "{build.version}"', f'__version__ = "{build.version}+unproved"')


def package_text(build: Build) -> str:
    """Returns the file for pkg-config, for a program that is linked with the files of `dist` where they are."""
    folders = "\n".join(INSTALLED)
    about = f"Description: Valid WebAssembly modules from bytes{'' if build.is_proved else ' (unproved)'}"
    return f"{folders}\n\nName: smith\n{about}\nVersion: {build.version}\nCflags: -I${{includedir}}\nLibs: -L${{libdir}} -lsmith\n"


def sums_of(folder: pathlib.Path) -> str:
    """Returns the checksums of the files of a folder, in the form of `sha256sum`."""
    names = sorted(entry.name for entry in folder.iterdir() if entry.name != SUMS)
    return "".join(f"{hashlib.sha256((folder / name).read_bytes()).hexdigest()}  {name}\n" for name in names)


def add_files(folder: pathlib.Path, build: Build) -> None:
    """Adds the other files to a folder with the program and the library. Raises `Failed` if the program has another version."""
    program = folder / PROGRAM
    said = run(program, "--version").strip()
    if said != f"{PROGRAM} {build.full_version()}":
        raise Failed(f"`{PROGRAM} --version` says `{said}`, and this build is {build.full_version()}")
    commands = {command: run(program, command, "--help") for command in COMMANDS}
    (folder / f"{PROGRAM}.1").write_text(page(run(program, "--help"), commands, PROGRAM, build.full_version(), DOES))
    (folder / "VERSION").write_text(version_text(build))
    (folder / "smith.h").write_text(header_text(build))
    (folder / "smith.pc").write_text(package_text(build))
    (folder / "smith.py").write_text(python_text(build))
    shutil.copy(ROOT / "LICENSE", folder)
    (folder / SUMS).write_text(sums_of(folder))


def replace(new: pathlib.Path, room: pathlib.Path) -> None:
    """Makes `new` the folder `dist`. The earlier one goes to `room`, which is on the same disk."""
    if DIST.exists():
        DIST.rename(room / "earlier")
    new.rename(DIST)


def check_sums() -> None:
    """Raises `Failed` unless the files of `dist` are those that a build made."""
    if not (DIST / SUMS).is_file():
        raise Failed("dist/ isn't there: `./build --unproved` makes it in minutes, and `./build` proves it first")
    if (DIST / SUMS).read_text() != sums_of(DIST):
        raise Failed(f"the files of dist/ differ from dist/{SUMS}: build it again")


def install(to: pathlib.Path) -> None:
    """Copies the files of `dist` to their places below a folder."""
    check_sums()
    for name, place in PLACES.items():
        (to / place).mkdir(parents=True, exist_ok=True)
        shutil.copy(DIST / name, to / place / name)
    package = to / PLACES["smith.pc"] / "smith.pc"
    package.write_text("".join(f"{INSTALLED.get(line, line)}\n" for line in package.read_text().splitlines()))
