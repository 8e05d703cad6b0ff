"""The proved program and library for C, from what `rt` proves and keeps."""
import pathlib
import shutil

from building.commands import ROOT, Failed, run, say
from building.crates import LIBRARY, PROGRAM, below, dependencies
from building.link import link_library

# The folders of a crate that a proof reads.
PARTS = ("src", "specs", "proofs")


def crate_folder(project: pathlib.Path, name: str) -> pathlib.Path:
    """Returns the folder of a crate of a project."""
    return project / "crates" / name


def copy_crate(name: str, project: pathlib.Path) -> None:
    """Copies a crate to a project: what a proof of it reads, and what its program is run on, without its edits."""
    shutil.copytree(crate_folder(ROOT, name), crate_folder(project, name), ignore=shutil.ignore_patterns("must-fail", "out"))


def copy_project(names: list, project: pathlib.Path) -> None:
    """Makes a project of some crates of this one, without their edits, cases and tests of other crates."""
    for name in names:
        copy_crate(name, project)
    ours = dependencies()
    (project / "crates.txt").write_text("".join(f"{name}: {' '.join(ours[name])}\n" for name in names))
    shutil.copy(ROOT / "HANDLES", project)


def build(kit: pathlib.Path, work: pathlib.Path, to: pathlib.Path) -> None:
    """Proves the program, the library for C and the crates below them over what earlier checks kept, and builds both in the folder `to`.

    Proves no tests, and tries no edits. `rt ci` proves a project of these crates alone, several at a time."""
    names = [*below(PROGRAM, LIBRARY), PROGRAM]
    say(f"proving {PROGRAM}, {LIBRARY} and the {len(names) - 1} crates below them, over what is kept")
    project = work / "project"
    project.mkdir()
    copy_project(names, project)
    run(kit / "bin/rt", "ci", folder=project, shown=True)
    copy_crate(LIBRARY, project)
    take(kit, work, project, to)


def require(project: pathlib.Path, name: str, output: str) -> pathlib.Path:
    """Returns the path of what `rt ci` made of a crate. Raises `Failed` if it isn't there, or if the crate was changed later."""
    folder = crate_folder(project, name)
    path = folder / "out" / output
    if not path.exists():
        raise Failed(f"{path.relative_to(project)} isn't there: `rt ci` makes it")
    changes = [file.stat().st_mtime for part in PARTS for file in (folder / part).rglob("*")]
    if max(changes, default=0) > path.stat().st_mtime:
        raise Failed(f"crates/{name} was changed after `rt ci` proved it: run `rt ci` again")
    return path


def build_words(kit: pathlib.Path, project: pathlib.Path) -> list:
    """Returns the words with which `rattle build` finds the libraries below the library for C."""
    ours = dependencies()
    words = ["--extern", f"std={kit}/rlibs/std.rlib", "-L", f"dependency={kit}/rlibs"]
    for name in ours[LIBRARY]:
        library = require(project, name, f"rlib/{name}.rlib") if name in ours else kit / f"rlibs/{name}.rlib"
        words += ["--extern", f"{name}={library}"]
    for name in below(LIBRARY):
        words += ["-L", f"dependency={require(project, name, f'rlib/{name}.rlib').parent}"]
    return words


def take(kit: pathlib.Path, work: pathlib.Path, project: pathlib.Path, to: pathlib.Path) -> None:
    """Builds both in the folder `to` from what `rt ci` left in a project.

    Proves the library for C, over what an earlier check of it in this project kept, and no crate below it."""
    shutil.copy(require(project, PROGRAM, PROGRAM), to / PROGRAM)
    logic = ["--antt-project", kit / "rattle/logic/antt-project.json", "--logic-built", kit / "logic_built"]
    archive, folder = work / f"lib{LIBRARY}.a", crate_folder(project, LIBRARY)
    kept = ["--incremental", folder / "out/incremental", "--crate-type", "staticlib", "--toolchain", kit / "toolchain"]
    run(kit / "bin/rattle", "build", "--crate-name", LIBRARY, "src/lib.rt", *build_words(kit, project), *logic, *kept, "-o", archive, folder=folder)
    link_library(kit, archive, to)
