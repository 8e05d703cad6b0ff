"""The module of LLVM that `rt try` compiles: the whole program with its checks, without a proof.

`rt try` runs in a folder with a copy of the sources, from a stand-in for the kit: links to its files, with another `clang`, which keeps the
module and the words with which it is to be compiled, and then ends the try.
"""
import dataclasses
import pathlib
import re
import shutil

from building.commands import ROOT, Failed, run
from building.crates import LIBRARY, PLACE, PROGRAM, VERSION, dependencies

WRAPPER = """#!/bin/sh
here=$(dirname "$0")
for word in "$@"; do
    case $word in *.bc)
        if [ "$(wc -c <"$word")" -gt 100000 ]; then
            cp "$word" "$here/../kept.bc" && printf '%s\\n' "$@" >"$here/../kept.words"
            exit 1
        fi ;;
    esac
done
exec "$here/clang.real" "$@"
"""

# `rt try` has the compiler look at names meanwhile, only for a hint.
NO_HINTS = "#!/bin/sh\nexit 2\n"

EXPORT = re.compile(r'#\[unsafe\(no_mangle\)\]\npub extern "C" fn (\w+)\((.*?),?\s*\) ->', re.S)
VALUES = {"Global": "rt.alloc()", "&[u8]": 'b""', "&mut [u8]": "&mut out", "u32": "0", "usize": "0", "bool": "false"}
VALUES |= {"&KeptConfig": "&kept", "&mut KeptConfig": "&mut kept", "&mut Verdict": "&mut verdict", "&ShapeFiles<'_>": "&shapes"}
VALUES |= {"&[u32]": "&[1]", "&mut Fault": "&mut fault"}

# What the calls in `main` pass on.
PASSED = """    let mut out = [0u8; 1];
    let Ok(request) = Request::read(rt.alloc(), b"") else {
        return;
    };
    let mut kept = KeptConfig::of(&request);
    let mut verdict = Verdict::valid();
    let mut fault = Fault { verdict, family: 0 };
    let shapes = ShapeFiles {
        available_imports: b"",
        exports: b"",
        module_shape: b"",
    };
"""


@dataclasses.dataclass
class Module:
    """The module, the words of the compiler for it, and the functions that it exports, none for a program."""

    bitcode: pathlib.Path
    words: list
    exports: list


def link_entries(source: pathlib.Path, to: pathlib.Path, but: set) -> None:
    """Makes a folder of links to the entries of another, except those named in `but`."""
    to.mkdir(parents=True)
    for entry in source.iterdir():
        if entry.name not in but:
            (to / entry.name).symlink_to(entry)


def write_script(path: pathlib.Path, text: str) -> None:
    """Writes a script."""
    path.write_text(text)
    path.chmod(0o755)


def make_stand_in(kit: pathlib.Path, folder: pathlib.Path) -> None:
    """Makes the stand-in for the kit. `rt` finds its kit by its own place, so it is a copy."""
    link_entries(kit, folder, {"bin", "toolchain"})
    link_entries(kit / "bin", folder / "bin", {"rt", "rtlib.py", "rattle"})
    for name in ("rt", "rtlib.py"):
        shutil.copy(kit / "bin" / name, folder / "bin" / name)
    write_script(folder / "bin/rattle", NO_HINTS)
    link_entries(kit / "toolchain", folder / "toolchain", {"bin"})
    link_entries(kit / "toolchain/bin", folder / "toolchain/bin", {"clang"})
    (folder / "toolchain/bin/clang.real").symlink_to(kit / "toolchain/bin/clang")
    write_script(folder / "toolchain/bin/clang", WRAPPER)


def copy_sources(folder: pathlib.Path, suffix: str) -> None:
    """Copies the code of all crates, and adds `suffix` to the version."""
    for name in dependencies():
        shutil.copytree(ROOT / "crates" / name / "src", folder / "crates" / name / "src")
    for name in ("crates.txt", "HANDLES"):
        shutil.copy(ROOT / name, folder / name)
    place = folder / PLACE
    place.write_text(VERSION.sub(rf"\g<1>\g<2>{suffix}\g<3>", place.read_text()))


def call_of(name: str, parameters: str) -> str:
    """Returns a call of an export as a line of code."""
    types = [parameter.partition(":")[2].strip() for parameter in parameters.split(",")]
    lacking = [kind for kind in types if kind not in VALUES]
    if lacking:
        raise Failed(f"{LIBRARY}: the export {name} takes a {lacking[0]}, of which building/capture.py has no value")
    return f"    let _ = {name}({', '.join(VALUES[kind] for kind in types)});\n"


def make_program(folder: pathlib.Path) -> list:
    """Makes a program of the copied library for C, since `rt try` compiles what `main` reaches. Returns its exports."""
    source = folder / "crates" / LIBRARY / "src"
    text = (source / "lib.rt").read_text()
    exports = EXPORT.findall(text)
    if not exports or len(exports) != text.count("no_mangle"):
        raise Failed(f"{LIBRARY}: its exports don't have the form that building/capture.py reads")
    calls = "".join(call_of(*export) for export in exports)
    main = f"/// Reaches each export.\nfn main(rt: HostRuntime) {{\n{PASSED}{calls}}}\n"
    (source / "main.rt").write_text(f"{text}\n{main}")
    (source / "lib.rt").unlink()
    listed = folder / "crates.txt"
    listed.write_text(re.sub(rf"^{LIBRARY} staticlib:", f"{LIBRARY}:", listed.read_text(), flags=re.M))
    return [name for name, _ in exports]


def capture(kit: pathlib.Path, crate: str, folder: pathlib.Path) -> Module:
    """Returns the module of the program or of the library for C, in a new folder."""
    copy, stand = folder / "sources", folder / "kit"
    copy_sources(copy, " (unproved)")
    exports = [] if crate == PROGRAM else make_program(copy)
    make_stand_in(kit, stand)
    # The wrapper ends the try, so its status says nothing.
    said = run(stand / "bin/rt", "try", "--steps", "1", "--seconds", "1", folder=copy / "crates" / crate, status=range(256))
    bitcode, words = stand / "toolchain/kept.bc", stand / "toolchain/kept.words"
    if not words.is_file():
        raise Failed(f"{said[-4000:]}\n`rt try` compiled no module of {crate}")
    return Module(bitcode, words.read_text().splitlines(), exports)
