"""The program and the library for C, linked from what was compiled."""
import pathlib

from building.commands import run
from building.crates import PROGRAM


def link_program(kit: pathlib.Path, compiled: pathlib.Path, to: pathlib.Path) -> None:
    """Links the program from its object file, into the folder `to`."""
    words = ["--target", "x86_64-unknown-linux-gnu", "--toolchain", kit / "toolchain", "-o", to / PROGRAM]
    run(kit / "bin/rattle-link", *words, compiled, kit / "c/libos_c.a", kit / "c/liblibc_c.a")


def link_library(kit: pathlib.Path, compiled: pathlib.Path, to: pathlib.Path) -> None:
    """Makes libsmith.a and libsmith.so in the folder `to` from an object file or an archive. Both have the kit's allocator."""
    tools, archive = kit / "toolchain/bin", to / "libsmith.a"
    run(tools / "llvm-ar", "qcsL", archive, compiled, kit / "c/liblibc_c.a")
    whole = ["-Wl,--whole-archive", archive, "-Wl,--no-whole-archive", kit / "toolchain/lib/libgcc.a"]
    shared = ["-shared", "-nostdlib", "-fuse-ld=lld", "-Wl,-soname,libsmith.so"]
    run(tools / "clang", *shared, *whole, "-o", to / "libsmith.so")
