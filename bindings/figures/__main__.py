"""Prints how much of the bodies in a corpus of texts may run, and what their instructions are applied to.

    smith_wasm --output-dir corpus --count 2000 --seed 77 --size 2048 --min-types 5 --min-funcs 3 -t --inputs
    python3 bindings/figures corpus

It reads the .wat files of a folder as `smith_wasm` writes them, and finds by itself what each instruction takes and leaves. An instruction
is live if it is reached from the start of its body, in order or by a branch to a label. The figures of operands are of live instructions.
With `--inputs`, the sizes of the .bin files give the instructions for a byte.
"""
import argparse
import pathlib
import statistics

import bodies
import modules


def share(part: int, whole: int) -> str:
    """Returns a part of a number in percent, with both."""
    return f"{100 * part / whole:.1f} % ({part} of {whole})" if whole else "none"


def print_bodies(seen: bodies.Counts, inputs: int) -> None:
    """Prints what is live and how deep, and the instructions for a byte of the inputs, if their size isn't zero."""
    live = sorted(seen.live)
    print(f"live instructions: {share(sum(live), seen.instructions)}")
    if live:
        print(f"live instructions of a body: median {statistics.median(live):.0f}, 90th percentile {live[len(live) * 9 // 10]}")
        print(f"deepest block of a body, on average: {statistics.mean(seen.depths):.2f}")
    if inputs:
        print(f"instructions for a byte of input: {seen.instructions / inputs:.3f}")
    for name, count in seen.kinds.most_common(1):
        print(f"kinds of live instructions: {len(seen.kinds)}; the most frequent is {name}: {share(count, sum(live))}")
        print(f"drop: {share(seen.kinds['drop'], sum(live))}")


def main() -> None:
    parser = argparse.ArgumentParser(prog="figures", description=__doc__, formatter_class=argparse.RawDescriptionHelpFormatter)
    parser.add_argument("folder", type=pathlib.Path, help="a folder of .wat files")
    folder = parser.parse_args().folder
    seen = bodies.Counts()
    for path in sorted(folder.glob("*.wat")):
        module = modules.read(path.read_text())
        for index, lines in module.bodies:
            bodies.count(module, index, lines, seen)
    print_bodies(seen, sum(path.stat().st_size for path in folder.glob("*.bin")))
    for name, whole in seen.wholes.items():
        print(f"{name}: {share(seen.parts[name], whole)}")


main()
