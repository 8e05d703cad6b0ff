"""The instructions of a body, followed in order: which are live, and what they are applied to."""
import collections
import dataclasses
import re

import modules
import values

LEAVING = re.compile(r"br|br_table|return|unreachable|throw|throw_ref|return_call.*")
OPENING = re.compile(r"block|loop|if|try_table")
ON_REFERENCE = re.compile(r"struct\.[gs]et.*|array\.(get.*|set|len|fill|copy|init_.*)|i31\.get_.|call_ref|throw_ref")
CASTS = re.compile(r"ref\.(test|cast)|br_on_cast.*")
ACCESSES = re.compile(r".*\.(load|store|atomic).*")
CONSTANTS = re.compile(r"[if]\d\d\.const")

INSIDE = "constant addresses and indices inside"
ON_NULL = "accesses and calls by a reference that are applied to ref.null"
CAST_OF_NULL = "casts that are applied to ref.null"
CAST_BELOW = "branches on casts between two types"
BACK = "loops with a live branch back"
WITH_REFERENCE = "clauses with a reference"
EDGES = "constants that are edges"
OWN = "calls of the function itself"


@dataclasses.dataclass
class Counts:
    """Counts over all bodies: instructions, the live ones of each body and the depth of its deepest block, the kinds of live instructions,
    and of each figure those that it counts, and all that they are part of."""

    instructions: int = 0
    live: list = dataclasses.field(default_factory=list)
    depths: list = dataclasses.field(default_factory=list)
    kinds: collections.Counter = dataclasses.field(default_factory=collections.Counter)
    parts: collections.Counter = dataclasses.field(default_factory=collections.Counter)
    wholes: collections.Counter = dataclasses.field(default_factory=collections.Counter)

    def note(self, figure: str, counts: bool) -> None:
        """Adds one to a figure."""
        self.wholes[figure] += 1
        self.parts[figure] += counts


@dataclasses.dataclass
class Block:
    """An open block: its name, its type, how many values are below it, whether it is live, and whether a live branch targets it."""

    name: str
    ty: modules.FuncType
    below: int
    is_live: bool
    is_target: bool = False


class Body:
    """A body that is being read: its open blocks, the lines that left the values on the stack, and whether the next line is live."""

    def __init__(self, module: modules.Module, index: int, seen: Counts):
        self.module, self.index, self.seen = module, index, seen
        self.blocks, self.stack, self.is_live = [Block("func", module.types[module.funcs[index]], 0, True)], [], True

    def take(self, count: int) -> list:
        """Takes values off the stack, and returns the lines that left them, or None for those that dead code has without one."""
        taken = [self.stack.pop() if len(self.stack) > self.blocks[-1].below else None for _ in range(count)]
        return taken[::-1]

    def leave(self, line: str, count: int) -> None:
        """Puts values on the stack."""
        self.stack += [line] * count

    def branch(self, label: str, outside: int = 0) -> None:
        """Notes a branch to a label, counted from the block that is `outside` blocks further out."""
        if self.is_live:
            self.blocks[-1 - outside - int(label)].is_target = True

    def open(self, line: str) -> None:
        """Opens a block. Its parameters are values of no instruction."""
        name, items = line.split()[0], modules.form(line)
        if name == "if":
            self.take(1)
        used = modules.listed(items, "type")
        ty = self.module.types[int(used[0])] if used else modules.func_type(items)
        self.take(ty.params)
        for clause in [item for item in items if isinstance(item, list) and item[0].startswith("catch")]:
            self.branch(clause[-1])
            if self.is_live:
                self.seen.note(WITH_REFERENCE, clause[0].endswith("ref"))
        self.blocks.append(Block(name, ty, len(self.stack), self.is_live))
        self.leave(line, ty.params)

    def divide(self) -> None:
        """Ends the first arm of an `if`. Where that arm goes on, the end is reached."""
        block = self.blocks[-1]
        block.is_target |= self.is_live
        block.name, self.is_live = "else", block.is_live
        del self.stack[block.below :]
        self.leave("else", block.ty.params)

    def close(self) -> None:
        """Ends a block."""
        block = self.blocks.pop()
        if block.name == "loop":
            if block.is_live:
                self.seen.note(BACK, block.is_target)
        else:
            self.is_live |= block.is_target or (block.name == "if" and block.is_live)
        del self.stack[block.below :]
        self.leave(f"end of {block.name}", block.ty.results)

    def called(self, name: str, line: str) -> tuple:
        """Returns how many values a call takes and leaves."""
        if name.endswith("call"):
            return self.of_type(self.module.funcs[int(line.split()[1])], 0)
        used = modules.listed(modules.form(line), "type")
        return self.of_type(used[0] if used else line.split()[1], 1)

    def of_type(self, index, more: int) -> tuple:
        """Returns how many values a function type takes and leaves, and `more` operands."""
        ty = self.module.types[int(index)]
        return ty.params + more, ty.results

    def arity(self, name: str, line: str) -> tuple:
        """Returns how many values an instruction takes and leaves."""
        if "call" in name:
            return self.called(name, line)
        words = line.split()
        if name.startswith("br_on_") or name == "br_if":
            return 1, int(name not in ("br_on_non_null", "br_if"))
        if name in ("br", "return", "unreachable", "br_table"):
            return int(name == "br_table"), 0
        if name == "throw":
            return self.of_type(self.module.tags[int(words[1])], 0)
        if name == "throw_ref":
            return 1, 0
        if name == "struct.new":
            return self.module.types[int(words[1])], 1
        return (int(words[2]), 1) if name == "array.new_fixed" else values.arity(name)

    def step(self, line: str) -> None:
        """Reads an instruction."""
        words = line.split()
        name = words[0]
        if name == "else":
            return self.divide()
        if name == "end":
            return self.close()
        if OPENING.fullmatch(name):
            return self.open(line)
        takes, leaves = self.arity(name, line)
        operands = self.take(takes)
        if self.is_live:
            self.note(line, words, operands)
        for label in words[1:] if name in ("br", "br_table") else words[1:2] if name.startswith("br_") else []:
            self.branch(label)
        if LEAVING.fullmatch(name):
            self.is_live = False
            del self.stack[self.blocks[-1].below :]
        self.leave(line, leaves)

    def note(self, line: str, words: list, operands: list) -> None:
        """Adds what a live instruction is applied to."""
        name, seen = words[0], self.seen
        names = [operand.split()[0] if operand else None for operand in operands]
        if CONSTANTS.fullmatch(name):
            seen.note(EDGES, values.is_edge(line))
        if name == "call":
            seen.note(OWN, int(words[1]) == self.index)
        if ON_REFERENCE.fullmatch(name):
            at = -1 if name in ("call_ref", "throw_ref") else 0
            seen.note(ON_NULL, names[at] == "ref.null")
        if CASTS.fullmatch(name):
            seen.note(CAST_OF_NULL, names[0] == "ref.null")
        if name.startswith("br_on_cast"):
            seen.note(CAST_BELOW, len({re.sub("null ", "", of) for of in casts_of(line)}) > 1)
        at = self.place(name, words)
        if at and operands[at[0]] and values.integer(operands[at[0]]) is not None:
            seen.note(INSIDE, values.integer(operands[at[0]]) + at[1] <= at[2])

    def place(self, name: str, words: list):
        """Returns which operand of an access is its address or index, how far past that it ends, and the least size of what it accesses."""
        first = int(words[1]) if len(words) > 1 and words[1].isdecimal() else 0
        if ACCESSES.fullmatch(name) and name != "atomic.fence":
            offset = int(re.search(r"offset=(\d+)", " ".join(words))[1])
            return 0, offset + values.width(name), self.module.memories[first]
        if name in ("table.get", "table.set"):
            return 0, 1, self.module.tables[first]
        return (-1, 1, self.module.tables[first]) if name.endswith("call_indirect") else None


def casts_of(line: str) -> list:
    """Returns the two types of a branch on a cast, as they are written."""
    return [" ".join(item) if isinstance(item, list) else item for item in modules.form(line)[2:]]


def count(module: modules.Module, index: int, lines: list, seen: Counts) -> None:
    """Counts the body of a function."""
    body, live, deepest = Body(module, index, seen), 0, 0
    for line in (line for line in lines if line and not line.startswith(("(", ";"))):
        seen.instructions += 1
        deepest = max(deepest, len(body.blocks) - 1)
        name = line.split()[0]
        is_live = body.is_live or (name in ("else", "end") and body.blocks[-1].is_live)
        live += is_live
        seen.kinds[name] += is_live
        body.step(line)
    seen.live.append(live)
    seen.depths.append(deepest)
