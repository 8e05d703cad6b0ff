"""The parts of a module that the instructions of its bodies refer to, read from its text."""
import dataclasses
import re

STRING = re.compile(r'"(?:\\.|[^"\\])*"')
COMMENT = re.compile(r"\(;.*?;\)|;;.*")
TOKEN = re.compile(r"[()]|[^\s()]+")
PAGE = 1 << 16


@dataclasses.dataclass
class FuncType:
    """How many values a function takes and returns."""

    params: int
    results: int


@dataclasses.dataclass
class Module:
    """The types by their indices (a number is the number of fields), the types of functions and tags, the least sizes of tables in elements
    and of memories in bytes, and the bodies: the index of the function and its lines."""

    types: list = dataclasses.field(default_factory=list)
    funcs: list = dataclasses.field(default_factory=list)
    tags: list = dataclasses.field(default_factory=list)
    tables: list = dataclasses.field(default_factory=list)
    memories: list = dataclasses.field(default_factory=list)
    bodies: list = dataclasses.field(default_factory=list)


def form(text: str) -> list:
    """Returns the items of a text, each a word or a list of items. Texts in quotes are empty, and comments are left out."""
    lists = [[]]
    for token in TOKEN.findall(COMMENT.sub("", STRING.sub('""', text))):
        if token == "(":
            lists.append([])
        elif token == ")":
            whole = lists.pop()
            lists[-1].append(whole)
        else:
            lists[-1].append(token)
    return lists[0]


def listed(items: list, word: str) -> list:
    """Returns what follows a word in those lists of `items` that begin with it, all together."""
    return [part for item in items if isinstance(item, list) and item[:1] == [word] for part in item[1:]]


def func_type(items: list) -> FuncType:
    """Returns the type that the parameters and results among some items have."""
    return FuncType(len(listed(items, "param")), len(listed(items, "result")))


def composite(items: list):
    """Returns the function type of a definition, or the number of the fields of a struct, or 1 for an array."""
    last = items[-1]
    if last[0] == "sub":
        return composite(last)
    if last[0] == "func":
        return func_type(last)
    return len(listed(last, "field")) if last[0] == "struct" else 1


def least(items: list) -> int:
    """Returns the least size of a table or a memory: the first number."""
    return next(int(item) for item in items if isinstance(item, str) and item.isdecimal())


def add_entity(module: Module, items: list) -> None:
    """Adds a function, table, memory or tag, if it is one."""
    kind = items[0]
    if kind == "func":
        module.funcs.append(int(listed(items, "type")[0]))
    elif kind == "tag":
        module.tags.append(int(listed(items, "type")[0]))
    elif kind == "table":
        module.tables.append(least(items))
    elif kind == "memory":
        pages = listed(items, "pagesize")
        module.memories.append(least(items) * (int(pages[0], 0) if pages else PAGE))


def imported(items: list) -> list:
    """Returns the entities of an import, or of a group: each item with its own, or all of the same kind."""
    parts = [item for item in items[1:] if isinstance(item, list)]
    shared = [part for part in parts if part[0] != "item"]
    own = [part[-1] for part in parts if part[0] == "item" and isinstance(part[-1], list)]
    return own + shared * (len(parts) - len(own) - len(shared) or len(shared))


def add(module: Module, items: list) -> None:
    """Adds a part of a module."""
    if items[0] == "rec":
        module.types += [composite(item) for item in items[1:]]
    elif items[0] == "type":
        module.types.append(composite(items))
    elif items[0] == "import":
        for entity in imported(items):
            add_entity(module, entity)
    else:
        add_entity(module, items)


def depth(line: str) -> int:
    """Returns how many parentheses a line leaves open."""
    plain = STRING.sub("", line)
    return plain.count("(") - plain.count(")")


def read(text: str) -> Module:
    """Returns the parts of the module whose text this is. A body's lines are those after the first line of its function."""
    module, held, opened = Module(), [], 0
    for line in text.splitlines()[1:-1]:
        held.append(line.strip())
        opened += depth(line)
        if opened:
            continue
        if held[0].startswith("(func") and len(held) > 1:
            module.bodies.append((len(module.funcs), held[1:-1]))
            held[1:] = [")"]
        add(module, form(" ".join(held))[0]) if held[0].startswith("(") else None
        held = []
    return module
