"""Valid WebAssembly modules from bytes, and files that are no valid modules, by libsmith.so.

The library is the one that SMITH_LIBRARY names, or else the one next to this file, in `lib` of its installation, or in `dist` of its
checkout.
"""
from __future__ import annotations

import ctypes
import dataclasses
import json
import os
import pathlib
import typing

__version__ = "0.11.0"

Bytes = typing.Union[bytes, bytearray, memoryview]
Shape = typing.Union[str, bytes, bytearray, memoryview]


class Answer(ctypes.Structure):
    """The outcome of a call, as in smith.h."""

    _fields_ = [("status", ctypes.c_uint32), ("length", ctypes.c_size_t)]


class Refused(Exception):
    """There is no module. `status` is the number that smith.h names."""

    def __init__(self, status: int, words: str):
        super().__init__(words)
        self.status = status


def _path() -> str:
    """Returns the path of the library. Raises `ImportError` with what makes it if there is none."""
    if "SMITH_LIBRARY" in os.environ:
        return os.environ["SMITH_LIBRARY"]
    here = pathlib.Path(__file__).resolve().parent
    folders = [here, here.parent / "lib", here.parent.parent / "dist"]
    for folder in folders:
        if (folder / "libsmith.so").is_file():
            return str(folder / "libsmith.so")
    raise ImportError(
        f"no libsmith.so in {', '.join(map(str, folders))}. At the top of the checkout, `./build --unproved` makes it in minutes, "
        "and `./build` proves it first; or let SMITH_LIBRARY name it"
    )


class _Kept(ctypes.Structure):
    """A configuration that is read, as in smith.h: plain memory."""

    _fields_ = [("words", ctypes.c_uint64 * 48)]


class _Shapes(ctypes.Structure):
    """The bytes of shapes, as in smith.h."""

    _fields_ = [
        (name + end, kind)
        for name in ("available_imports", "exports", "module_shape")
        for end, kind in (("", ctypes.c_char_p), ("_length", ctypes.c_size_t))
    ]


class _Numbers(ctypes.Structure):
    """What a file is, as in smith.h."""

    _fields_ = [(name, ctypes.c_uint32) for name in ("kind", "rule", "reason", "item")]
    _fields_ += [(name, ctypes.c_uint64) for name in ("index", "inner", "offset")]


class _Fault(ctypes.Structure):
    """What is said of an invalid file, as in smith.h."""

    _fields_ = [("verdict", _Numbers), ("family", ctypes.c_uint32)]


_MADE, _SHORT, _NO_CHANGE = 0, 1, 9
_LIBRARY = ctypes.CDLL(_path())
_BYTES = [ctypes.c_char_p, ctypes.c_size_t]
_TAKES = {"smith_check": _BYTES * 2 + [ctypes.POINTER(_Numbers)] + _BYTES}
_TAKES |= {"smith_config_read": _BYTES + [ctypes.POINTER(_Kept)], "smith_refusal": _BYTES * 3}
_SHAPED = [ctypes.POINTER(_Kept), ctypes.POINTER(_Shapes)] + _BYTES * 2
_TAKES |= {f"smith_{name}_shaped": _SHAPED for name in ("binary", "text", "wat", "refusal")}
_FAMILIES = [ctypes.POINTER(ctypes.c_uint32), ctypes.c_size_t]
_TAKES["smith_invalid_shaped"] = _SHAPED[:-2] + _FAMILIES + [ctypes.POINTER(_Fault)] + _BYTES
for _name, _kinds in _TAKES.items():
    getattr(_LIBRARY, _name).restype = Answer
    getattr(_LIBRARY, _name).argtypes = _kinds


def _output(call, *given) -> tuple:
    """Returns the status and the output of a call, from a buffer that is enlarged once if necessary."""
    room = 1 << 16
    while True:
        buffer = ctypes.create_string_buffer(room)
        answer = call(*given, buffer, room)
        if answer.status != _SHORT:
            return answer.status, buffer[: answer.length]
        room = answer.length


def _text_of(config: str | dict) -> bytes:
    """Returns the text of a configuration."""
    if isinstance(config, dict):
        return json.dumps(config).encode()
    if isinstance(config, str):
        return config.encode()
    raise TypeError(f"a configuration must be a Config, a str or a dict, not {type(config).__name__}")


def _bytes_of(shape: Shape | None) -> bytes:
    return shape.encode() if isinstance(shape, str) else bytes(memoryview(shape or b""))


class Config:
    """A configuration that is read once, for any number of modules, and its shapes, which are read for each. Any number of threads may use
    it at the same time."""

    def __init__(
        self,
        config: str | dict = "",
        *,
        available_imports: Shape | None = None,
        exports: Shape | None = None,
        module_shape: Shape | None = None,
    ):
        """Reads a JSON object, as text or as a dictionary, or empty for the default. Raises `Refused` if it is none.

        A shape is a module in the binary or the text format, or empty for none. One that is no module is refused with each module.
        """
        given = [_bytes_of(shape) for shape in (available_imports, exports, module_shape)]
        self._shapes = _Shapes(*(part for data in given for part in (data, len(data))))
        words = self._text = _text_of(config)
        self._kept = _Kept()
        status = _LIBRARY.smith_config_read(words, len(words), self._kept).status
        if status != _MADE:
            raise Refused(status, _output(_LIBRARY.smith_refusal, words, len(words), b"", 0)[1].decode())


def _config_of(config: Config | str | dict, shapes: dict) -> Config:
    """Returns a configuration, which is read unless it is read already."""
    if not isinstance(config, Config):
        return Config(config, **shapes)
    if shapes:
        raise TypeError("a Config takes its shapes when it is made")
    return config


def _made(call, config: Config | str | dict, given: Bytes, shapes: dict) -> bytes:
    config, data = _config_of(config, shapes), bytes(memoryview(given))
    words = config._kept, config._shapes, data, len(data)
    status, output = _output(call, *words)
    if status != _MADE:
        raise Refused(status, _output(_LIBRARY.smith_refusal_shaped, *words)[1].decode())
    return output


def module(given: Bytes, config: Config | str | dict = "", **shapes: Shape) -> bytes:
    """Returns the module of `given`, with bodies of instructions, in the binary format.

    `config` is a `Config`, or what it is made of, with shapes as keywords, which is then read for this module alone. Raises `Refused` if
    there is no module.
    """
    return _made(_LIBRARY.smith_binary_shaped, config, given, shapes)


def text(given: Bytes, config: Config | str | dict = "", **shapes: Shape) -> str:
    """Returns the same module in the text format, and after it comments with values that the format cannot express."""
    return _made(_LIBRARY.smith_text_shaped, config, given, shapes).decode()


def wat(given: Bytes, config: Config | str | dict = "", **shapes: Shape) -> str:
    """Returns the same module in the text format, for readers: with the parameters and results of each function type that is used."""
    return _made(_LIBRARY.smith_wat_shaped, config, given, shapes).decode()


@dataclasses.dataclass(frozen=True)
class Verdict:
    """What a file is, by the numbers that smith.h names, and in words. `inner` and `offset` are None where there is none."""

    kind: int
    rule: int
    reason: int
    item: int
    index: int
    inner: int | None
    offset: int | None
    words: str

    @property
    def is_valid(self) -> bool:
        """Whether the file is a valid module."""
        return self.kind == 0


_NOWHERE = 2**64 - 1


def check(file: Bytes, config: Config | str | dict | None = None) -> Verdict:
    """Returns whether `file` is a valid module in the binary format, and if not, where and by which rule.

    All features are on that are known, changed by the fields that `config` sets. Raises `Refused` if `config` is none, or for lack of memory.
    """
    words = config._text if isinstance(config, Config) else _text_of(config or "")
    data, numbers = bytes(memoryview(file)), _Numbers()
    status, output = _output(_LIBRARY.smith_check, words, len(words), data, len(data), numbers)
    if status != _MADE:
        raise Refused(status, _output(_LIBRARY.smith_refusal, words, len(words), b"", 0)[1].decode() or "out of memory")
    found = [None if name in ("inner", "offset") and value == _NOWHERE else value for name, value in _values(numbers)]
    return Verdict(*found, output.decode())


def _values(numbers: _Numbers) -> list:
    return [(name, getattr(numbers, name)) for name, _ in numbers._fields_]


FAMILIES = (
    "operand-type", "missing-operand", "extra-operand", "block-type", "function-result", "index-past-end", "other-entity",
    "reference-type", "label", "cast-hierarchy", "tail-call", "dead-code", "unset-local", "immutable-global", "immutable-field",
    "packed-field", "undeclared-function", "alignment", "offset", "lane", "supertype", "final-type", "forward-reference", "limits",
    "duplicate-export", "export-index", "start-function", "constant-type", "non-constant", "later-global", "function-type", "tag-type",
    "import-type", "element-segment", "data-segment", "long-integer", "unused-bits", "section-size", "body-size", "list-count",
    "function-count", "data-count", "section-order", "section-twice", "unknown-section", "left-over-byte", "not-utf8", "unknown-flag",
    "unknown-type", "unknown-opcode", "missing-end", "second-end", "preamble", "cut-file",
    "data-count-missing",
)
"""The families of changes that make a module an invalid file, in the order of their numbers in smith.h."""


@dataclasses.dataclass(frozen=True)
class Invalid:
    """A file that is no valid module: its bytes, the family of the change, and its first fault, by the numbers that smith.h names. `inner`
    is None where there is none."""

    file: bytes
    family: str
    kind: int
    rule: int
    reason: int
    item: int
    index: int
    inner: int | None
    offset: int


def _number_of(family: str) -> int:
    if family not in FAMILIES:
        raise ValueError(f"`{family}` names no family of changes")
    return FAMILIES.index(family) + 1


def invalid(given: Bytes, config: Config | str | dict = "", families: typing.Iterable[str] = (), **shapes: Shape) -> Invalid:
    """Returns the module of `given` with one change that breaks a rule, of one of `families`, or of any if there are none.

    The file is invalid under the features that `config` turns on, and may be valid under more. Raises `Refused` if there is no module, or,
    with status 9, if no change that was tried breaks a rule, and `ValueError` if a name is that of no family.
    """
    config, data = _config_of(config, shapes), bytes(memoryview(given))
    numbers, fault = [_number_of(family) for family in families], _Fault()
    chosen = (ctypes.c_uint32 * max(len(numbers), 1))(*numbers)
    words = config._kept, config._shapes, data, len(data)
    status, output = _output(_LIBRARY.smith_invalid_shaped, *words, chosen, len(numbers), fault)
    if status == _NO_CHANGE:
        raise Refused(status, "no change that was tried breaks a rule")
    if status != _MADE:
        raise Refused(status, _output(_LIBRARY.smith_refusal_shaped, *words)[1].decode() or "out of memory")
    found = [None if name == "inner" and value == _NOWHERE else value for name, value in _values(fault.verdict)]
    return Invalid(output, FAMILIES[fault.family - 1], *found)
