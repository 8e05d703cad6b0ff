"""What instructions take and leave, by their names, and the values of constants."""
import functools
import math
import re

UNARY = (
    r"clz|ctz|popcnt|eqz|abs|neg|ceil|floor|trunc|nearest|sqrt|extend.*|wrap_.*|trunc_.*|convert_.*|demote.*|promote.*|reinterpret_.*"
    r"|splat|extract_lane.*|all_true|any_true|not|bitmask|extadd_.*|relaxed_trunc_.*"
)

# The first pattern that fits a name has the number of its operands, and that of its results.
ARITIES = [
    (r"nop|atomic\.fence|(data|elem)\.drop", 0, 0),
    (r".*\.const|(local|global)\.get|ref\.(null|func)|(memory|table)\.size|struct\.new_default", 0, 1),
    (r"drop|(local|global)\.set", 1, 0),
    (r"select", 3, 1),
    (r"(table|memory)\.(fill|copy|init)", 3, 0),
    (r"table\.set|.*\.store.*|struct\.set", 2, 0),
    (r"memory\.atomic\.wait..|.*cmpxchg.*", 3, 1),
    (r"table\.grow|memory\.atomic\.notify|.*\.rmw.*|v128\.load\d+_lane", 2, 1),
    (r".*\.load.*|table\.get|memory\.grow|local\.tee", 1, 1),
    (r"array\.(get.*|new|new_data|new_elem)|ref\.eq", 2, 1),
    (r"array\.set", 3, 0),
    (r"array\.(fill|init_.*)", 4, 0),
    (r"array\.copy", 5, 0),
    (r"i64\.(add|sub)128", 4, 2),
    (r"i64\.mul_wide_.", 2, 2),
    (r"v128\.bitselect|.*\.relaxed_(n?madd|laneselect)|i32x4\.relaxed_dot_.*", 3, 1),
    (rf".*\.({UNARY})|(ref|i31|any|extern|array|struct)\..*", 1, 1),
    (r".*", 2, 1),
]


@functools.cache
def arity(name: str) -> tuple:
    """Returns how many values an instruction takes and leaves, if both depend on its name alone."""
    return next((takes, leaves) for pattern, takes, leaves in ARITIES if re.fullmatch(pattern, name))


@functools.cache
def width(name: str) -> int:
    """Returns the bytes of an access to a memory."""
    bits = re.search(r"(?:load|store|rmw|wait)(\d+)(x\d)?", name)
    if bits:
        return int(bits[1]) // 8 * (int(bits[2][1:]) if bits[2] else 1)
    return {"i32": 4, "f32": 4, "i64": 8, "f64": 8, "v128": 16, "memory": 4}[name.split(".")[0]]


def integer(line: str):
    """Returns the value of a constant of integers, not negative, or None for another instruction."""
    name, _, value = line.partition(" ")
    if name not in ("i32.const", "i64.const"):
        return None
    return int(value) % (1 << int(name[1:3]))


def is_edge_of_floats(bits: int, value: float) -> bool:
    """Returns whether a float is zero, infinite, no number, subnormal, or a power of two or next to one."""
    if value == 0 or math.isinf(value) or math.isnan(value):
        return True
    precision, least = (24, -126) if bits == 32 else (53, -1022)
    mantissa = int(math.frexp(abs(value))[0] * (1 << precision))
    return abs(value) < 2.0**least or mantissa in (1 << precision - 1, (1 << precision - 1) + 1, (1 << precision) - 1)


def is_edge(line: str) -> bool:
    """Returns whether a constant is a value that code often handles wrongly."""
    name, _, value = line.partition(" ")
    if name[0] == "f":
        return value.lstrip("-")[:3] in ("nan", "inf") or is_edge_of_floats(int(name[1:3]), float.fromhex(value))
    size = abs(int(value))
    return any(near & (near - 1) == 0 for near in (size - 1, size, size + 1) if near >= 0)
