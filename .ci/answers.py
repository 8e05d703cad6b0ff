"""What `smith_wasm` says of the files that `.ci/programs` gives it, and writes of them as text."""

# A module with an import and an export as text, as a person writes it and as the program prints it.
SHAPE_TEXT = """;; a shape
(module $library
  (import "env" "log" (func $log (param $code i32)))
  (; (export "log" (func $log)) ;)
  (func (export "r\\75n") (result i32) (local i64) (if (result i32) (i32.const 1) (then i32.const "\\")"))))
"""
PRINTED_SHAPE = (
    '(module\n  (type (;0;) (func (param i32)))\n  (type (;1;) (func (result i32)))\n  (import "env" "log" (func (;0;) (type 0) (param i32)))\n'
    '  (export "run" (func 1))\n  (func (;1;) (type 1) (result i32)\n    unreachable\n  )\n)\n'
)
# A module with a function without instructions as text, with and without names.
TEXT = "(module\n  (type (;0;) (func))\n  (func (;0;) (type 0)\n  )\n)\n"
NAMED_TEXT = '(module\n  ;; "m"\n  (type (;0;) (func))\n  ;; "a \\";)b"\n  (func (;0;) (type 0)\n    ;; 0 "x" 2 "y\\0a"\n  )\n)\n'
TWO_SUPERTYPES = "(module\n  (type (;0;) (sub (func)))\n  (type (;1;) (sub (func)))\n  (type (;2;) (sub 0 1 (func)))\n)\n"
# Seventy nested blocks in a function: no line is indented by more than 64 levels.
BLOCKS = 70
STEPS = ["  " * min(2 + step, 64) for step in range(BLOCKS)]
DEEP_TEXT = TEXT.replace("  )\n)", "".join([f"{step}block\n" for step in STEPS] + [f"{step}end\n" for step in reversed(STEPS)]) + "  )\n)")
# The sinks as text.
SINK_TEXT = (
    "(module\n  (global (;0;) (mut i32) i32.const 0)\n  (global (;1;) (mut i64) i64.const 0)\n  (global (;2;) (mut i64) i64.const 0)\n"
    '  (export "sink_i32" (global 0))\n  (export "sink_i64" (global 1))\n  (export "sink_i64_2" (global 2))\n)\n'
)
# The faults of two files.
CUT = "cut.wasm: malformed at byte 0x14: unexpected end: 00 00 03 02 01 00 0a 04 [01] 02 00\n"
UNKNOWN = "unknown.wasm: malformed at byte 0x12: unexpected section: 01 60 00 00 03 02 01 00 [7f] 10 11 12 13 14 15 16 17\n"

# What is said of the files.
NOTHING = "type mismatch: [i32 i32] expected, [] found"
JUDGED = {
    "adds.wasm": f"invalid: function 0, instruction 0 (i32.add) at 0x17: {NOTHING} (Validation, Numeric Instructions)",
    "cut.wasm": "malformed: unexpected end at 0x14",
    "empty.wasm": "malformed: unexpected end at 0x0",
    "label.wasm": "invalid: function 0, instruction 0 (br) at 0x17: "
    "unknown label 3: their number is 1 (Validation, Control Instructions)",
    "locals.wasm": "not judged: function 0 at 0x15: it has more than 50000 locals",
    "misnamed.wasm": "valid",
    "mixed.wasm": "invalid: function 0, instruction 2 (i32.add) at 0x1b: "
    "type mismatch: [i32 i32] expected, [i64 funcref] found (Validation, Numeric Instructions)",
    "module.wasm": "valid",
    "named.wasm": "valid",
    "shape.wasm": "valid",
    "tag.wasm": "valid",
    "twice.wasm": "invalid: export 1 at 0x19: an earlier export has this name (Validation, Modules)",
    "two_supertypes.wasm": "invalid: recursive type 2 at 0x15: type 2 has several supertypes (Validation, Recursive Types)",
    "undeclared.wasm": "invalid: function 0, instruction 0 (ref.func) at 0x17: "
    "function 0 is not declared (Validation, Reference Instructions)",
    "unknown.wasm": "malformed: unexpected section at 0x12",
    "unset.wasm": "invalid: function 0, instruction 0 (local.get) at 0x1a: local 0 is not set (Validation, Variable Instructions)",
}
IN_JSON = '{"file":"adds.wasm","answer":"invalid","rule":"numeric-instruction","number":15,"section":"Numeric Instructions"'
IN_JSON += f',"item":"function","index":0,"inner":0,"offset":23,"keyword":"i32.add","cause":"{NOTHING}","words":"{JUDGED["adds.wasm"]}"}}\n'
SUMS = "16 files: 5 valid, 7 invalid, 3 malformed, 1 not judged, 0 not read\n"
SUMS_IN_JSON = '{"files":16,"valid":5,"invalid":7,"malformed":3,"not-judged":1,"not-read":0}\n'

# An invalid file is written.
WRONG_INDEX = b"file\tanswer\toffset\trule\tfamily\ttwin\n0.wasm\tmalformed\t1\tunknown byte\tpreamble\ttwins/0.wasm\n"
WRONG_FILES = "smith_wasm: 1 invalid files written, 8 bytes, 0 inputs without a change, 0 inputs refused\n"
# The numbers of modules and of functions, and the progress at a terminal.
NO_BODIES = "smith_wasm: 0 functions with instructions\n"
BARS = "".join(f"\r[{'#' * filled:.<20}] {done} of 600" for done, filled in ((0, 0), (256, 8), (512, 17)))
PROGRESS = f"{BARS}\r\nsmith_wasm: 600 modules written, 4800 bytes, 0 inputs refused\r\n{NO_BODIES[:-1]}\r\n"
# Why there is no file.
NO_CHANGE = "no change of these families that was tried makes the file invalid\n"
NOT_A_NUMBER = '"x" is not a value of --max-types, which takes a whole number below 2^64\n'
NO_BINARY = "a binary is not written to a terminal: name a file with --output, or use --wat for text\n"
NO_INVALID = "a binary is not written to a terminal: name a file with --output\n"
RAW_BODY = "refused: a body is raw bytes\n"
