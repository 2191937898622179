"""Studies as text, from Python: the proved reader and writer of the format that docs/STUDY.md describes.

    import katydidzinc as kz

    study = kz.read("examples/studies/knee.study")
    study.load()
    study.build()
    study.sweep(20)
    print(study.joint_names, study.table())

`read` and `loads` give a Study with the names, settings, bodies and joints of a text; a text that cannot be read raises `StudyError`. The calls of a text are read, so that a fault in one of them is
told, and not run: `study.calls` has their lines. `study.text()` is a model's text. include/katydidzinc_study.h describes the functions, and this module has its names and numbers.
"""

from __future__ import annotations

import ctypes
import os
import re
from typing import List, NamedTuple, Union

import katydidzinc as kz

# ---- the header's numbers

TEXT_MOST, TEXT_BODIES, TEXT_JOINTS, TEXT_NUMBERS, TEXT_WORDS, TEXT_ORIGINS, TEXT_JOINT_NAMES, TEXT_NAMES = 129, 3, 1293, 6711, 1548, 8259, 258, 516
TEXT_DT, TEXT_LENGTH_UNIT, TEXT_MAX_CORRECTIVE_VELOCITY = range(3)
TEXT_GRANTED = 4294967296
FAULT_UNKNOWN, FAULT_NAME, FAULT_TAKEN, FAULT_NO_BODY, FAULT_NUMBER, FAULT_DIGITS, FAULT_LINE_END, FAULT_AXIS, FAULT_BODIES_FULL = range(1, 10)
FAULT_JOINTS_FULL, FAULT_AFTER_CALLS, FAULT_ELSEWHERE, FAULT_WHOLE_NUMBER, FAULT_NO_JOINT, FAULT_NO_REPEAT, FAULT_NESTED = range(10, 17)
FAULT_OPEN_REPEAT, FAULT_MODEL, FAULT_WORLD_NAME, FAULT_WARM, FAULT_CSV, FAULT_FILE_NAME, FAULT_LONG_NAME, FAULT_PLAIN_NAME, FAULT_MASK, FAULT_SUBSTEPS = range(17, 27)

FAULTS = {
    FAULT_UNKNOWN: "no line starts with this word; `study --help` lists those that do",
    FAULT_NAME: "expected a name",
    FAULT_TAKEN: "this name is taken",
    FAULT_NO_BODY: "no body above has this name (`world` is the world)",
    FAULT_NUMBER: "expected a number: a decimal, 0x and eight hexadecimal digits, inf or -inf",
    FAULT_DIGITS: "more than 19 significant digits; write fewer, or its bits as 0x and eight digits",
    FAULT_LINE_END: "expected the end of the line",
    FAULT_AXIS: "expected an axis: x, y or angle",
    FAULT_BODIES_FULL: "more than 129 bodies cannot be read (a model has at most 128)",
    FAULT_JOINTS_FULL: "more than 129 joints cannot be read (a model has at most 128)",
    FAULT_AFTER_CALLS: "bodies, joints and settings stand before the first call",
    FAULT_ELSEWHERE: "this word belongs to another kind of item: settings, body or joint",
    FAULT_WHOLE_NUMBER: "expected a whole number from 0 to 4294967289",
    FAULT_NO_JOINT: "no joint has this name",
    FAULT_NO_REPEAT: "`end` without a `repeat`",
    FAULT_NESTED: "a `repeat` inside a `repeat` is not read",
    FAULT_OPEN_REPEAT: "this `repeat` has no `end`",
    FAULT_MODEL: "expected `acceleration` or `force`",
    FAULT_WORLD_NAME: "`world` is the world's name; expected another",
    FAULT_WARM: "expected `warm` and a coefficient, `substep` and a number, or the end of the line",
    FAULT_CSV: "expected `csv` or the end of the line",
    FAULT_FILE_NAME: "expected the name of a file",
    FAULT_LONG_NAME: "a name has at most 64 bytes",
    FAULT_PLAIN_NAME: "a name has no comma and no quote, so that it is a field of comma-separated values",
    FAULT_MASK: "expected `lock`, `limit`, `motor` or `couple`, and then axes (x, y, angle) or a mask as a number",
    FAULT_SUBSTEPS: "expected `sweeps` and a number, then `substeps` and a number (`warm` and a coefficient may stand before them)",
}


class StudyError(ValueError):
    """A text that cannot be read: the `fault`'s number, its `line` and `column` from 1 (a column is counted in bytes), what was `expected` in words, and the `name` of what was read."""

    def __init__(self, fault: int, line: int, column: int, name: str = "text") -> None:
        super().__init__(fault, line, column, name)
        self.fault, self.line, self.column, self.name = fault, line, column, name
        self.expected = FAULTS.get(fault, "no fault of this library")

    def __str__(self) -> str:
        return f"{self.name}:{self.line}:{self.column}: {self.expected}"


class CallLine(NamedTuple):
    """A call of a study's text that was read and not run: the number of its line, from 1, and its words."""

    line: int
    text: str


class _Read(ctypes.Structure):
    _fields_ = [
        ("fault", ctypes.c_uint32),
        ("bodies", ctypes.c_uint32),
        ("joints", ctypes.c_uint32),
        ("line", ctypes.c_uint64),
        ("column", ctypes.c_uint64),
        ("calls", ctypes.c_size_t),
    ]


_slice = (ctypes.c_void_p, ctypes.c_size_t)
kz._lib.katydidzinc_read_study.argtypes, kz._lib.katydidzinc_read_study.restype = _slice * 5, _Read
kz._lib.katydidzinc_write_study.argtypes, kz._lib.katydidzinc_write_study.restype = (ctypes.c_float,) * 3 + _slice * 4, ctypes.c_size_t


# a file's name in quotes, which may hold what starts a comment elsewhere
_quoted = re.compile(rb'[ \t\r]*set_targets[ \t\r]+"[^"]*"')


def _uncommented(line: bytes) -> bytes:
    name = _quoted.match(line)
    at = name.end() if name else 0
    return (line[:at] + line[at:].split(b"#")[0]).strip(b" \t\r")


def _call_lines(text: bytes, at: int) -> List[CallLine]:
    """The lines from a place on that hold a word, without comments."""
    first = text.count(b"\n", 0, at) + 1
    lines = ((first + i, _uncommented(line)) for i, line in enumerate(text[at:].split(b"\n")))
    return [CallLine(number, _decoded(words)) for number, words in lines if words]


def _decoded(name: bytes) -> str:
    return name.decode("utf-8", "surrogateescape")


def loads(text: Union[str, bytes, bytearray], name: str = "text") -> kz.Study:
    """The study that a text, str or bytes, describes: a Study with its settings, bodies, joints and names. Its calls are not run: `calls` has their lines, a CallLine each. Where the text has a fault,
    StudyError tells the first, under `name`."""
    if not kz.float_mode():
        raise kz.Refused("read_study", kz.FLOAT_MODE)
    told = text.encode("utf-8", "surrogateescape") if isinstance(text, str) else bytes(text)
    if len(told) >= 2**32:
        raise OverflowError("a text has fewer than 4294967296 bytes")
    numbers, origins = (ctypes.c_float * TEXT_NUMBERS)(), (ctypes.c_uint32 * TEXT_ORIGINS)()
    words, names = (ctypes.c_uint32 * TEXT_WORDS)(), (ctypes.c_uint32 * TEXT_NAMES)()
    lent = (ctypes.c_char * (len(told) + 1)).from_buffer_copy(told + b"\0")
    found = kz._lib.katydidzinc_read_study(lent, len(told), numbers, len(numbers), origins, len(origins), words, len(words), names, len(names))
    if found.fault:
        raise StudyError(found.fault, found.line, found.column, name)
    study = kz.Study()
    study.dt, study.length_unit, study.normalized_max_corrective_velocity = numbers[:TEXT_BODIES]

    def named(first: int, count: int) -> List[str]:
        return [_decoded(told[names[k] : names[k + 1]]) for k in range(first, first + 2 * count, 2)]

    study.body_names, study.joint_names = named(0, found.bodies), named(TEXT_JOINT_NAMES, found.joints)
    study.bodies = study._floats(numbers[TEXT_BODIES : TEXT_BODIES + found.bodies * kz.BODY_WIDTH], kz.BODY_WIDTH)
    study.words = study._integers(words[: found.joints * kz.WORDS_WIDTH], kz.WORDS_WIDTH)
    study.numbers = study._floats(numbers[TEXT_JOINTS : TEXT_JOINTS + found.joints * kz.NUMBERS_WIDTH], kz.NUMBERS_WIDTH)
    study.rows = study._floats([0.0] * (found.joints * kz.MOST_ROWS * kz.ROW_WIDTH), kz.ROW_WIDTH)
    study.calls = _call_lines(told, found.calls)
    return study


def read(path: Union[str, "os.PathLike[str]"]) -> kz.Study:
    """The study that a file's text describes, as by loads()."""
    with open(path, "rb") as file:
        return loads(file.read(), str(path))


def text(study: kz.Study) -> str:
    """The text of the study's model, in one spelling: a study with no call, every number as its bits, nothing left out. Names are not kept: bodies are b0, b1, .. and joints j0, j1, ... What loads()
    reads of it is the same model, if its load is not refused by rules 1 to 4; that is proved. Rows, the mark and `calls` are no part of it. A model of more than 128 bodies or joints is refused."""
    slices = [study._slice(study.bodies, "f"), study._slice(study.words, "IL"), study._slice(study.numbers, "f")]
    flat = [study.dt, study.length_unit, study.normalized_max_corrective_velocity, *(part for one in slices for part in one)]
    length = kz._lib.katydidzinc_write_study(*flat, (ctypes.c_char * 1)(), 0)
    if length == 0:
        raise kz.Refused("write_study", kz.TOO_MANY_BODIES if slices[0][1] // kz.BODY_WIDTH > kz.MOST_BODIES else kz.TOO_MANY_JOINTS)
    out = (ctypes.c_char * length)()
    kz._lib.katydidzinc_write_study(*flat, out, length)
    return bytes(out.raw).decode("ascii")
