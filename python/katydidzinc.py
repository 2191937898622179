"""The planar scalar f32 joint rows of rapier2d 0.36.1, proved, from Python.

    import katydidzinc as kz

    study = kz.Study(
        bodies=[kz.Body("bob", position=(1.0, 0.0), mass=1.0, inertia=0.1)],
        joints=[kz.Joint("pin", "world", "bob", locked_axes="x y", frame2=kz.Pose(x=-1.0))],
    )
    study.load()
    study.build()
    study.sweep(4)
    print(study.table())

A study holds its model in flat arrays, `bodies`, `words`, `numbers` and `rows`: numpy's where numpy is installed, else those of the module array. A caller
may read and write them between calls. include/katydidzinc.h describes the records and the calls, and this module has its names and numbers. A call that is
refused raises `Refused` and leaves everything as it was. `space` is the same for joints in space. docs/PYTHON.md is the guide.
"""

from __future__ import annotations

import array
import collections
import concurrent.futures
import copy
import ctypes
import dataclasses
import difflib
import functools
import inspect
import itertools
import math
import operator
import os
import pathlib
import struct
import sys
import time
from typing import Any, Callable, Dict, Iterable, Iterator, List, Mapping, NamedTuple, Optional, Sequence, Tuple, Type, TypeVar, Union, cast

try:
    import numpy
except ImportError:
    numpy = None  # type: ignore[assignment]

__version__ = "1.0.0"

# ---- the header's numbers

VERSION_MAJOR, VERSION_MINOR, VERSION_PATCH, LAYOUT = 1, 0, 0, 1
WORLD = 4294967295
MOST_BODIES, MOST_JOINTS, MOST_ROUNDS, MOST_SUBSTEPS, MOST_ROWS = 128, 128, 64, 16, 6
POSE_RE, POSE_IM, POSE_X, POSE_Y = range(4)
BODY_WIDTH = 10
POSE, INERTIA, MASS_X, MASS_Y, VELOCITY_X, VELOCITY_Y, VELOCITY_ANGULAR = 0, 4, 5, 6, 7, 8, 9
WORDS_WIDTH = 12
BODY1, BODY2, LOCKED_AXES, LIMIT_AXES, MOTOR_AXES, COUPLED_AXES, MODEL_X, MODEL_Y, MODEL_ANGULAR, ENABLED, CENTER_CHOICE, FIRST_ROW = range(12)
LIN_X, LIN_Y, ANG_X, ALL_AXES = 1, 2, 4, 7
ACCELERATION_BASED, FORCE_BASED = 0, 1
JOINT_ENABLED, JOINT_DISABLED_BY_ATTACHED_BODY, JOINT_DISABLED = range(3)
CENTER_COSINE_SINE, CENTER_ANGLE = 0, 1
NUMBERS_WIDTH = 42
FRAME1, FRAME2, LIMITS_X, LIMITS_Y, LIMITS_ANGULAR, MOTOR_X, MOTOR_Y, MOTOR_ANGULAR = 0, 4, 8, 11, 14, 17, 23, 29
NATURAL_FREQUENCY, DAMPING_RATIO, DOF_X, DOF_Y, DOF_ANGULAR, CENTER_RE, CENTER_IM = range(35, 42)
LIMITS_WIDTH, LIMIT_MIN, LIMIT_MAX, LIMIT_IMPULSE = 3, 0, 1, 2
MOTOR_WIDTH, MOTOR_TARGET_VEL, MOTOR_TARGET_POS, MOTOR_STIFFNESS, MOTOR_DAMPING, MOTOR_MAX_FORCE, MOTOR_IMPULSE = 6, 0, 1, 2, 3, 4, 5
ROW_WIDTH = 18
ROW_IMPULSE, ROW_IMPULSE_MIN, ROW_IMPULSE_MAX, ROW_LIN_JAC, ROW_ANG_JAC1, ROW_ANG_JAC2, ROW_II_ANG_JAC1, ROW_II_ANG_JAC2 = 0, 1, 2, 3, 5, 6, 7, 8
ROW_INV_LHS, ROW_RHS, ROW_RHS_WO_BIAS, ROW_CFM_GAIN, ROW_CFM_COEFF, ROW_IM1, ROW_IM2 = 9, 10, 11, 12, 13, 14, 16
ID_DOF, ID_LIMIT, ID_MOTOR = 0, 4, 8
READ_NUMBERS, READ_IDS, VELOCITY_NUMBERS, REACTION_NUMBERS = 108, 6, 3, 9
MOST_RECORDS, LARGEST_SIZE, TABLE_REFUSED = 4096, 8000000, 4294967296
GRANTED, ROWS_GRANTED = 0, 4294967296
SEEDED_GRANTED = 4294967296
SEEDED_SETTINGS, SEEDED_BODIES, SEEDED_WORDS, SEEDED_NUMBERS, SEEDED_ROWS = 3, 80, 96, 336, 48
MICRO_OVER, MICRO_NAN = 4294967296, 8589934592

TOO_MANY_BODIES, TOO_MANY_JOINTS, LARGE_MASK, ABSENT_BODY, SAME_BODY, NOT_FINITE = range(1, 7)
NEGATIVE_DT, SMALL_STORAGE, TOO_MANY_ROUNDS, NOT_BUILT, ABSENT, LARGE_ANGLE = range(7, 13)
BROKEN_TABLE, NOT_THREE_NUMBERS, ABSENT_AXIS, SUBSTEPS, NOT_LINEAR = range(13, 18)
SHORT_SLICE, BAD_SLICE, OVERLAP, FLOAT_MODE = range(1000, 1004)

RULES = {
    TOO_MANY_BODIES: "more than 128 bodies are given",
    TOO_MANY_JOINTS: "more than 128 joints are given",
    LARGE_MASK: "a mask exceeds 7, in space 63",
    ABSENT_BODY: "a joint names a body that is neither present nor the world",
    SAME_BODY: "a joint names one body twice",
    NOT_FINITE: "a number is NaN or infinite",
    NEGATIVE_DT: "dt is below zero",
    SMALL_STORAGE: "row storage holds fewer rows than the joints make",
    TOO_MANY_ROUNDS: "a sweep of more than 64 rounds is wanted",
    NOT_BUILT: "the model is not built",
    ABSENT: "the joint or body asked for is absent",
    LARGE_ANGLE: "a centre's typed angle exceeds 1024 in size",
    BROKEN_TABLE: "a motor table breaks RFC 4180's grammar or holds more than 4096 records",
    NOT_THREE_NUMBERS: "a record is not exactly three whole numbers, each at most 8000000 in size",
    ABSENT_AXIS: "a record's joint or axis is absent",
    SUBSTEPS: "a frame of no substep or of more than 16 is wanted",
    NOT_LINEAR: "a joint in space has a coupled axis, or a limit or a motor on an angular axis",
    SHORT_SLICE: "a slice is too short for what is read, counted or drawn",
    BAD_SLICE: "a slice is NULL, not aligned or longer than memory",
    OVERLAP: "two slices overlap",
    FLOAT_MODE: "the processor does not round to nearest, or takes subnormal numbers for zero",
}

MAX = struct.unpack("f", struct.pack("I", 0x7F7FFFFF))[0]
"""f32::MAX."""
PI = struct.unpack("f", struct.pack("I", 0x40490FDB))[0]
"""f32's π."""


class Place(NamedTuple):
    """Where a rule is broken: a setting by its name; a body or a joint by its name and its number, and what of it; or the call itself."""

    kind: str
    name: str
    number: Optional[int]
    field: str

    def __str__(self) -> str:
        if self.number is None:
            what = "the call itself" if self.kind == "call" else f"{self.kind} {self.name}"
        else:
            what = f"{self.kind} {self.name!r} (number {self.number})" if self.name else f"{self.kind} number {self.number}"
        return f"{what}, {self.field}" if self.field else what


class Refused(Exception):
    """A call was refused: `call`, the rule's `number`, the `rule` in words, and, of a rule that is about one of these, `place`: the first setting, body or joint that breaks it.

    Of a `simulate` that was refused, `motion` holds the frames before.
    """

    motion: Optional[Motion] = None

    def __init__(self, call: str, number: int, place: Optional[Place] = None) -> None:
        self.call, self.number, self.place, self.rule = call, number, place, RULES.get(number, "no answer of this library")
        super().__init__(f"{call} is refused by rule {number}: {self.rule}" + (f"; here: {place}" if place else ""))

    def __repr__(self) -> str:
        return f"Refused({self.call!r}, {self.number!r}, {self.place!r})"

    def __eq__(self, other: object) -> bool:
        return isinstance(other, Refused) and (self.call, self.number, self.place) == (other.call, other.number, other.place)

    def __hash__(self) -> int:
        return hash((self.call, self.number, self.place))

    def __reduce__(self) -> Tuple[Any, ...]:
        return type(self), (self.call, self.number, self.place), self.__dict__


def _meant(name: str, known: Iterable[str]) -> str:
    """What a wrong name was meant to be, for the end of a message."""
    known = [one for one in known if one]
    near = difflib.get_close_matches(name, known, 1)
    return f": did you mean {near[0]!r}?" if near else f"; there is {', '.join(known)}" if known else ""


_F = TypeVar("_F", bound=Callable[..., Any])
_T = TypeVar("_T")


def _helped(function: _F) -> _F:
    """The function, which tells what was meant where it has no argument of a name."""
    kinds = (inspect.Parameter.KEYWORD_ONLY, inspect.Parameter.POSITIONAL_OR_KEYWORD)
    known = [p.name for p in inspect.signature(function).parameters.values() if p.kind in kinds and p.name != "self"]

    @functools.wraps(function)
    def helped(*arguments: Any, **named: Any) -> Any:
        for name in named:
            if name not in known:
                title = type(arguments[0]).__name__ if function.__name__ == "__init__" else function.__qualname__
                raise TypeError(f"{title} has no {name!r}{_meant(name, known)}")
        return function(*arguments, **named)

    return cast(_F, helped)


def _named(of: Type[_T]) -> Type[_T]:
    """The class, whose making is helped so."""
    setattr(of, "__init__", _helped(of.__init__))
    return of


# ---- the library


def _library() -> ctypes.CDLL:
    here = pathlib.Path(__file__).resolve().parent
    name = "libkatydidzinc.so"
    places = [
        os.environ.get("KATYDIDZINC_LIBRARY"),
        here / name,
        here.parent / "target" / "lib" / name,  # the repository
        here.parent.parent / name,  # PREFIX/lib/python3.x/site-packages
    ]
    for place in places:
        if place and pathlib.Path(place).is_file():
            return _of_this_layout(ctypes.CDLL(str(place)), place)
    try:
        return _of_this_layout(ctypes.CDLL(name), name)
    except OSError:
        raise ImportError(f"{name} is not found: make it by tools/library, or name it in KATYDIDZINC_LIBRARY") from None


def _of_this_layout(library: ctypes.CDLL, place: Any) -> ctypes.CDLL:
    """The library, if its records are those of this module."""
    try:
        layout, version = library.katydidzinc_layout(), library.katydidzinc_version()
    except AttributeError:
        raise ImportError(f"{place} does not say what its records are: it is older than this module, {__version__}") from None
    if layout != LAYOUT:
        of = f"{version // 1000000}.{version // 1000 % 1000}.{version % 1000}"
        raise ImportError(f"{place}, version {of}, has records of layout {layout}; this module, {__version__}, reads those of layout {LAYOUT}: take both of one release")
    return library


_lib: ctypes.CDLL = _library()
_numbers = _words = _bytes = (ctypes.c_void_p, ctypes.c_size_t)
_f32, _u32 = ctypes.c_float, ctypes.c_uint32
_model = (_f32, _f32, _f32, _u32) + _numbers + _words + _numbers
_ARGUMENTS = {
    "load": _model + _numbers,
    "set_masks": _model + _numbers + (_u32,) * 5,
    "place": _model + (_u32, _f32, _f32, _f32, _f32),
    "build": _model + _numbers + (_u32, _f32, _u32),
    "warm_start": _model + _numbers,
    "sweep": _model + _numbers + (_u32,) + _bytes,
    "remove_bias": _model + _numbers,
    "write_back": _model + _numbers,
    "read_rows": _model + _numbers + (_u32,) + _numbers + _words,
    "read_velocity": _model + (_u32,) + _numbers,
    "set_targets": _model + _bytes,
    "frame": _model + _numbers + (_u32, _f32, _u32, _u32) + _bytes,
    "reaction": _numbers + _words + _numbers + (_u32,) + _numbers + (_u32,) + _numbers,
    "seeded": (_u32,) + _numbers + _numbers + _words + _numbers,
    "motor_table_read": _bytes + (_u32,),
    "motor_table_write": _words + (_u32,) + _bytes,
}
for _name, _types in _ARGUMENTS.items():
    _function = getattr(_lib, "katydidzinc_" + _name)
    _function.argtypes, _function.restype = _types, ctypes.c_uint64
_lib.katydidzinc_micro_report.argtypes, _lib.katydidzinc_micro_report.restype = (_f32,), ctypes.c_int64
_lib.katydidzinc_residual.argtypes, _lib.katydidzinc_residual.restype = _numbers + _words + (_u32,) + _numbers + (_u32,), _f32
_lib.katydidzinc_motor_table_record.argtypes, _lib.katydidzinc_motor_table_record.restype = _bytes + (ctypes.c_size_t,) + _words, ctypes.c_size_t
_lib.katydidzinc_motor_table_target.argtypes, _lib.katydidzinc_motor_table_target.restype = (_u32,), _f32

_ONE, _QUARTER, _MOST, _SMALLEST, _HALF = 1.0, 2.0**-54, 3 * 2.0**-54, sys.float_info.min, 0.5


def float_mode() -> bool:
    """Whether the processor rounds to nearest and keeps subnormal numbers. The mode is one for f32 and for Python's own numbers."""
    subnormal = _SMALLEST * _HALF
    return (
        _ONE + _QUARTER == _ONE
        and -_ONE - _QUARTER == -_ONE
        and _ONE + _MOST != _ONE
        and subnormal != 0.0
        and subnormal + subnormal == _SMALLEST
    )


def micro_report(x: float) -> Union[int, float]:
    """A number in millionths, rounded half to even: an int; `math.inf` where that is not below 2^31 in size; or NaN."""
    n = _lib.katydidzinc_micro_report(x)
    return math.inf if n == MICRO_OVER else math.nan if n == MICRO_NAN else n


def millionths(x: float) -> str:
    """The micro report as text: a whole number, "over" or "nan"."""
    n = _lib.katydidzinc_micro_report(x)
    return "over" if n == MICRO_OVER else "nan" if n == MICRO_NAN else str(n)


def _word(n: Any) -> int:
    """A number that a call takes as 32 bits; one that does not fit would be cut."""
    n = operator.index(n)
    if not 0 <= n < 2**32:
        raise OverflowError(f"{n} is not from 0 to 4294967295")
    return int(n)


def _enabled(given: Union[bool, int]) -> int:
    """The word of JointEnabled, of True, False or one of its three numbers."""
    return {True: JOINT_ENABLED, False: JOINT_DISABLED}[given] if isinstance(given, bool) else given


def _table_bytes(table: Union[str, bytes, bytearray]) -> Tuple[Any, int]:
    """The bytes of a motor table, of text or bytes, with one more, so that there is a first."""
    table = table.encode() if isinstance(table, str) else bytes(table)
    return (ctypes.c_char * (len(table) + 1)).from_buffer_copy(table + b"\0"), len(table)


def _table_answer(name: str, answer: int) -> int:
    if answer >= TABLE_REFUSED:
        raise Refused(name, answer - TABLE_REFUSED)
    return answer


def read_motor_table(table: Union[str, bytes, bytearray], joints: int = MOST_JOINTS) -> List[Tuple[int, int, int]]:
    """The records of a motor table, text or bytes, as a model of so many joints takes them: a list of (joint, axis, thousandths)."""
    text, length = _table_bytes(table)
    count = _table_answer("motor_table_read", _lib.katydidzinc_motor_table_read(text, length, _word(joints)))
    at, words = 0, (ctypes.c_int32 * 3)()
    records: List[Tuple[int, int, int]] = []
    for _ in range(count):
        at = _lib.katydidzinc_motor_table_record(text, length, at, words, 3)
        records.append((words[0], words[1], words[2]))
    return records


def write_motor_table(records: Iterable[Tuple[int, int, int]], joints: int = MOST_JOINTS) -> bytes:
    """The bytes of a motor table of (joint, axis, thousandths), in one spelling; it reads back as these records."""
    flat = [n for joint, axis, thousandths in records for n in (joint, axis, thousandths)]
    if not all(-(2**31) <= operator.index(n) < 2**31 for n in flat):
        raise OverflowError("a number of a record is not one of 32 bits")
    words = (ctypes.c_int32 * (len(flat) + 1))(*flat)

    def call(out: Any, length: int) -> int:
        return _table_answer("motor_table_write", _lib.katydidzinc_motor_table_write(words, len(flat), _word(joints), out, length))

    length = call((ctypes.c_char * 1)(), 0)
    out = (ctypes.c_char * (length + 1))()
    call(out, length)
    return out.raw[:length]


def motor_target(thousandths: int) -> float:
    """The target velocity that a motor table sets by so many thousandths."""
    return float(_lib.katydidzinc_motor_table_target(operator.index(thousandths) % 2**32))


def _rounded(x: float) -> float:
    """The nearest f32, an infinity past the largest. Of a sum, a difference or half of one of two f32 it is what one rounding gives."""
    return ctypes.c_float(x).value


def _middle(limits: Limits) -> Optional[float]:
    """The angle in the middle of an angular limit, as the Rust takes it; None where the ends are a turn or more apart, or no numbers."""
    low, high = _rounded(limits.min), _rounded(limits.max)
    if not _rounded(_rounded(high - low) * 0.5) < PI:
        return None
    return _rounded(_rounded(low + high) * 0.5)


def _bits(x: float) -> str:
    n = struct.unpack("I", struct.pack("f", x))[0]
    return f"0x{0x7FC00000 if x != x else n:08x}"


_INV_EPSILON = _rounded(1.0e-20)


def inverse(x: float) -> float:
    """The inverse of a mass or an inertia as a study's text takes it, by the Rust's `inv`: of the nearest f32, rounded once; 0 of a number of at most 1e-20 in size."""
    x = _rounded(x)
    return 0.0 if -_INV_EPSILON <= x <= _INV_EPSILON else _rounded(1.0 / x)


# document 02's recipe, in units of 2^-30 (crates/floats/specs/Sines.antt and SinCos.antt)
_UNIT, _QUARTER_TURN, _PARTS = 30, 1686629713, 4096


@functools.lru_cache(maxsize=None)
def _sine_entry(k: int) -> int:
    """Entry k of the table of sines: the sine of k/4096 of a quarter turn, by whole numbers."""
    h = k * _QUARTER_TURN // _PARTS
    u = h * h >> _UNIT
    n, term, total = 0, h, 0
    while term:
        total += -term if n % 2 else term
        term = (term * u >> _UNIT) // ((2 * n + 2) * (2 * n + 3))
        n += 1
    return total


def _sine_at(p: int) -> int:
    """The sine at place p of a quarter: a straight line from entry to entry, rounded down."""
    k, rest = divmod(_PARTS * p, _QUARTER_TURN)
    if k == _PARTS:
        return _sine_entry(k)
    low = _sine_entry(k)
    return low + (_sine_entry(k + 1) - low) * rest // _QUARTER_TURN


def rotation_from_angle(angle: float) -> Tuple[float, float]:
    """The cosine and the sine of a typed angle as a study's text takes them, in bits: by the library's own recipe of whole numbers, not by the host's functions. NaN twice of a number that is not finite."""
    x = _rounded(angle)
    if not math.isfinite(x):
        return math.nan, math.nan
    above, below = abs(x).as_integer_ratio()
    quarter, p = divmod((above << _UNIT) // below % (4 * _QUARTER_TURN), _QUARTER_TURN)
    cosine, sine = _sine_at(_QUARTER_TURN - p), _sine_at(p)
    re, im = ((cosine, sine), (-sine, cosine), (-cosine, -sine), (sine, -cosine))[quarter]
    return _rounded(re / 2**_UNIT), _rounded((-im if x < 0.0 else im) / 2**_UNIT)


# ---- what a study is made of; the defaults are the Rust's

AXES = ("x", "y", "angle")

Vector = Sequence[float]
Numbers = Iterable[float]
Axis = Union[str, int]
Axes = Union[int, str, Iterable[Axis]]


def _axis_number(axis: Axis, axes: Sequence[str]) -> int:
    if isinstance(axis, str):
        if axis not in axes:
            raise ValueError(f"{axis!r} is no axis{_meant(axis, axes)}")
        return axes.index(axis)
    if not 0 <= operator.index(axis) < len(axes):
        raise ValueError(f"{axis!r} is no axis: the axes are {', '.join(axes)}, or 0 to {len(axes) - 1}")
    return operator.index(axis)


def _mask(given: Axes, axes: Sequence[str]) -> int:
    if hasattr(given, "__index__"):
        return operator.index(cast(int, given))
    words: Any = given.replace(",", " ").split() if isinstance(given, str) else given
    return sum(1 << number for number in {_axis_number(axis, axes) for axis in words})


def axis_number(axis: Axis) -> int:
    """An axis's number, 0 to 2, by its word, x, y or angle, or its number."""
    return _axis_number(axis, AXES)


def mask(axes: Axes) -> int:
    """A mask of axes: itself where it is a number; else of words, in one text or in a list."""
    return _mask(axes, AXES)


def _number(given: Any, what: str) -> float:
    try:
        return float(struct.unpack("d", struct.pack("d", given))[0])
    except struct.error:
        raise TypeError(f"{what} is no number: {given!r}") from None


def _exactly(n: int, given: Iterable[Any], what: str) -> Tuple[float, ...]:
    """So many numbers, and an error that says of what where there are more or fewer."""
    try:
        found = list(given)
    except TypeError:
        raise TypeError(f"{what}: {n} numbers are wanted, not {given!r}") from None
    if len(found) != n:
        raise ValueError(f"{what}: {n} numbers are wanted, not {len(found)}")
    return tuple(_number(x, what) for x in found)


def _one_of(what: str, **given: Any) -> Optional[str]:
    """Which of these arguments is given, if any. Two would be two ways of giving one thing."""
    there = [name for name, value in given.items() if value is not None]
    if len(there) > 1:
        raise ValueError(f"{what}: {' and '.join(there)} are given, which are ways of giving one thing")
    return there[0] if there else None


class _Record:
    """A record whose fields have fixed names."""

    def __setattr__(self, name: str, value: Any) -> None:
        fields = getattr(type(self), "__dataclass_fields__")
        if name not in fields:
            raise AttributeError(f"{type(self).__name__} has no {name!r}{_meant(name, fields)}")
        object.__setattr__(self, name, value)


@_named
@dataclasses.dataclass(init=False)
class Pose(_Record):
    """A place and a rotation: its cosine `re` and its sine `im`, or its `angle`."""

    x: float
    y: float
    re: float
    im: float

    def __init__(self, x: float = 0.0, y: float = 0.0, re: Optional[float] = None, im: Optional[float] = None, *, angle: Optional[float] = None) -> None:
        self.x, self.y, (self.re, self.im) = x, y, _rotation("a pose", re, im, angle)
        self._list()

    def _list(self) -> List[float]:
        return [*_exactly(4, [self.re, self.im, self.x, self.y], "a pose")]


def _rotation(what: str, re: Optional[float], im: Optional[float], angle: Optional[float]) -> Tuple[float, float]:
    if angle is not None:
        _one_of(what, re=re, angle=angle)
        _one_of(what, im=im, angle=angle)
        return rotation_from_angle(_number(angle, f"{what}: angle"))
    return 1.0 if re is None else re, 0.0 if im is None else im


@_named
@dataclasses.dataclass(init=False)
class Body(_Record):
    """A body: by default at rest at the origin, and moved by no impulse.

    Its rotation is given as `rotation`, cosine and sine, or as `angle`; its mass as `mass`, `inverse_mass` or, for each axis, `inverse_masses`; its inertia as `inertia` or `inverse_inertia`. A mass
    and an inertia are kept as their inverses (`inverse`), of 0 it is 0, an angle as its cosine and sine (`rotation_from_angle`). The same words in a study's text give the same bits.
    """

    name: str
    position: Vector
    rotation: Vector
    inverse_inertia: float
    inverse_masses: Vector
    velocity: Vector
    angular_velocity: float

    def __init__(
        self, name: str = "", position: Numbers = (0.0, 0.0), rotation: Optional[Numbers] = None, inverse_inertia: Optional[float] = None, inverse_masses: Optional[Numbers] = None,
        velocity: Numbers = (0.0, 0.0), angular_velocity: float = 0.0, *, angle: Optional[float] = None, mass: Optional[float] = None, inverse_mass: Optional[float] = None,
        inertia: Optional[float] = None,
    ) -> None:
        what = f"body {name!r}"
        self.name, self.angular_velocity = name, angular_velocity
        self.position, self.velocity = _exactly(2, position, f"{what}: position"), _exactly(2, velocity, f"{what}: velocity")
        _one_of(what, rotation=rotation, angle=angle)
        self.rotation = _exactly(2, (1.0, 0.0) if rotation is None else rotation, f"{what}: rotation")
        if angle is not None:
            self.rotation = rotation_from_angle(_number(angle, f"{what}: angle"))
        self.inverse_masses = _inverse_masses(what, 2, mass, inverse_mass, inverse_masses)
        _one_of(what, inertia=inertia, inverse_inertia=inverse_inertia)
        self.inverse_inertia = 0.0 if inverse_inertia is None else inverse_inertia
        if inertia is not None:
            self.inverse_inertia = inverse(_number(inertia, f"{what}: inertia"))
        self._list()

    def _list(self) -> List[float]:
        what = f"body {self.name!r}: "
        return [
            *_exactly(2, self.rotation, what + "rotation"), *_exactly(2, self.position, what + "position"), _number(self.inverse_inertia, what + "inverse_inertia"),
            *_exactly(2, self.inverse_masses, what + "inverse_masses"), *_exactly(2, self.velocity, what + "velocity"), _number(self.angular_velocity, what + "angular_velocity"),
        ]


def _inverse_masses(what: str, axes: int, mass: Optional[float], inverse_mass: Optional[float], inverse_masses: Optional[Numbers]) -> Vector:
    _one_of(what, mass=mass, inverse_mass=inverse_mass, inverse_masses=inverse_masses)
    if inverse_masses is not None:
        return _exactly(axes, inverse_masses, f"{what}: inverse_masses")
    if mass is not None:
        return (inverse(_number(mass, f"{what}: mass")),) * axes
    return (0.0 if inverse_mass is None else _number(inverse_mass, f"{what}: inverse_mass"),) * axes


@_named
@dataclasses.dataclass
class Limits(_Record):
    """The limits of an axis, and their stored impulse."""

    min: float = -MAX
    max: float = MAX
    impulse: float = 0.0

    def _list(self) -> List[float]:
        return [*_exactly(3, [self.min, self.max, self.impulse], "limits")]


@_named
@dataclasses.dataclass
class Motor(_Record):
    """The motor of an axis, and its stored impulse."""

    target_vel: float = 0.0
    target_pos: float = 0.0
    stiffness: float = 0.0
    damping: float = 0.0
    max_force: float = MAX
    impulse: float = 0.0
    model: int = ACCELERATION_BASED

    def _list(self) -> List[float]:
        return [*_exactly(6, [self.target_vel, self.target_pos, self.stiffness, self.damping, self.max_force, self.impulse], "a motor")]


_Part = TypeVar("_Part", Limits, Motor)
LimitsOfAxes = Union[Mapping[Any, Limits], Sequence[Limits]]
MotorsOfAxes = Union[Mapping[Any, Motor], Sequence[Motor]]


def _by_axis(given: Union[Mapping[Any, _Part], Sequence[_Part]], kind: Type[_Part], axes: Sequence[str], what: str) -> Dict[int, _Part]:
    """Limits or motors by the numbers of their axes, of a dict by axis or a list of three."""
    found: Dict[int, _Part] = {}
    for axis, one in given.items() if isinstance(given, Mapping) else enumerate(given):
        try:
            number = _axis_number(axis, axes)
        except ValueError as e:
            raise ValueError(f"{what}: {e}") from None
        if number in found:
            raise ValueError(f"{what}: axis {axes[number]} is given twice")
        if number > 2:
            raise ValueError(f"{what}: limits and motors are for the axes x, y and z")
        if not isinstance(one, kind):
            raise TypeError(f"{what}: {one!r} is no {kind.__name__}")
        found[number] = one
    return found


@_named
@dataclasses.dataclass
class Joint(_Record):
    """A joint between two bodies, each by its name, its number or WORLD. By default it makes no row.

    Masks are words of axes, as "x y" or "angle", or numbers. `limits` and `motors` are for the axes 0, 1 (x, y) and 2 (the angle): a dict by axis, or a list of three. An axis that they name is limited or driven; `limit_axes` and
    `motor_axes` say otherwise where they are given. The centre of the angular limit is `center`, its cosine and sine, or `center_angle`; where neither is given, it is the middle of the limits, as in the Rust. `impulses` are the locks' stored
    ones, an axis each. `enabled` is True, False or one of the three numbers JOINT_ENABLED to JOINT_DISABLED.
    """

    name: str
    body1: Union[str, int]
    body2: Union[str, int]
    locked_axes: Axes = 0
    limit_axes: Optional[Axes] = None
    motor_axes: Optional[Axes] = None
    coupled_axes: Axes = 0
    frame1: Pose = dataclasses.field(default_factory=Pose)
    frame2: Pose = dataclasses.field(default_factory=Pose)
    limits: LimitsOfAxes = dataclasses.field(default_factory=lambda: {})
    motors: MotorsOfAxes = dataclasses.field(default_factory=lambda: {})
    natural_frequency: float = 1.0e6
    damping_ratio: float = 1.0
    impulses: Vector = (0.0, 0.0, 0.0)
    center: Optional[Vector] = None
    center_angle: Optional[float] = None
    enabled: Union[bool, int] = True

    def __post_init__(self) -> None:
        self._masks()
        self._numbers()

    def _what(self) -> str:
        return f"joint {self.name!r}"

    def _limits(self) -> Dict[int, Limits]:
        return _by_axis(self.limits, Limits, AXES, f"{self._what()}, limits")

    def _motors(self) -> Dict[int, Motor]:
        return _by_axis(self.motors, Motor, AXES, f"{self._what()}, motors")

    def _masks(self) -> List[int]:
        limited = self._limits() if self.limit_axes is None else self.limit_axes
        driven = self._motors() if self.motor_axes is None else self.motor_axes
        return _masks_of(self._what(), AXES, locked_axes=self.locked_axes, limit_axes=limited, motor_axes=driven, coupled_axes=self.coupled_axes)

    def _center(self) -> Tuple[int, List[float]]:
        """How the centre is typed, and its two numbers."""
        _one_of(self._what(), center=self.center, center_angle=self.center_angle)
        if self.center_angle is not None:
            return CENTER_ANGLE, [_number(self.center_angle, f"{self._what()}: center_angle"), 0.0]
        if self.center is not None:
            return CENTER_COSINE_SINE, [*_exactly(2, self.center, f"{self._what()}: center")]
        middle = _middle(self._limits().get(2, Limits()))
        return (CENTER_COSINE_SINE, [1.0, 0.0]) if middle is None else (CENTER_ANGLE, [middle, 0.0])

    def _words(self, number: Callable[[Union[str, int]], int]) -> List[int]:
        motors = self._motors()
        models = [motors.get(axis, Motor()).model for axis in range(3)]
        return [_word(w) for w in (number(self.body1), number(self.body2), *self._masks(), *models, _enabled(self.enabled), self._center()[0], 0)]

    def _numbers(self) -> List[float]:
        return _joint_numbers(self._what(), self.frame1, self.frame2, self._limits(), self._motors(), self.natural_frequency, self.damping_ratio, self.impulses, 3) + self._center()[1]


def _masks_of(what: str, axes: Sequence[str], **given: Axes) -> List[int]:
    found = []
    for name, one in given.items():
        try:
            found.append(_mask(one, axes))
        except ValueError as e:
            raise ValueError(f"{what}, {name}: {e}") from None
    return found


def _joint_numbers(
    what: str, frame1: Any, frame2: Any, limits: Dict[int, Limits], motors: Dict[int, Motor], natural_frequency: float, damping_ratio: float, impulses: Vector, axes: int
) -> List[float]:
    flat = []
    parts: List[Any] = [frame1, frame2, *(limits.get(axis, Limits()) for axis in range(3)), *(motors.get(axis, Motor()) for axis in range(3))]
    for one in parts:
        flat += one._list()
    softness = [_number(natural_frequency, f"{what}: natural_frequency"), _number(damping_ratio, f"{what}: damping_ratio")]
    return [*flat, *softness, *_exactly(axes, impulses, f"{what}: impulses")]


class Row(NamedTuple):
    """A row of a joint: its id (as Motor2, Dof0), kind and axis, and the fields of the Rust's JointConstraint."""

    id: str
    kind: str
    axis: int
    impulse: float
    impulse_min: float
    impulse_max: float
    lin_jac: Tuple[float, float]
    ang_jac1: float
    ang_jac2: float
    ii_ang_jac1: float
    ii_ang_jac2: float
    inv_lhs: float
    rhs: float
    rhs_wo_bias: float
    cfm_gain: float
    cfm_coeff: float
    im1: Tuple[float, float]
    im2: Tuple[float, float]


class Velocity(NamedTuple):
    """A body's velocity."""

    x: float
    y: float
    angular: float


class Impulse(NamedTuple):
    """What a body got: linear x and y (N s), and angular about its centre of mass (N m s)."""

    x: float
    y: float
    angular: float


class Reaction(NamedTuple):
    """What a joint's rows together gave its bodies, an Impulse each; body 1's linear part along the joint's own axes; and the moment that body 1 gets at the place of frame 2, body 2 the opposite."""

    joint: str
    body1: Impulse
    body2: Impulse
    along: Tuple[float, float]
    moment: float


class TableRow(NamedTuple):
    """A row of a table: `at` says which bound its impulse stands at ('low', 'high', 'both' or ''), `rule` and `definition` what made the row."""

    joint: str
    body1: str
    body2: str
    id: str
    unit: str
    impulse: float
    lower: float
    upper: float
    at: str
    rule: str
    definition: str


def _rule(kind: str, axis: int, coupled: int) -> Tuple[str, str]:
    """The place of a row in document 01's order, and the definition that made it (crates/rows/specs/Makers.antt)."""
    joined = axis < 2 and coupled >> axis & 1
    if kind == "Dof":
        return ("2.2", "2.3", "2.1")[axis], "lockAngularOf" if axis == 2 else "lockLinearOf"
    if kind == "Motor":
        return ("1.4", "motorLinearCoupledOf") if joined else (("1.2", "1.3", "1.1")[axis], "motorAngularOf" if axis == 2 else "motorLinearOf")
    return ("2.7", "limitLinearCoupledOf") if joined else (("2.5", "2.6", "2.4")[axis], "limitAngularOf" if axis == 2 else "limitLinearOf")


def _needed(module: str, what: str) -> Any:
    """A module that is imported where it is asked for."""
    try:
        return __import__(module)
    except ImportError:
        raise ImportError(f"{what} needs {module}, which is not installed; Debian's package is python3-{module}") from None


def _columns(record: Any) -> Dict[str, Any]:
    """A record's fields by name, those of a part after the part's name."""
    found: Dict[str, Any] = {}
    for name, value in zip(record._fields, record):
        if hasattr(value, "_fields"):
            found.update({f"{name} {inner}": x for inner, x in _columns(value).items()})
        elif isinstance(value, tuple):
            found.update({f"{name} {axis}": x for axis, x in zip("xyz", value)})
        else:
            found[name] = value
    return found


class Table(List[TableRow]):
    """The rows of a built study, a TableRow each; as text by str(), as comma-separated values by csv(), as a frame of pandas by to_pandas()."""

    def __str__(self) -> str:
        lines = ["joint       body 1    body 2    row    unit           impulse lower bound upper bound at   rule"]
        for r in self:
            numbers = " ".join(f"{_shown(x):>11}" for x in (r.impulse, r.lower, r.upper))
            lines.append(f"{r.joint:<11} {r.body1:<9} {r.body2:<9} {r.id:<6} {'1e-6 ' + r.unit:<10} {numbers} {r.at or '-':<4} {r.rule} {r.definition}")
        return "\n".join(lines) + "\n"

    def csv(self) -> str:
        """RFC 4180, with a heading; numbers in millionths and in bits."""
        heading = "joint,body1,body2,id,unit"
        for name in ("impulse", "lower bound", "upper bound"):
            heading += f",{name} [1e-6 unit],{name} [f32 bits]"
        lines = [heading + ",at bound,rule,definition"]
        for r in self:
            numbers = ",".join(f"{_shown(x)},{_bits(x)}" for x in (r.impulse, r.lower, r.upper))
            lines.append(f"{r.joint},{r.body1},{r.body2},{r.id},{r.unit},{numbers},{r.at or 'no'},{r.rule},{r.definition}")
        return "".join(line + "\r\n" for line in lines)

    def to_pandas(self) -> Any:
        """A DataFrame, a line a row, with the columns of TableRow."""
        return _needed("pandas", "to_pandas()").DataFrame(list(self), columns=list(TableRow._fields))


class Reactions(List[Any]):
    """The reactions of a built study's joints, a Reaction each; as a frame of pandas by to_pandas()."""

    _of: Tuple[str, ...] = tuple(_columns(Reaction("", Impulse(0.0, 0.0, 0.0), Impulse(0.0, 0.0, 0.0), (0.0, 0.0), 0.0)))

    def to_pandas(self) -> Any:
        """A DataFrame, a line a joint, with the columns of Reaction; those of a part stand after its name, as `body1 x`."""
        return _needed("pandas", "to_pandas()").DataFrame([_columns(r) for r in self], columns=list(self._of))


def _shown(x: float) -> str:
    return "inf" if x == math.inf else "-inf" if x == -math.inf else millionths(x)


# ---- a study


class Widths(NamedTuple):
    """The prefix of a kind of model's functions, how many numbers and words its records have, how many rows a joint at most, and what its reads are lent."""

    prefix: str
    body: int
    words: int
    numbers: int
    row: int
    most_rows: int
    read_numbers: int
    read_ids: int
    velocity: int


class Places(NamedTuple):
    """What rule 6 asks of a kind of model: the names of a body's numbers that are to be finite, and of a joint's numbers, in their order, and whether each may be infinite."""

    body: Tuple[str, ...]
    joint: Tuple[Tuple[str, Optional[bool]], ...]


def _places(pose: Sequence[str], body: Sequence[str], axes: Sequence[str]) -> Places:
    joint: List[Tuple[str, Optional[bool]]] = [(f"frame{k} {part}", False) for k in (1, 2) for part in pose]
    for axis in axes:
        joint += [(f"limits {axis} min", True), (f"limits {axis} max", True), ("", None)]
    for axis in axes:
        joint += [(f"motors {axis} {part}", False) for part in ("target_vel", "target_pos", "stiffness", "damping")]
        joint += [(f"motors {axis} max_force", True), ("", None)]
    return Places((*(f"{'rotation' if part not in 'xyz' else 'position'} {part}" for part in pose), *body), (*joint, ("natural_frequency", False), ("damping_ratio", False)))


_MASKS = ("locked_axes", "limit_axes", "motor_axes", "coupled_axes")
_SETTINGS = ("dt", "length_unit", "normalized_max_corrective_velocity")
_M = TypeVar("_M", bound="Model")


def flat(given: Any) -> Any:
    """All numbers or words of one of a study's arrays, numpy's or not, in a row: a view that reads and writes the array."""
    view = memoryview(given)
    letter = "f" if view.format.endswith("f") else "I"
    return view.cast("B").cast(cast(Any, letter)) if view.nbytes else memoryview(array.array(letter))


def _index(given: Union[str, int], names: List[str], kind: str) -> int:
    if not isinstance(given, str):
        return given
    if names.count(given) > 1:
        raise ValueError(f"more than one {kind} is named {given!r}: say its number")
    if given not in names:
        raise ValueError(f"no {kind} is named {given!r}{_meant(given, names)}")
    return names.index(given)


class Model:
    """A model with its row storage, of the plane or of space: the calls that both have. `built` is the mark: load clears it, and build sets it."""

    _widths: Widths
    _places: Places
    _all_axes: int

    @_helped
    def __init__(
        self, bodies: Iterable[Any] = (), joints: Iterable[Any] = (), dt: float = 1.0 / 60.0, length_unit: float = 1.0, normalized_max_corrective_velocity: float = 3.0
    ) -> None:
        self.dt, self.length_unit, self.normalized_max_corrective_velocity = dt, length_unit, normalized_max_corrective_velocity
        self.built = False
        bodies, joints = list(bodies), list(joints)
        self.body_names: List[str] = [b.name or str(i) for i, b in enumerate(bodies)]
        self.joint_names: List[str] = [j.name or str(i) for i, j in enumerate(joints)]
        of = self._widths
        self.bodies: Any = self._floats([x for b in bodies for x in b._list()], of.body)
        self.words: Any = self._integers([w for j in joints for w in j._words(self.body_number)], of.words)
        self.numbers: Any = self._floats([x for j in joints for x in j._numbers()], of.numbers)
        self.rows: Any = self._floats([0.0] * (len(joints) * of.most_rows * of.row), of.row)

    def __repr__(self) -> str:
        return f"<{type(self).__module__}.{type(self).__name__} of {len(self.body_names)} bodies and {len(self.joint_names)} joints, {'built' if self.built else 'not built'}>"

    def copy(self: _M) -> _M:
        """A study of its own with the same model, rows and mark."""
        return copy.deepcopy(self)

    __copy__ = copy

    @staticmethod
    def _floats(flat: Sequence[float], width: int) -> Any:
        return array.array("f", flat) if numpy is None else numpy.array(flat, dtype=numpy.float32).reshape(-1, width)

    @staticmethod
    def _integers(flat: Sequence[int], width: int) -> Any:
        return array.array("I", flat) if numpy is None else numpy.array(flat, dtype=numpy.uint32).reshape(-1, width)

    def body_number(self, body: Union[str, int]) -> int:
        """A body's number, by its name, its number or WORLD."""
        return WORLD if body == "world" and body not in self.body_names else _index(body, self.body_names, "body")

    def joint_number(self, joint: Union[str, int]) -> int:
        """A joint's number, by its name or its number."""
        return _index(joint, self.joint_names, "joint")

    # the slices of a call: pointer and length, checked for what the library cannot see

    def _slice(self, given: Any, letters: str) -> Tuple[int, int]:
        view = memoryview(given)
        if view.itemsize != 4 or view.format.lstrip("@=<") not in letters or not view.c_contiguous or view.readonly:
            raise TypeError("a slice is a contiguous writable array of " + ("f32" if letters == "f" else "u32"))
        length = view.nbytes // 4
        address = ctypes.addressof(ctypes.c_char.from_buffer(given)) if length else ctypes.addressof(_NONE)
        if address % 4 != 0:
            raise Refused("a call", BAD_SLICE)
        return address, length

    def _call(self, name: str, rows: bool, *arguments: Any, out: Any = None, ids: Any = None, of_bytes: Any = None) -> int:
        if not float_mode():
            raise Refused(name, FLOAT_MODE)
        slices = [self._slice(self.bodies, "f"), self._slice(self.words, "IL"), self._slice(self.numbers, "f")]
        storage = [self._slice(self.rows, "f")]
        reads = [self._slice(out, "f")] if out is not None else []
        reads += [self._slice(ids, "IL")] if ids is not None else []
        spans = sorted((a, a + 4 * n) for a, n in slices + storage + reads if n)
        if any(first[1] > second[0] for first, second in zip(spans, spans[1:])):
            raise Refused(name, OVERLAP)
        flat = [part for one in slices + (storage if rows else []) for part in one]
        last = [part for one in reads for part in one] + list(of_bytes or ())
        answer = int(getattr(_lib, self._widths.prefix + name)(
            self.dt, self.length_unit, self.normalized_max_corrective_velocity, int(bool(self.built)), *flat, *arguments, *last
        ))
        if answer != GRANTED and answer < ROWS_GRANTED:
            raise Refused(name, answer, self._broken(name, answer, arguments))
        return answer - ROWS_GRANTED if answer else 0

    # where a rule is broken: the library says which rule, and this looks for the first thing that breaks it

    def _joints(self) -> int:
        return int(min(len(flat(self.words)) // self._widths.words, len(flat(self.numbers)) // self._widths.numbers))

    def _broken(self, call: str, number: int, arguments: Sequence[Any]) -> Optional[Place]:
        of, words, own = self._widths, flat(self.words), Place("call", "", None, "")
        bodies, joints = len(flat(self.bodies)) // of.body, self._joints()

        def body(i: int, field: str = "") -> Place:
            return Place("body", self.body_names[i] if i < len(self.body_names) else "", i, field)

        def joint(j: int, field: str = "") -> Place:
            return Place("joint", self.joint_names[j] if j < len(self.joint_names) else "", j, field)

        def word(j: int, k: int) -> int:
            return int(words[j * of.words + k])

        if number == TOO_MANY_BODIES:
            return body(MOST_BODIES)
        if number == TOO_MANY_JOINTS:
            return joint(MOST_JOINTS)
        if number in (LARGE_MASK, NOT_LINEAR):
            most = [self._all_axes] * 4 if number == LARGE_MASK else [self._all_axes, 7, 7, 0]
            large = ((j, k) for j in range(joints) for k in range(4) if word(j, LOCKED_AXES + k) > most[k])
            return next((joint(j, f"{_MASKS[k]} {word(j, LOCKED_AXES + k)}") for j, k in large), own)
        if number == ABSENT_BODY:
            return next((joint(j, f"body{k + 1} {word(j, k)}") for j in range(joints) for k in range(2) if bodies <= word(j, k) != WORLD), None)
        if number == SAME_BODY:
            return next((joint(j, f"both are {self._end(word(j, 0))}") for j in range(joints) if word(j, 0) == word(j, 1)), None)
        if number == NOT_FINITE:
            return self._not_finite(bodies, joints, body, joint) or own._replace(field="the poses that it would give" if call == "frame" and math.isfinite(arguments[1]) else "")
        if number == NEGATIVE_DT:
            return Place("setting", "dt", None, str(self.dt))
        if number == LARGE_ANGLE:
            angles = flat(self.numbers)[CENTER_RE :: of.numbers]
            return next((joint(j, f"center_angle {angles[j]}") for j in range(joints) if word(j, CENTER_CHOICE) and abs(angles[j]) > 1024.0), None)
        if number in (TOO_MANY_ROUNDS, SUBSTEPS):
            return own
        if number == ABSENT:
            return Place("joint" if call in ("read_rows", "set_masks") else "body", "", arguments[0], "")
        return None

    def _not_finite(self, bodies: int, joints: int, body: Callable[..., Place], joint: Callable[..., Place]) -> Optional[Place]:
        for name in _SETTINGS:
            x = _rounded(getattr(self, name))
            if not math.isfinite(x):
                return Place("setting", name, None, str(x))
        numbers, width = flat(self.bodies), self._widths.body
        for i in range(bodies):
            for x, name in zip(numbers[i * width : (i + 1) * width], self._places.body):
                if not math.isfinite(x):
                    return body(i, f"{name} {x}")
        numbers, width = flat(self.numbers), self._widths.numbers
        for j in range(joints):
            for x, (name, infinite) in zip(numbers[j * width : (j + 1) * width], self._places.joint + self._center_places(j)):
                if math.isnan(x) and infinite is not None or math.isinf(x) and infinite is False:
                    return joint(j, f"{name} {x}")
        return None

    def _center_places(self, j: int) -> Tuple[Tuple[str, Optional[bool]], ...]:
        return ()

    # the calls

    def load(self) -> None:
        """Checks the model and clears the mark. In the plane it stores each joint's first row in its words."""
        self._call("load", True)
        self.built = False

    @_helped
    def build(self, warm: Optional[float] = None, substep: int = 0) -> int:
        """Makes all rows and sets the mark; the number of rows. Impulses start at 0, or, with a warm coefficient, at it times the stored impulse (substep
        0) or the row's last one."""
        count = self._call("build", True, int(warm is not None), 0.0 if warm is None else warm, _word(substep))
        self.built = True
        return count

    def warm_start(self) -> None:
        """Applies the impulses that the rows hold."""
        self._call("warm_start", True)

    def sweep(self, n: int = 1) -> List[int]:
        """Solves each row n times, joints ascending. A list, a number a joint: how many of its motor rows were at a bound in the last round."""
        return self._counted("sweep", _word(n))

    def _counted(self, name: str, *arguments: Any) -> List[int]:
        counts = (ctypes.c_uint8 * MOST_JOINTS)()
        self._call(name, True, *arguments, of_bytes=(counts, MOST_JOINTS))
        return list(counts[: self._joints()])

    def remove_bias(self) -> None:
        """Takes the bias from each row."""
        self._call("remove_bias", True)

    def write_back(self) -> None:
        """Stores each row's impulse in its joint."""
        self._call("write_back", True)

    def _read(self, joint: Union[str, int]) -> Tuple[Any, Any, int]:
        """A joint's rows and ids as a row read writes them, and their number."""
        out, ids = array.array("f", bytes(4 * self._widths.read_numbers)), array.array("I", bytes(4 * self._widths.read_ids))
        count = self._call("read_rows", True, _word(self.joint_number(joint)), out=out, ids=ids)
        return out, ids, count

    def read_rows(self, joint: Union[str, int]) -> List[Any]:
        """A joint's rows, a Row each."""
        out, ids, count = self._read(joint)
        width = self._widths.row
        return [self._row(ids[i], out[i * width : (i + 1) * width]) for i in range(count)]

    def read_velocity(self, body: Union[str, int]) -> Any:
        """A body's Velocity, linear and angular."""
        out = array.array("f", bytes(4 * self._widths.velocity))
        self._call("read_velocity", False, _word(self.body_number(body)), out=out)
        return self._velocity(out)

    # of a kind of model

    @staticmethod
    def _row(number: int, n: Any) -> Any:
        raise NotImplementedError

    @staticmethod
    def _velocity(n: Any) -> Any:
        raise NotImplementedError

    @staticmethod
    def _rule(row: Any, words: Any) -> Tuple[str, str, str]:
        raise NotImplementedError

    # what is told of a built study

    def _end(self, number: int) -> str:
        return "world" if number == WORLD else self.body_names[number] if number < len(self.body_names) else str(number)

    def table(self) -> Table:
        """All rows of the built study, with their bounds and the definitions that made them."""
        rows, all_words, width = Table(), flat(self.words), self._widths.words
        for j, name in enumerate(self.joint_names):
            words = all_words[j * width : (j + 1) * width]
            for r in self.read_rows(j):
                low, high = r.impulse == r.impulse_min, r.impulse == r.impulse_max
                at = "both" if low and high else "low" if low else "high" if high else ""
                unit, rule, definition = self._rule(r, words)
                rows.append(TableRow(name, self._end(words[0]), self._end(words[1]), r.id, unit, r.impulse, r.impulse_min, r.impulse_max, at, rule, definition))
        return rows

    def plot(self, path: Any = None) -> None:
        """The impulses of all rows as bars, those in N s and those in N m s on axes of their own, by matplotlib: saved to `path`, or shown."""
        _plots().bars(self.table(), path)


def _plots() -> Any:
    _needed("matplotlib", "a plot")
    import katydidzinc_plot

    return katydidzinc_plot


class Study(Model):
    """A planar model with its row storage. `built` is the mark: load and a mask change clear it, and build and frame set it."""

    _widths = Widths("katydidzinc_", BODY_WIDTH, WORDS_WIDTH, NUMBERS_WIDTH, ROW_WIDTH, MOST_ROWS, READ_NUMBERS, READ_IDS, VELOCITY_NUMBERS)
    _places = _places(("re", "im", "x", "y"), ("inverse_inertia", "inverse_masses x", "inverse_masses y"), AXES)
    _all_axes = ALL_AXES
    # the lines of a text's calls, of a study that read() or loads() gave
    calls: Sequence[Any] = ()

    def text(self) -> str:
        """The text of the study's model, in one spelling; katydidzinc_study.text says what it holds."""
        return katydidzinc_study.text(self)

    def _center_places(self, j: int) -> Tuple[Tuple[str, Optional[bool]], ...]:
        angle = flat(self.words)[j * WORDS_WIDTH + CENTER_CHOICE] != CENTER_COSINE_SINE
        return (("", None),) * 3 + ((("center_angle", False),) if angle else (("center re", False), ("center im", False)))

    @staticmethod
    def _row(number: int, n: Any) -> Row:
        kind, axis = ("Dof", "Limit", "Motor")[number // 4], number % 4
        return Row._make((f"{kind}{axis}", kind, axis, n[0], n[1], n[2], (n[3], n[4]), *n[5:14], (n[14], n[15]), (n[16], n[17])))

    @staticmethod
    def _velocity(n: Any) -> Velocity:
        return Velocity(*n)

    @staticmethod
    def _rule(row: Any, words: Any) -> Tuple[str, str, str]:
        return ("N*m*s" if row.axis == 2 else "N*s", *_rule(row.kind, row.axis, words[COUPLED_AXES]))

    @_helped
    def set_masks(
        self, joint: Union[str, int], locked_axes: Optional[Axes] = None, limit_axes: Optional[Axes] = None, motor_axes: Optional[Axes] = None, coupled_axes: Optional[Axes] = None
    ) -> None:
        """Gives a joint new masks, words of axes or numbers, stores each joint's first row, and clears the mark; stored impulses stay. A mask that is not given stays, too."""
        number, words = _word(self.joint_number(joint)), flat(self.words)
        places = range(number * WORDS_WIDTH + LOCKED_AXES, number * WORDS_WIDTH + COUPLED_AXES + 1)
        own = [words[at] if at < len(words) else 0 for at in places]
        given = (locked_axes, limit_axes, motor_axes, coupled_axes)
        self._call("set_masks", True, number, *(_word(old if new is None else mask(new)) for old, new in zip(own, given)))
        self.built = False

    @_helped
    def place(self, body: Union[str, int], x: float, y: float, re: Optional[float] = None, im: Optional[float] = None, *, angle: Optional[float] = None) -> None:
        """Gives a body a new pose: its place, and its rotation by cosine and sine or by its angle."""
        self._call("place", False, _word(self.body_number(body)), *_rotation("place", re, im, angle), x, y)

    @_helped
    def frame(self, sweeps: int = 4, substeps: int = 1, warm: Optional[float] = None) -> List[int]:
        """Moves the study on by dt, in substeps of dt/substeps: each builds, with the warm coefficient where one is given, warm starts, sweeps so many rounds, moves every body by its velocity, takes the
        bias from each row and sweeps again; after the last comes a write-back. Sets the mark. A list as of the last sweep. Where a body would leave the finite numbers it is refused, and nothing has moved."""
        counts = self._counted("frame", int(warm is not None), 0.0 if warm is None else warm, _word(sweeps), _word(substeps))
        self.built = True
        return counts

    @_helped
    def simulate(
        self, frames: int, sweeps: int = 4, substeps: int = 1, warm: Optional[float] = None, *, gravity: Optional[Numbers] = None, before: Optional[Callable[[Study, int], None]] = None,
        every: int = 1,
    ) -> Motion:
        """Runs so many frames, and records the start and every frame, or every so many: a Motion.

        `gravity`, an acceleration x and y, changes the velocity of every body that has an inverse mass along that axis other than 0: half of its change before each frame and half after it, each rounded once. `before`, a function of the study and of
        the number of the frame that comes, from 0, is called before it (and before gravity): it may set velocities, targets and masks. A refused frame raises Refused, whose `motion` has what was recorded before.
        """
        if operator.index(every) < 1:
            raise ValueError("every is a whole number from 1 on")
        pull = None if gravity is None else [g * _rounded(self.dt) / 2.0 for g in _exactly(2, gravity, "gravity")]
        recorder = _Recorder(self)
        recorder.start()
        for k in range(operator.index(frames)):
            if before is not None:
                before(self, k)
            held = bytes(memoryview(self.bodies)) if pull else b""
            self._pull(pull)
            try:
                counts = self.frame(sweeps, substeps, warm)
            except Refused as refused:
                if pull:
                    flat(self.bodies)[:] = memoryview(held).cast("f")
                refused.motion = recorder.motion()
                raise
            self._pull(pull)
            if (k + 1) % every == 0:
                recorder.record(k + 1, counts)
        return recorder.motion()

    def _pull(self, change: Optional[Sequence[float]]) -> None:
        bodies = flat(self.bodies)
        for axis, more in enumerate(change or ()):
            for at in range(0, len(bodies) - BODY_WIDTH + 1, BODY_WIDTH) if more else ():
                if bodies[at + MASS_X + axis] != 0.0:
                    bodies[at + VELOCITY_X + axis] += more

    def _rows_read(self, joint: int) -> Tuple[Tuple[int, int], Tuple[int, int], Tuple[int, int], Any, int]:
        """The slices of the bodies, the words and the numbers, and the slice of a joint's rows with their number, for a function that is no call on the model."""
        out, _, count = self._read(joint)
        return self._slice(self.bodies, "f"), self._slice(self.words, "IL"), self._slice(self.numbers, "f"), out, count

    def reactions(self) -> Reactions:
        """The Reaction of each joint of the built study, by the poses that the bodies have. A row's own impulse is no reaction: the row was made orthogonal to the locks before it."""
        found = Reactions()
        for j, name in enumerate(self.joint_names):
            bodies, words, numbers, rows, count = self._rows_read(j)
            out = array.array("f", bytes(4 * REACTION_NUMBERS))
            _lib.katydidzinc_reaction(*bodies, *words, *numbers, j, *self._slice(rows, "f"), count, *self._slice(out, "f"))
            found.append(Reaction(name, Impulse(*out[0:3]), Impulse(*out[3:6]), (out[6], out[7]), out[8]))
        return found

    def residuals(self) -> List[List[float]]:
        """A list a joint of the built study, a number a row: the change that one more step would make to the row's impulse."""
        found = []
        for j in range(len(self.joint_names)):
            bodies, words, _, rows, count = self._rows_read(j)
            found.append([_lib.katydidzinc_residual(*bodies, *words, j, *self._slice(rows, "f"), k) for k in range(count)])
        return found

    def set_targets(self, table: Union[str, bytes, bytearray]) -> None:
        """Sets the motors' target velocities that a motor table names: text or bytes of RFC 4180 records, each a joint's number, an axis and thousandths."""
        self._call("set_targets", False, of_bytes=_table_bytes(table))


def seeded(seed: int) -> Study:
    """The study that a seed from 0 to 4294967295 draws, of one to eight bodies and up to eight joints: a load that others can repeat. Its load is always granted."""
    settings = array.array("f", bytes(4 * SEEDED_SETTINGS))
    bodies, words, numbers = array.array("f", bytes(4 * SEEDED_BODIES)), array.array("I", bytes(4 * SEEDED_WORDS)), array.array("f", bytes(4 * SEEDED_NUMBERS))
    study = Study()
    slices = [study._slice(settings, "f"), study._slice(bodies, "f"), study._slice(words, "IL"), study._slice(numbers, "f")]
    answer = _lib.katydidzinc_seeded(_word(seed), *(part for one in slices for part in one)) - SEEDED_GRANTED
    n, joints = answer >> 16, answer % 2**16
    study.dt, study.length_unit, study.normalized_max_corrective_velocity = settings
    study.body_names, study.joint_names = [f"b{i}" for i in range(n)], [f"j{j}" for j in range(joints)]
    study.bodies = study._floats(bodies[: n * BODY_WIDTH], BODY_WIDTH)
    study.words = study._integers(words[: joints * WORDS_WIDTH], WORDS_WIDTH)
    study.numbers = study._floats(numbers[: joints * NUMBERS_WIDTH], NUMBERS_WIDTH)
    study.rows = study._floats([0.0] * (SEEDED_ROWS * ROW_WIDTH), ROW_WIDTH)
    return study


# ---- frames, recorded


class MotionRow(NamedTuple):
    """A row that a motion has impulses of: its joint, its id and the unit of its impulse."""

    joint: str
    id: str
    unit: str


class MotionJoint(NamedTuple):
    """A joint of a motion: its name, the numbers of its two bodies, and the places of its two frames, seen from them."""

    name: str
    body1: int
    body2: int
    frame1: Tuple[float, float]
    frame2: Tuple[float, float]


@dataclasses.dataclass
class Motion:
    """What a study did in a number of frames: arrays of numpy where numpy is installed, else lists in lists. The first index of each is the moment: the start, then each recorded frame.

    - `time`: the number of the frame times dt, dt as the f32 that the library takes; 0 at the start. No clock is behind it.
    - `poses`: for each body cosine, sine, x, y; `velocities`: for each body x, y, angular. They are those after the frame (and after the second half of gravity).
    - `impulses`, `lower`, `upper`: for each of `rows` its impulse and its bounds, of the frame's last substep alone. NaN where the row is not there: at the start, and where masks were changed.
    - `reactions`: for each joint what body 1 got (x, y, angular), what body 2 got, what body 1 got along the joint's own axes x and y, and the moment, of the last substep alone; NaN at the start.
    - `motors`: for each joint how many of its motors ran out of force in the frame's last round; 0 at the start.
    """

    body_names: List[str]
    joints: List[MotionJoint]
    rows: List[MotionRow]
    time: Any
    poses: Any
    velocities: Any
    impulses: Any
    lower: Any
    upper: Any
    reactions: Any
    motors: Any

    def __repr__(self) -> str:
        return f"<katydidzinc.Motion of {len(self.time)} moments, {len(self.body_names)} bodies and {len(self.rows)} rows>"

    def __len__(self) -> int:
        return len(self.time)

    @property
    def joint_names(self) -> List[str]:
        return [joint.name for joint in self.joints]

    def _of(self, all_of_them: Any, number: int) -> Any:
        return [moment[number] for moment in all_of_them] if numpy is None else all_of_them[:, number]

    def pose(self, body: Union[str, int]) -> Any:
        """A body's poses: cosine, sine, x, y at each moment."""
        return self._of(self.poses, _index(body, self.body_names, "body"))

    def velocity(self, body: Union[str, int]) -> Any:
        """A body's velocities: x, y, angular at each moment."""
        return self._of(self.velocities, _index(body, self.body_names, "body"))

    def impulse(self, joint: str, id: str) -> Any:
        """The impulses of a row, by its joint's name and its id, as Motor2."""
        names = [f"{row.joint} {row.id}" for row in self.rows]
        return self._of(self.impulses, _index(f"{joint} {id}", names, "row"))

    def reaction(self, joint: Union[str, int]) -> Any:
        """A joint's reactions: nine numbers at each moment."""
        return self._of(self.reactions, _index(joint, self.joint_names, "joint"))

    def to_pandas(self) -> Any:
        """A DataFrame, a line a moment, indexed by the time; its columns are named by what they hold, whose they are, and which part: as ("pose", "rod", "x"), ("impulse", "pin", "Motor2")."""
        pandas = _needed("pandas", "to_pandas()")
        columns: Dict[Tuple[str, str, str], Any] = {}
        for names, what, parts, values in (
            (self.body_names, "pose", ("re", "im", "x", "y"), self.poses),
            (self.body_names, "velocity", ("x", "y", "angular"), self.velocities),
            (self.joint_names, "reaction", Reactions._of[1:], self.reactions),
        ):
            for (i, name), (k, part) in itertools.product(enumerate(names), enumerate(parts)):
                columns[what, name, part] = values[:, i, k]
        for what, values in (("impulse", self.impulses), ("lower", self.lower), ("upper", self.upper)):
            columns.update({(what, row.joint, row.id): values[:, k] for k, row in enumerate(self.rows)})
        columns.update({("motors", name, "out of force"): self.motors[:, j] for j, name in enumerate(self.joint_names)})
        return pandas.DataFrame(columns, index=pandas.Index(self.time, name="time [s]"))

    def plot(self, path: Any = None) -> None:
        """The impulses over the time, by matplotlib: those in N s and those in N m s on axes of their own, dots where a stop is touched and crosses where a motor is out of force. Saved to `path`, or shown."""
        _plots().over_time(self, path)

    def animate(self, path: Any = None, speed: float = 1.0) -> Any:
        """The bodies and joints as they move, by matplotlib: saved to `path`, as .gif, or shown. `speed` 1 is as fast as the time goes. The animation is returned."""
        return _plots().moving(self, path, speed)


class _Recorder:
    """What a study's frames leave, until it is a Motion."""

    def __init__(self, study: Study) -> None:
        self.study, self.dt = study, _rounded(study.dt)
        self.names = list(study.joint_names)
        self.words: Optional[bytes] = None
        self.rows: Dict[Tuple[int, str], MotionRow] = {}
        self.spans: List[Tuple[int, int]] = []
        self.columns: List[int] = []
        self.frames: List[int] = []
        self.poses: List[List[float]] = []
        self.velocities: List[List[float]] = []
        self.impulses: List[Tuple[List[int], List[float], List[float], List[float]]] = []
        self.reactions: List[List[float]] = []
        self.motors: List[List[int]] = []

    def _bodies(self, number: int) -> None:
        bodies, width = flat(self.study.bodies), BODY_WIDTH
        starts = range(0, len(self.study.body_names) * width, width)
        self.frames.append(number)
        self.poses.append([x for at in starts for x in bodies[at + POSE : at + POSE + 4]])
        self.velocities.append([x for at in starts for x in bodies[at + VELOCITY_X : at + width]])

    def start(self) -> None:
        self._bodies(0)
        self.impulses.append(([], [], [], []))
        self.reactions.append([math.nan] * (REACTION_NUMBERS * len(self.names)))
        self.motors.append([0] * len(self.names))

    def _look(self, words: bytes) -> None:
        """Where each joint's rows stand, and their columns: anew where the words were changed."""
        self.words, self.spans, self.columns, first = words, [], [], 0
        flat_words, places = flat(self.study.words), {key: k for k, key in enumerate(self.rows)}
        for j, name in enumerate(self.names):
            rows = self.study.read_rows(j)
            for row in rows:
                unit = self.study._rule(row, flat_words[j * WORDS_WIDTH : (j + 1) * WORDS_WIDTH])[0]
                self.rows.setdefault((j, row.id), MotionRow(name, row.id, unit))
                self.columns.append(places.setdefault((j, row.id), len(places)))
            self.spans.append((first, len(rows)))
            first += len(rows)

    def record(self, number: int, counts: List[int]) -> None:
        study = self.study
        words = bytes(flat(study.words))
        if words != self.words:
            self._look(words)
        self._bodies(number)
        rows, end = flat(study.rows), len(self.columns) * ROW_WIDTH
        impulses, lower, upper = (rows[at:end:ROW_WIDTH].tolist() for at in (ROW_IMPULSE, ROW_IMPULSE_MIN, ROW_IMPULSE_MAX))
        self.impulses.append((self.columns, impulses, lower, upper))
        model = (*study._slice(study.bodies, "f"), *study._slice(study.words, "IL"), *study._slice(study.numbers, "f"))
        storage, out, found = study._slice(study.rows, "f")[0], (ctypes.c_float * REACTION_NUMBERS)(), []
        for j, (first, count) in enumerate(self.spans):
            _lib.katydidzinc_reaction(*model, j, storage + 4 * ROW_WIDTH * first, ROW_WIDTH * count, count, ctypes.addressof(out), REACTION_NUMBERS)
            found += list(out)
        self.reactions.append(found)
        self.motors.append(counts)

    def motion(self) -> Motion:
        study = self.study
        words, numbers = flat(study.words), flat(study.numbers)
        joints = []
        for j, name in enumerate(self.names):
            ends, one = words[j * WORDS_WIDTH : j * WORDS_WIDTH + 2], numbers[j * NUMBERS_WIDTH : (j + 1) * NUMBERS_WIDTH]
            places = [(one[frame + POSE_X], one[frame + POSE_Y]) for frame in (FRAME1, FRAME2)]
            joints.append(MotionJoint(name, ends[0], ends[1], *places))
        wholes: List[List[List[float]]] = [[], [], []]
        for columns, *values in self.impulses:
            for whole, part in zip(wholes, values):
                whole.append([math.nan] * len(self.rows))
                for column, x in zip(columns, part):
                    whole[-1][column] = x
        moments, bodies = len(self.frames), len(study.body_names)
        times = [number * self.dt for number in self.frames]
        impulses, lower, upper = (_shaped(whole, (moments, len(self.rows)), "f") for whole in wholes)
        return Motion(
            list(study.body_names), joints, list(self.rows.values()), times if numpy is None else numpy.array(times), _shaped(self.poses, (moments, bodies, 4), "f"),
            _shaped(self.velocities, (moments, bodies, 3), "f"), impulses, lower, upper, _shaped(self.reactions, (moments, len(joints), REACTION_NUMBERS), "f"),
            _shaped(self.motors, (moments, len(joints)), "B"),
        )


def _shaped(values: List[List[Any]], shape: Tuple[int, ...], letter: str) -> Any:
    """Lists of numbers, one a moment, as an array of this shape."""
    if numpy is not None:
        return numpy.array(values, dtype=letter).reshape(shape)
    if len(shape) == 2:
        return values
    width = shape[2]
    return [[one[at : at + width] for at in range(0, len(one), width)] for one in values]


# ---- many studies


class Calls:
    """Calls on a study, one after the other, as a function of it that can be handed to another process: its answer is the last call's. A call is the name of a study's method, or a tuple of the name and its arguments.

        kz.Calls("load", "build", ("sweep", 20), "reactions")
    """

    def __init__(self, *calls: Union[str, Tuple[Any, ...]]) -> None:
        if not calls:
            raise ValueError("no call is given")
        self.calls = [(call,) if isinstance(call, str) else tuple(call) for call in calls]
        methods = [name for name in dir(Study) if not name.startswith("_")]
        for name, *_ in self.calls:
            if name not in methods:
                raise ValueError(f"a study has no call {name!r}{_meant(name, methods)}")

    def __repr__(self) -> str:
        return f"Calls({', '.join(repr(call[0] if len(call) == 1 else call) for call in self.calls)})"

    def __call__(self, study: Any) -> Any:
        for name, *arguments in self.calls:
            answer = getattr(study, name)(*arguments)
        return answer


_Run = Callable[[Any], Any]
_BATCH_SECONDS, _LARGEST_BATCH = 0.1, 128


class _Failed(NamedTuple):
    """An error that a run raised and that is no refusal, and the number of its study within the batch."""

    error: BaseException
    number: int


def _run_batch(run: Optional[_Run], batch: List[Any], process: int) -> Tuple[List[Any], float]:
    """Runs studies one after the other: their answers, and how long it took. In the process that they come from, copies are run, as in any other."""
    began = time.perf_counter()
    if process == os.getpid():
        batch = copy.deepcopy(batch)
    answers: List[Any] = []
    for number, one in enumerate(batch):
        try:
            answers.append(one[1](one[0]) if run is None else run(one))
        except Refused as refused:
            answers.append(refused.with_traceback(None))
        except Exception as error:
            answers.append(_Failed(error, number))
            break
    return answers, time.perf_counter() - began


class _Progress:
    """A line on standard error that says how many studies are done, at most four times a second."""

    def __init__(self, shown: bool, total: Optional[int]) -> None:
        self.shown, self.total, self.began, self.told = shown, total, time.perf_counter(), 0.0

    def tell(self, done: int, refused: int, last: bool = False) -> None:
        now = time.perf_counter()
        if self.shown and (last or now - self.told >= 0.25):
            self.told = now
            of = "" if self.total is None else f" of {self.total}"
            print(f"\r{done}{of} studies, {refused} refused, {now - self.began:.1f} s", end="\n" if last else "", file=sys.stderr, flush=True)


@_helped
def run_many(
    studies: Iterable[Any], run: Optional[_Run] = None, executor: Optional[concurrent.futures.Executor] = None, *, ahead: Optional[int] = None, progress: Optional[bool] = None
) -> List[Any]:
    """Runs many studies, and answers a list of what each run answered, in the order of the studies.

    `run` is a function of one study, and what it returns is that study's answer: a function of a module, which can be pickled, or `Calls`. Where no `run` is given, `studies` are pairs of a study and its own run. A study that is refused has
    its `Refused` for an answer, and the others go on; any other error ends all, and is raised with the number of its study as `study`. A run gets a copy of the study: what it leaves there is lost, so let it return what is wanted.

        import katydidzinc as kz

        def swing(study):
            study.load()
            return study.simulate(1000, gravity=(0.0, -9.81)).reaction("pin")

        if __name__ == "__main__":
            found = kz.run_many([pendulum(length) for length in lengths], swing)
            tables = kz.run_many(studies, kz.Calls("load", "build", ("sweep", 20), "table"))

    `executor` is any of concurrent.futures': by default a pool of processes, as many as there are processors for this one. On a cluster it is Dask's, `Client(..).get_executor()`, or mpi4py's `MPIPoolExecutor()`; this module and the library
    are then installed on each machine. The bits of an answer do not depend on it. Studies are handed over in batches of about a tenth of a second, at most `ahead` of them at once (default: four for each worker of Python's own pools, else 64); `studies` may be a
    generator. Progress is shown where standard error is a terminal, or as `progress` says.
    """
    if executor is None:
        workers = len(os.sched_getaffinity(0)) if hasattr(os, "sched_getaffinity") else os.cpu_count()
        with concurrent.futures.ProcessPoolExecutor(workers) as pool:
            return run_many(studies, run, pool, ahead=ahead, progress=progress)
    if ahead is None:
        ahead = 4 * getattr(executor, "_max_workers", 16)
    shown = _Progress(sys.stderr.isatty() if progress is None else progress, len(cast(Any, studies)) if hasattr(studies, "__len__") else None)
    left, size, begun, done, refused = iter(studies), 1, 0, 0, 0
    answers: Dict[int, List[Any]] = {}
    pending: Dict[concurrent.futures.Future[Tuple[List[Any], float]], Tuple[int, int]] = {}
    try:
        while True:
            while len(pending) < ahead:
                batch = list(itertools.islice(left, size))
                if not batch:
                    break
                pending[executor.submit(_run_batch, run, batch, os.getpid())] = begun, len(batch)
                begun += len(batch)
            if not pending:
                break
            for future in concurrent.futures.wait(pending, return_when=concurrent.futures.FIRST_COMPLETED).done:
                first, count = pending.pop(future)
                found, seconds = future.result()
                if isinstance(found[-1], _Failed):
                    setattr(found[-1].error, "study", first + found[-1].number)
                    raise found[-1].error
                answers[first] = found
                done, refused = done + count, refused + sum(isinstance(one, Refused) for one in found)
                size = max(1, min(2 * size, _LARGEST_BATCH, int(count * _BATCH_SECONDS / max(seconds, 1.0e-6))))
                shown.tell(done, refused)
    finally:
        for future in pending:
            future.cancel()
    shown.tell(done, refused, True)
    return [answer for first in sorted(answers) for answer in answers[first]]


_NONE = ctypes.c_uint32()

import katydidzinc_space  # noqa: E402: it takes what is above from here
import katydidzinc_study  # noqa: E402

space = katydidzinc_space
read, loads, StudyError = katydidzinc_study.read, katydidzinc_study.loads, katydidzinc_study.StudyError
