"""Joints in space: the scalar f32 joint rows of rapier 0.36.1 with three linear and three angular axes, proved, from Python.

    import katydidzinc as kz

    study = kz.space.Study(
        bodies=[kz.space.Body("hand", position=(0.0, -0.1, 0.0), inverse_masses=(2.0, 2.0, 2.0), inverse_inertia=(500.0, 0.0, 0.0, 800.0, 0.0, 500.0))],
        joints=[kz.space.Joint("wrist", "world", "hand", locked_axes="x y z rx ry", frame2=kz.space.Pose(y=0.1))],
    )
    study.load()
    study.build()
    study.sweep(4)
    print(study.table())

An axis is a word, x, y, z for the linear ones and rx, ry, rz for the angular ones, or its number from 0 to 5. A joint locks any of the six; limits and motors are for linear axes only, and no axis
is coupled: a load of any other joint is refused with 17. An angular lock's Jacobian is half a unit vector where both frames turn alike, so that a couple of 1 N m s shows in a table as an impulse of 2; `reactions()` has what the bodies got. include/katydidzinc_space.h describes the records and the calls, and this module has its names and numbers. Names, refusals, limits and motors are those of
katydidzinc, and a study's arrays and calls are as there. There are no motor tables, mask changes and frames in space.
"""

from __future__ import annotations

import ctypes
import dataclasses
from typing import Any, Callable, Dict, Iterable, List, NamedTuple, Optional, Sequence, Tuple, Union

import katydidzinc as kz

# ---- the header's numbers

MOST_ROWS = 9
POSE_QX, POSE_QY, POSE_QZ, POSE_QW, POSE_X, POSE_Y, POSE_Z = range(7)
BODY_WIDTH = 22
POSE, INERTIA, MASS_X, MASS_Y, MASS_Z, VELOCITY = 0, 7, 13, 14, 15, 16
WORDS_WIDTH = 10
BODY1, BODY2, LOCKED_AXES, LIMIT_AXES, MOTOR_AXES, COUPLED_AXES, MODEL_X, MODEL_Y, MODEL_Z, ENABLED = range(10)
LIN_X, LIN_Y, LIN_Z, ANG_X, ANG_Y, ANG_Z, LINEAR_AXES, ALL_AXES = 1, 2, 4, 8, 16, 32, 7, 63
NUMBERS_WIDTH = 49
FRAME1, FRAME2, LIMITS_X, LIMITS_Y, LIMITS_Z, MOTOR_X, MOTOR_Y, MOTOR_Z, NATURAL_FREQUENCY, DAMPING_RATIO, DOFS = 0, 7, 14, 17, 20, 23, 29, 35, 41, 42, 43
ROW_WIDTH = 29
ROW_IMPULSE, ROW_IMPULSE_MIN, ROW_IMPULSE_MAX, ROW_LIN_JAC, ROW_ANG_JAC1, ROW_ANG_JAC2, ROW_II_ANG_JAC1, ROW_II_ANG_JAC2 = 0, 1, 2, 3, 6, 9, 12, 15
ROW_INV_LHS, ROW_RHS, ROW_RHS_WO_BIAS, ROW_CFM_GAIN, ROW_CFM_COEFF, ROW_IM1, ROW_IM2 = 18, 19, 20, 21, 22, 23, 26
ID_DOF, ID_LIMIT, ID_MOTOR = 0, 8, 16
READ_NUMBERS, READ_IDS, VELOCITY_NUMBERS, REACTION_NUMBERS = 261, 9, 6, 12

AXES = ("x", "y", "z", "rx", "ry", "rz")

# each module imports the other, so that their types are said here
_lib: ctypes.CDLL = kz._lib
_floats = _integers = _bytes = (ctypes.c_void_p, ctypes.c_size_t)
_f32, _u32 = ctypes.c_float, ctypes.c_uint32
_model = (_f32, _f32, _f32, _u32) + _floats + _integers + _floats
_ARGUMENTS = {
    "load": _model + _floats,
    "place": _model + (_u32,) + (_f32,) * 7,
    "build": _model + _floats + (_u32, _f32, _u32),
    "warm_start": _model + _floats,
    "sweep": _model + _floats + (_u32,) + _bytes,
    "remove_bias": _model + _floats,
    "write_back": _model + _floats,
    "read_rows": _model + _floats + (_u32,) + _floats + _integers,
    "read_velocity": _model + (_u32,) + _floats,
}
for _name, _types in _ARGUMENTS.items():
    _function = getattr(_lib, "katydidzinc_space_" + _name)
    _function.argtypes, _function.restype = _types, ctypes.c_uint64


def axis_number(axis: kz.Axis) -> int:
    """An axis's number, 0 to 5, by its word or its number."""
    return kz._axis_number(axis, AXES)


def mask(axes: kz.Axes) -> int:
    """A mask of axes: itself where it is a number; else of words, in one text or in a list."""
    return kz._mask(axes, AXES)


# ---- what a study is made of; the defaults are the Rust's


@kz._named
@dataclasses.dataclass
class Pose(kz._Record):
    """A place and a rotation, a quaternion x, y, z, w, which nothing normalises."""

    x: float = 0.0
    y: float = 0.0
    z: float = 0.0
    rotation: kz.Vector = (0.0, 0.0, 0.0, 1.0)

    def __post_init__(self) -> None:
        self._list()

    def _list(self) -> List[float]:
        return [*kz._exactly(4, self.rotation, "a pose: rotation"), *kz._exactly(3, [self.x, self.y, self.z], "a pose")]


Inertia = Union[Sequence[float], Sequence[Sequence[float]]]


@kz._named
@dataclasses.dataclass(init=False)
class Body(kz._Record):
    """A body: by default at rest at the origin, and moved by no impulse.

    Its mass is given as `mass`, `inverse_mass` or, for each axis, `inverse_masses`. `inverse_inertia` is a symmetric matrix in the axes of the world: m11, m12, m13, m22, m23, m33, or three rows of three. A body whose principal axes
    are the world's has its three moments as `inertia` instead. Masses and moments are kept as their inverses (`katydidzinc.inverse`), of 0 it is 0.
    """

    name: str
    position: kz.Vector
    rotation: kz.Vector
    inverse_inertia: Inertia
    inverse_masses: kz.Vector
    velocity: kz.Vector
    angular_velocity: kz.Vector

    def __init__(
        self, name: str = "", position: kz.Numbers = (0.0, 0.0, 0.0), rotation: kz.Numbers = (0.0, 0.0, 0.0, 1.0), inverse_inertia: Optional[Inertia] = None,
        inverse_masses: Optional[kz.Numbers] = None, velocity: kz.Numbers = (0.0, 0.0, 0.0), angular_velocity: kz.Numbers = (0.0, 0.0, 0.0), *, mass: Optional[float] = None,
        inverse_mass: Optional[float] = None, inertia: Optional[kz.Numbers] = None,
    ) -> None:
        what = f"body {name!r}"
        self.name, self.position, self.rotation = name, kz._exactly(3, position, f"{what}: position"), kz._exactly(4, rotation, f"{what}: rotation")
        self.velocity, self.angular_velocity = kz._exactly(3, velocity, f"{what}: velocity"), kz._exactly(3, angular_velocity, f"{what}: angular_velocity")
        self.inverse_masses = kz._inverse_masses(what, 3, mass, inverse_mass, inverse_masses)
        kz._one_of(what, inertia=inertia, inverse_inertia=inverse_inertia)
        self.inverse_inertia = (0.0,) * 6 if inverse_inertia is None else inverse_inertia
        if inertia is not None:
            x, y, z = (kz.inverse(moment) for moment in kz._exactly(3, inertia, f"{what}: inertia"))
            self.inverse_inertia = (x, 0.0, 0.0, y, 0.0, z)
        self._list()

    def _inertia(self, what: str) -> List[float]:
        rows: List[Any] = list(self.inverse_inertia)
        if len(rows) != 3:
            return [*kz._exactly(6, rows, what)]
        a, b, c = (kz._exactly(3, row, what) for row in rows)
        if (a[1], a[2], b[2]) != (b[0], c[0], c[1]):
            raise ValueError(f"{what}: the inverse inertia is not symmetric")
        return [a[0], a[1], a[2], b[1], b[2], c[2]]

    def _list(self) -> List[float]:
        what = f"body {self.name!r}: "
        return [
            *kz._exactly(4, self.rotation, what + "rotation"), *kz._exactly(3, self.position, what + "position"), *self._inertia(what + "inverse_inertia"),
            *kz._exactly(3, self.inverse_masses, what + "inverse_masses"), *kz._exactly(3, self.velocity, what + "velocity"),
            *kz._exactly(3, self.angular_velocity, what + "angular_velocity"),
        ]


@kz._named
@dataclasses.dataclass
class Joint(kz._Record):
    """A joint between two bodies, each by its name, its number or WORLD. By default it makes no row.

    Masks are words of axes, as "x y rx", or numbers. `limits` and `motors` are for linear axes: a dict by axis, or a list of three. An axis that they name is limited or driven; `limit_axes` and
    `motor_axes` say otherwise where they are given. `impulses` are the locks' stored ones, an axis each. `enabled` is True, False or one of the three numbers JOINT_ENABLED to JOINT_DISABLED.
    """

    name: str
    body1: Union[str, int]
    body2: Union[str, int]
    locked_axes: kz.Axes = 0
    limit_axes: Optional[kz.Axes] = None
    motor_axes: Optional[kz.Axes] = None
    coupled_axes: kz.Axes = 0
    frame1: Pose = dataclasses.field(default_factory=Pose)
    frame2: Pose = dataclasses.field(default_factory=Pose)
    limits: kz.LimitsOfAxes = dataclasses.field(default_factory=lambda: {})
    motors: kz.MotorsOfAxes = dataclasses.field(default_factory=lambda: {})
    natural_frequency: float = 1.0e6
    damping_ratio: float = 1.0
    impulses: kz.Vector = (0.0, 0.0, 0.0, 0.0, 0.0, 0.0)
    enabled: Union[bool, int] = True

    def __post_init__(self) -> None:
        self._masks()
        self._numbers()

    def _what(self) -> str:
        return f"joint {self.name!r}"

    def _limits(self) -> Dict[int, kz.Limits]:
        return kz._by_axis(self.limits, kz.Limits, AXES, f"{self._what()}, limits")

    def _motors(self) -> Dict[int, kz.Motor]:
        return kz._by_axis(self.motors, kz.Motor, AXES, f"{self._what()}, motors")

    def _masks(self) -> List[int]:
        limited = self._limits() if self.limit_axes is None else self.limit_axes
        driven = self._motors() if self.motor_axes is None else self.motor_axes
        return kz._masks_of(self._what(), AXES, locked_axes=self.locked_axes, limit_axes=limited, motor_axes=driven, coupled_axes=self.coupled_axes)

    def _words(self, number: Callable[[Union[str, int]], int]) -> List[int]:
        motors = self._motors()
        models = [motors.get(axis, kz.Motor()).model for axis in range(3)]
        return [kz._word(w) for w in (number(self.body1), number(self.body2), *self._masks(), *models, kz._enabled(self.enabled))]

    def _numbers(self) -> List[float]:
        return kz._joint_numbers(self._what(), self.frame1, self.frame2, self._limits(), self._motors(), self.natural_frequency, self.damping_ratio, self.impulses, 6)


_Three = Tuple[float, float, float]


class Row(NamedTuple):
    """A row of a joint: its id (as Motor2, Dof3), kind and axis, and the fields of the Rust's JointConstraint; a vector is three numbers."""

    id: str
    kind: str
    axis: int
    impulse: float
    impulse_min: float
    impulse_max: float
    lin_jac: _Three
    ang_jac1: _Three
    ang_jac2: _Three
    ii_ang_jac1: _Three
    ii_ang_jac2: _Three
    inv_lhs: float
    rhs: float
    rhs_wo_bias: float
    cfm_gain: float
    cfm_coeff: float
    im1: _Three
    im2: _Three


class Velocity(NamedTuple):
    """A body's velocity: x, y, z each."""

    linear: _Three
    angular: _Three


class Impulse(NamedTuple):
    """What a body got: the impulse of the force, x, y, z (N s), and that of the moment about its centre of mass, x, y, z (N m s)."""

    force: _Three
    moment: _Three


class Reaction(NamedTuple):
    """What a joint's rows together gave its two bodies, an Impulse each."""

    joint: str
    body1: Impulse
    body2: Impulse


class Reactions(kz.Reactions):
    """The reactions of a built study's joints, a Reaction each; as a frame of pandas by to_pandas()."""

    _of = tuple(kz._columns(Reaction("", Impulse((0.0, 0.0, 0.0), (0.0, 0.0, 0.0)), Impulse((0.0, 0.0, 0.0), (0.0, 0.0, 0.0)))))


def reaction(rows: Sequence[Any]) -> Tuple[Impulse, Impulse]:
    """What rows as read gave their two bodies, an Impulse each: sums in the order of the rows, of f32, of lin_jac · impulse and ang_jac1 · impulse for body 1, and of their opposites, with ang_jac2, for body 2.

    These are this module's sums, and no proof stands behind them, as one does behind a planar reaction.
    """
    f32 = kz._rounded

    def total(field: str, sign: float) -> _Three:
        x, y, z = (_sum(f32(sign * f32(getattr(row, field)[i] * row.impulse)) for row in rows) for i in range(3))
        return x, y, z

    return Impulse(total("lin_jac", 1.0), total("ang_jac1", 1.0)), Impulse(total("lin_jac", -1.0), total("ang_jac2", -1.0))


def _sum(terms: Iterable[float]) -> float:
    found = 0.0
    for term in terms:
        found = kz._rounded(found + term)
    return found


# ---- a study


class Study(kz.Model):
    """A model in space with its row storage. `built` is the mark: load clears it, and build sets it."""

    _widths = kz.Widths("katydidzinc_space_", BODY_WIDTH, WORDS_WIDTH, NUMBERS_WIDTH, ROW_WIDTH, MOST_ROWS, READ_NUMBERS, READ_IDS, VELOCITY_NUMBERS)
    _places = kz._places(
        ("qx", "qy", "qz", "qw", "x", "y", "z"), (*(f"inverse_inertia {m}" for m in ("m11", "m12", "m13", "m22", "m23", "m33")), *(f"inverse_masses {axis}" for axis in "xyz")), AXES[:3]
    )
    _all_axes = ALL_AXES

    @staticmethod
    def _row(number: int, n: Any) -> Row:
        kind, axis = ("Dof", "Limit", "Motor")[number // 8], number % 8
        lin, ang1, ang2, ii1, ii2, im1, im2 = (
            tuple(n[at : at + 3]) for at in (ROW_LIN_JAC, ROW_ANG_JAC1, ROW_ANG_JAC2, ROW_II_ANG_JAC1, ROW_II_ANG_JAC2, ROW_IM1, ROW_IM2)
        )
        return Row._make((f"{kind}{axis}", kind, axis, n[0], n[1], n[2], lin, ang1, ang2, ii1, ii2, *n[ROW_INV_LHS:ROW_IM1], im1, im2))

    @staticmethod
    def _velocity(n: Any) -> Velocity:
        return Velocity((n[0], n[1], n[2]), (n[3], n[4], n[5]))

    @staticmethod
    def _rule(row: Any, words: Any) -> Tuple[str, str, str]:
        """A row's unit, its rule of docs/RULES.md, and the definition that made it (crates/spatial_rows/specs/Makers.antt)."""
        if row.kind == "Motor":
            return "N*s", f"S1.{row.axis + 1}", "motorLinearOf"
        if row.kind == "Limit":
            return "N*s", f"S2.{row.axis + 7}", "limitLinearOf"
        return ("N*s", f"S2.{row.axis + 4}", "lockLinearOf") if row.axis < 3 else ("N*m*s", f"S2.{row.axis - 2}", "lockAngularOf")

    @kz._helped
    def place(self, body: Union[str, int], x: float, y: float, z: float, rotation: kz.Numbers = (0.0, 0.0, 0.0, 1.0)) -> None:
        """Gives a body a new pose. Its inverse inertia, which is in the axes of the world, stays."""
        self._call("place", False, kz._word(self.body_number(body)), *kz._exactly(4, rotation, "place: rotation"), x, y, z)

    def reactions(self) -> Reactions:
        """The Reaction of each joint of the built study, by `reaction`. A row's own impulse is no reaction: the row was made orthogonal to the locks before it."""
        return Reactions(Reaction(name, *reaction(self.read_rows(j))) for j, name in enumerate(self.joint_names))
