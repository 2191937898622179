"""Tests of the Python module for space: its numbers are the header's, its calls are the library's, and each refusal leaves a study as it was."""

import array
import ctypes
import math
import pathlib
import pickle
import re
import struct
import unittest

import katydidzinc as kz
from katydidzinc import space

HEADER = pathlib.Path(__file__).resolve().parent.parent / "include" / "katydidzinc_space.h"


def hand():
    """A hand on a wrist of the world: x and the angles about x and y locked, a stop along y, a motor along z."""
    return space.Study(
        bodies=[space.Body("hand", (0.0, -0.5, 0.0), (0.0, 0.0, 0.5, 1.0), (4.0, 0.0, 0.5, 8.0, 0.0, 4.0), (1.0, 1.0, 1.0), (1.0, -2.0, 3.0), (0.5, 0.25, -0.5))],
        joints=[
            space.Joint(
                "wrist", "world", "hand", "x rx ry", frame2=space.Pose(y=0.5, x=-0.25), limits={"y": kz.Limits(0.0, 1.0)},
                motors={"z": kz.Motor(target_vel=1.0, damping=2.0, max_force=3.0)},
            )
        ],
    )


def held(study):
    return [memoryview(s).tobytes() for s in (study.bodies, study.words, study.numbers, study.rows)] + [study.built]


def floats(s):
    return memoryview(s).cast("B").cast("f")


def integers(s):
    return memoryview(s).cast("B").cast("I")


def bits(*numbers):
    return [f"{struct.unpack('I', struct.pack('f', x))[0]:X}" for x in numbers]


class Header(unittest.TestCase):
    def test_every_constant(self):
        found = re.findall(r"^#define KATYDIDZINC_SPACE_(\w+) (\d+)", HEADER.read_text(), re.M)
        self.assertGreater(len(found), 60)
        for name, value in found:
            self.assertEqual(getattr(space, name), int(value), name)

    def test_every_call(self):
        calls = set(re.findall(r"^uint64_t katydidzinc_space_(\w+)\(", HEADER.read_text(), re.M))
        self.assertEqual(calls, set(space._ARGUMENTS))


class Records(unittest.TestCase):
    def test_defaults(self):
        s = space.Study([space.Body(), space.Body()], [space.Joint("j", 0, 1)])
        pose, limits, motor = [0.0, 0.0, 0.0, 1.0, 0.0, 0.0, 0.0], [-kz.MAX, kz.MAX, 0.0], [0.0, 0.0, 0.0, 0.0, kz.MAX, 0.0]
        self.assertEqual(list(floats(s.numbers)), pose * 2 + limits * 3 + motor * 3 + [1.0e6, 1.0] + [0.0] * 6)
        self.assertEqual(list(integers(s.words)), [0, 1] + [0] * 8)
        self.assertEqual(list(floats(s.bodies)), (pose + [0.0] * 15) * 2)
        s.load()
        self.assertEqual((s.build(), s.read_rows("j")), (0, []))
        self.assertEqual((s.length_unit, s.normalized_max_corrective_velocity), (1.0, 3.0))

    def test_axes(self):
        self.assertEqual([space.mask(a) for a in ("", "x y z", "rx,ry, rz", ["z", 3], 45, "x x", ())], [0, 7, 56, 12, 45, 1, 0])
        for wrong in ("w", ["rw"], [6], [-1]):
            with self.assertRaises(ValueError):
                space.mask(wrong)
        joint = lambda **given: list(integers(space.Study([space.Body()], [space.Joint("j", kz.WORLD, 0, **given)]).words))[2:6]
        self.assertEqual(joint(locked_axes="x rz", limits={"y": kz.Limits()}, motors={2: kz.Motor()}), [33, 2, 4, 0])
        self.assertEqual(joint(limits=[kz.Limits()] * 3, limit_axes="z", motors={"x": kz.Motor()}, motor_axes=0, coupled_axes="ry"), [0, 4, 0, 16])
        for wrong in (dict(limits={"rx": kz.Limits()}), dict(motors={3: kz.Motor()}), dict(limits=[kz.Limits()] * 4), dict(impulses=(0.0,) * 3)):
            with self.assertRaises(ValueError):
                joint(**wrong)

    def test_motors(self):
        s = space.Study([space.Body()], [space.Joint("j", kz.WORLD, 0, motors={"y": kz.Motor(1.0, 2.0, 3.0, 4.0, 5.0, 6.0, kz.FORCE_BASED)}, enabled=False)])
        self.assertEqual(list(floats(s.numbers))[space.MOTOR_Y : space.MOTOR_Z], [1.0, 2.0, 3.0, 4.0, 5.0, 6.0])
        self.assertEqual(list(integers(s.words))[space.MODEL_X :], [0, 1, 0, 2])

    def test_inertia(self):
        inertia = lambda given: list(floats(space.Study([space.Body(inverse_inertia=given)]).bodies))[space.INERTIA : space.MASS_X]
        six = [1.0, 2.0, 3.0, 4.0, 5.0, 6.0]
        self.assertEqual(inertia(six), six)
        self.assertEqual(inertia([[1.0, 2.0, 3.0], [2.0, 4.0, 5.0], [3.0, 5.0, 6.0]]), six)
        for wrong in ((1.0, 2.0), [[1.0, 2.0, 3.0], [0.0, 4.0, 5.0], [3.0, 5.0, 6.0]], [[1.0, 2.0], [2.0, 4.0], [3.0, 5.0]]):
            with self.assertRaises(ValueError):
                inertia(wrong)
        for wrong in (dict(position=(0.0, 0.0)), dict(rotation=(1.0, 0.0)), dict(velocity=(0.0,) * 4)):
            with self.assertRaises(ValueError):
                space.Study([space.Body(**wrong)])


    def test_ways(self):
        numbers = lambda **given: list(floats(space.Study([space.Body(**given)]).bodies))[7:16]
        inverse = kz.inverse
        self.assertEqual(numbers(mass=3.0, inertia=(2.0, 5.0, 7.0)), [inverse(2.0), 0.0, 0.0, inverse(5.0), 0.0, inverse(7.0), *[inverse(3.0)] * 3])
        self.assertEqual(numbers(inverse_mass=0.25, inertia=(0, 0, 0)), [0.0] * 6 + [0.25] * 3)
        for wrong in (dict(mass=1.0, inverse_masses=(1.0,) * 3), dict(mass=1.0, inverse_mass=1.0), dict(inertia=(1.0,) * 3, inverse_inertia=(1.0,) * 6)):
            with self.assertRaisesRegex(ValueError, "^body 'hand': .* are ways of giving one thing"):
                space.Body("hand", **wrong)
        with self.assertRaisesRegex(ValueError, "^body 'hand': inertia: 3 numbers are wanted, not 6"):
            space.Body("hand", inertia=(1.0,) * 6)

    def test_names(self):
        for make, words in (
            (lambda: space.Body(angular_velocty=(0.0,) * 3), "^Body has no 'angular_velocty': did you mean 'angular_velocity'"),
            (lambda: space.Joint("j", 0, 1, lock_axes="x"), "^Joint has no 'lock_axes': did you mean 'locked_axes'"), (lambda: space.Pose(rotations=1), "did you mean 'rotation'"),
            (lambda: hand().place("hand", 0.0, 0.0, 0.0, rotaton=(0.0,) * 4), "did you mean 'rotation'"),
        ):
            with self.assertRaisesRegex(TypeError, words):
                make()
        with self.assertRaisesRegex(ValueError, "^joint 'j', locked_axes: 'rxx' is no axis: did you mean 'rx'"):
            space.Joint("j", 0, 1, "x rxx")
        with self.assertRaisesRegex(ValueError, "^no body is named 'hamd': did you mean 'hand'"):
            hand().read_velocity("hamd")
        with self.assertRaises(AttributeError):
            space.Body().mass = 1.0


class Calls(unittest.TestCase):
    def test_empty(self):
        s = space.Study()
        s.load()
        self.assertEqual((s.build(), s.sweep(4), s.table(), s.reactions()), (0, [], [], []))

    def test_pandas(self):
        s = hand()
        s.load()
        s.build()
        s.sweep(4)
        try:
            import pandas  # noqa: F401
        except ImportError:
            print("pandas: left out, because it is not installed")
            return
        self.assertEqual([tuple(row) for row in s.table().to_pandas().itertuples(index=False)], [tuple(row) for row in s.table()])
        reactions, [r] = s.reactions().to_pandas(), s.reactions()
        names = [f"{body} {part} {axis}" for body in ("body1", "body2") for part in ("force", "moment") for axis in "xyz"]
        self.assertEqual((list(reactions.columns), list(reactions.iloc[0])), (["joint", *names], ["wrist", *r.body1.force, *r.body1.moment, *r.body2.force, *r.body2.moment]))

    def test_many(self):
        """Studies in space, by a pool of processes."""
        calls = kz.Calls("load", "build", ("sweep", 4), "reactions")
        studies = [hand() for _ in range(20)]
        for k, study in enumerate(studies):
            study.dt = (k - 3) / 64
        wanted = []
        for study in studies:
            try:
                wanted.append(calls(study.copy()))
            except kz.Refused as refused:
                wanted.append(refused)
        found = kz.run_many(studies, calls)
        self.assertEqual((found, repr(found), [type(one).__name__ for one in found[2:4]]), (wanted, repr(wanted), ["Refused", "Reactions"]))

    def test_a_step(self):
        s = hand()
        s.load()
        self.assertEqual(s.build(), 5)
        self.assertTrue(s.built)
        s.sweep(8)
        s.remove_bias()
        s.sweep()
        s.write_back()
        self.assertEqual([r.id for r in s.read_rows("wrist")], ["Motor2", "Dof3", "Dof4", "Dof0", "Limit1"])
        impulses = [r.impulse for r in s.read_rows(0)]
        self.assertTrue(all(math.isfinite(x) and x != 0.0 for x in impulses))
        numbers = floats(s.numbers)
        places = (space.MOTOR_Z + kz.MOTOR_IMPULSE, space.DOFS + 3, space.DOFS + 4, space.DOFS, space.LIMITS_Y + kz.LIMIT_IMPULSE)
        self.assertEqual([numbers[at] for at in places], impulses)
        self.assertEqual(s.build(warm=1.0), 5)
        self.assertEqual([r.impulse for r in s.read_rows(0)], impulses)
        before = s.read_velocity("hand")
        s.warm_start()
        self.assertNotEqual(s.read_velocity("hand"), before)
        s.place("hand", 2.0, 3.0, 4.0, (0.5, 0.5, 0.5, -0.5))
        self.assertEqual(list(floats(s.bodies))[:7], [0.5, 0.5, 0.5, -0.5, 2.0, 3.0, 4.0])
        s.load()
        self.assertFalse(s.built)

    def test_read(self):
        s = hand()
        self.assertEqual(s.read_velocity("hand"), ((1.0, -2.0, 3.0), (0.5, 0.25, -0.5)))

    def test_six_locks(self):
        unit = dict(inverse_inertia=(1.0, 0.0, 0.0, 1.0, 0.0, 1.0), inverse_masses=(1.0, 1.0, 1.0))
        s = space.Study([space.Body(**unit), space.Body(position=(1.0, 2.0, 3.0), **unit)], [space.Joint("j", 0, 1, space.AXES)], dt=1 / 64)
        s.load()
        self.assertEqual(s.build(), 6)
        rows = {r.id: r for r in s.read_rows(0)}
        self.assertEqual(list(rows), ["Dof3", "Dof4", "Dof5", "Dof0", "Dof1", "Dof2"])
        angular, linear = rows["Dof3"], rows["Dof0"]
        for field in ("ang_jac1", "ang_jac2", "ii_ang_jac1", "ii_ang_jac2"):
            self.assertEqual(bits(*getattr(angular, field)), ["3F000000", "0", "0"])
            self.assertEqual(bits(*getattr(linear, field)), ["0", "0", "0"])
        self.assertEqual(bits(angular.inv_lhs, angular.rhs, angular.cfm_gain, angular.cfm_coeff), ["40000000", "0", "2E6470CF", "2EE470CF"])
        self.assertEqual(bits(*linear.lin_jac, linear.inv_lhs, linear.rhs, linear.cfm_gain), ["3F800000", "0", "0", "3F000000", "427FFEAA", "2F6470CF"])
        self.assertEqual(bits(rows["Dof1"].rhs, rows["Dof2"].rhs), ["42FFFEAA", "433FFF00"])

    def test_at_both_ends(self):
        s = space.Study(
            [space.Body(position=(0.0, 0.0, 2.0))], [space.Joint("j", "world", 0, "x y rz", limits={"z": kz.Limits(2.0, 2.0)}, motors={"z": kz.Motor()})]
        )
        s.load()
        s.build()
        rows = s.read_rows(0)
        self.assertEqual([r.id for r in rows], ["Motor2", "Dof5", "Dof0", "Dof1", "Limit2"])
        self.assertEqual((rows[4].impulse_min, rows[4].impulse_max), (-math.inf, math.inf))

    def test_most_rows(self):
        all_three = {"x": kz.Limits(0.0, 1.0), "y": kz.Limits(0.0, 1.0), "z": kz.Limits(0.0, 1.0)}
        s = space.Study([space.Body()] * 2, [space.Joint(str(j), j - 1 if j else kz.WORLD, j, "rx ry rz", limits=all_three, motors={a: kz.Motor() for a in "xyz"}) for j in range(2)])
        s.load()
        self.assertEqual(s.build(), 18)
        for j in range(2):
            ids = [r.id for r in s.read_rows(j)]
            self.assertEqual(ids, ["Motor0", "Motor1", "Motor2", "Dof3", "Dof4", "Dof5", "Limit0", "Limit1", "Limit2"])
        self.assertEqual([r.rule for r in s.table()][:9], ["S1.1", "S1.2", "S1.3", "S2.1", "S2.2", "S2.3", "S2.7", "S2.8", "S2.9"])

    def test_table(self):
        s = hand()
        s.load()
        s.build()
        s.sweep(4)
        table = s.table()
        self.assertEqual([(r.joint, r.body1, r.body2, r.id) for r in table][0], ("wrist", "world", "hand", "Motor2"))
        self.assertEqual([r.rule for r in table], ["S1.3", "S2.1", "S2.2", "S2.4", "S2.8"])
        self.assertEqual([r.unit for r in table], ["N*s", "N*m*s", "N*m*s", "N*s", "N*s"])
        self.assertEqual([r.definition for r in table], ["motorLinearOf", "lockAngularOf", "lockAngularOf", "lockLinearOf", "limitLinearOf"])
        self.assertEqual(len(str(table).splitlines()), 6)
        lines = table.csv().split("\r\n")
        self.assertEqual({line.count(",") for line in lines[:6]}, {13})

    def test_counts(self):
        for force, count in ((math.inf, 0), (3.0, 0), (0.001, 1)):
            s = hand()
            floats(s.numbers)[space.MOTOR_Z + kz.MOTOR_MAX_FORCE] = force
            s.load()
            s.build()
            self.assertEqual((s.sweep(0), s.sweep(4)), ([0], [count]))
            self.assertEqual(s.table()[0].at, "high" if count else "")

    def test_reactions(self):
        s = hand()
        s.load()
        s.build()
        before = s.read_velocity("hand")
        s.sweep(4)
        [r], after = s.reactions(), s.read_velocity("hand")
        self.assertEqual(r.joint, "wrist")
        # of mass 1; what turns it is the inverse inertia times the moment
        for got, was, is_ in zip(r.body2.force, before.linear, after.linear):
            self.assertAlmostEqual(got, is_ - was, places=5)
        m = r.body2.moment
        turned = (4.0 * m[0] + 0.5 * m[2], 8.0 * m[1], 0.5 * m[0] + 4.0 * m[2])
        for got, was, is_ in zip(turned, before.angular, after.angular):
            self.assertAlmostEqual(got, is_ - was, places=5)
        self.assertEqual(r.body1.force, tuple(-x for x in r.body2.force))

    def test_enabled(self):
        for enabled, count in ((True, 5), (False, 0), (1, 0), (2, 0)):
            s = hand()
            integers(s.words)[space.ENABLED] = {True: 0, False: 2}[enabled] if isinstance(enabled, bool) else enabled
            s.load()
            self.assertEqual((s.build(), len(s.read_rows(0))), (count, count))


class Refusals(unittest.TestCase):
    def refused(self, number, study, call):
        before = held(study)
        with self.assertRaises(kz.Refused) as caught:
            call()
        self.assertEqual((caught.exception.number, caught.exception.rule), (number, kz.RULES[number]))
        self.assertEqual(held(study), before)

    def test_each(self):
        s = space.Study([space.Body()] * 129)
        self.refused(kz.TOO_MANY_BODIES, s, s.load)
        s = space.Study([space.Body("b")], [space.Joint("j", "world", "b")] * 129)
        self.refused(kz.TOO_MANY_JOINTS, s, s.load)
        for number, change in (
            (kz.LARGE_MASK, dict(locked_axes=64)),
            (kz.LARGE_MASK, dict(coupled_axes=64)),
            (kz.LARGE_MASK, dict(limit_axes=64, motor_axes=8, coupled_axes=1)),
            (kz.NOT_LINEAR, dict(coupled_axes="x")),
            (kz.NOT_LINEAR, dict(limit_axes="rx")),
            (kz.NOT_LINEAR, dict(limit_axes="rx", locked_axes="x y z rx ry rz")),
            (kz.NOT_LINEAR, dict(motor_axes="x rz", enabled=False)),
            (kz.NOT_LINEAR, dict(limit_axes=8, body2=1)),
            (kz.ABSENT_BODY, dict(body2=1)),
            (kz.SAME_BODY, dict(body1=0)),
            (kz.NOT_FINITE, dict(natural_frequency=math.nan)),
            (kz.NOT_FINITE, dict(frame2=space.Pose(z=math.inf))),
            (kz.NOT_FINITE, dict(limits={"z": kz.Limits(math.nan, 0.0)})),
        ):
            s = space.Study([space.Body("b")], [space.Joint("j", **{"body1": kz.WORLD, "body2": 0, **change})])
            for call in (s.load, s.build, s.warm_start, s.sweep, s.remove_bias, s.write_back, lambda: s.read_rows(0), lambda: s.read_velocity(0), lambda: s.place(0, 0.0, 0.0, 0.0)):
                self.refused(number, s, call)
        s = hand()
        s.dt = -1.0
        self.refused(kz.NEGATIVE_DT, s, s.load)
        s = hand()
        s.rows = array.array("f", [0.0] * 144)
        self.refused(kz.SMALL_STORAGE, s, s.load)
        s = hand()
        s.load()
        for call in (s.warm_start, lambda: s.sweep(1), s.remove_bias, s.write_back, lambda: s.read_rows(0), lambda: s.build(1.0, 1), s.reactions):
            self.refused(kz.NOT_BUILT, s, call)
        for pose in ((math.nan, 0.0, 0.0), (0.0, 0.0, 0.0, (0.0, 0.0, 0.0, math.inf))):
            self.refused(kz.NOT_FINITE, s, lambda: s.place(0, *pose))
        s.build()
        self.refused(kz.TOO_MANY_ROUNDS, s, lambda: s.sweep(65))
        for call in (lambda: s.read_rows(1), lambda: s.read_velocity(1), lambda: s.read_velocity(kz.WORLD), lambda: s.place(7, 0.0, 0.0, 0.0)):
            self.refused(kz.ABSENT, s, call)

    def test_places(self):
        def place(body={}, joint={}, **settings):
            s = space.Study([space.Body("one"), space.Body("two", **body)], [space.Joint("first", "world", "one"), space.Joint("second", **{"body1": "one", "body2": "two", **joint})], **settings)
            with self.assertRaises(kz.Refused) as caught:
                s.load()
            self.assertEqual(pickle.loads(pickle.dumps(caught.exception)), caught.exception)
            return caught.exception.number, tuple(caught.exception.place)

        second = lambda words: ("joint", "second", 1, words)
        self.assertEqual(place(joint=dict(locked_axes=64)), (3, second("locked_axes 64")))
        self.assertEqual(place(joint=dict(limit_axes=8)), (17, second("limit_axes 8")))
        self.assertEqual(place(joint=dict(motor_axes="rx")), (17, second("motor_axes 8")))
        self.assertEqual(place(joint=dict(coupled_axes="x")), (17, second("coupled_axes 1")))
        self.assertEqual(place(joint=dict(body2=9)), (4, second("body2 9")))
        self.assertEqual(place(joint=dict(body2="one")), (5, second("both are one")))
        for body, words in (
            (dict(rotation=(0.0, math.nan, 0.0, 1.0)), "rotation qy nan"), (dict(position=(0.0, 0.0, math.inf)), "position z inf"),
            (dict(inverse_inertia=(1.0, 0.0, 0.0, 1.0, math.nan, 1.0)), "inverse_inertia m23 nan"), (dict(inverse_masses=(1.0, 1.0, math.inf)), "inverse_masses z inf"),
        ):
            self.assertEqual(place(body=body), (6, ("body", "two", 1, words)))
        for joint, words in (
            (dict(frame1=space.Pose(rotation=(0.0, 0.0, 0.0, math.nan))), "frame1 qw nan"), (dict(frame2=space.Pose(z=math.inf)), "frame2 z inf"), (dict(limits={"z": kz.Limits(math.nan, 0.0)}), "limits z min nan"),
            (dict(motors={"y": kz.Motor(stiffness=math.inf)}), "motors y stiffness inf"), (dict(damping_ratio=math.nan), "damping_ratio nan"),
        ):
            self.assertEqual(place(joint=joint), (6, second(words)))
        self.assertEqual(place(dt=math.nan), (6, ("setting", "dt", None, "nan")))
        self.assertEqual(place(dt=-1.0), (7, ("setting", "dt", None, "-1.0")))

    def test_infinite_ends(self):
        s = space.Study([space.Body("b")], [space.Joint("j", "world", "b", limits={"z": kz.Limits(-math.inf, math.inf)}, motors={"z": kz.Motor(max_force=math.inf)})])
        s.load()

    def test_short(self):
        s = hand()
        s.load()
        s.build()
        for n, m, number in ((260, 9, kz.SHORT_SLICE), (261, 8, kz.SHORT_SLICE), (0, 0, kz.SHORT_SLICE), (261, 9, None)):
            out, ids = array.array("f", [7.0] * n), array.array("I", [7] * m)
            call = lambda: s._call("read_rows", True, 0, out=out, ids=ids)
            if number is None:
                self.assertEqual(call(), 5)
                self.assertEqual(list(ids), [18, 3, 4, 0, 9, 7, 7, 7, 7])
                self.assertEqual(set(out[145:]), {7.0})
            else:
                self.refused(number, s, call)
                self.assertEqual((set(out) | {7.0}, set(ids) | {7}), ({7.0}, {7}))
        for n in (0, 127):
            counts = (ctypes.c_uint8 * 128)(*[7] * 128)
            self.refused(kz.SHORT_SLICE, s, lambda: s._call("sweep", True, 1, of_bytes=(counts, n)))
            self.assertEqual(set(counts), {7})
        out = array.array("f", [7.0] * 5)
        self.refused(kz.SHORT_SLICE, s, lambda: s._call("read_velocity", False, 0, out=out))
        self.assertEqual(list(out), [7.0] * 5)


if __name__ == "__main__":
    unittest.main(verbosity=0)
