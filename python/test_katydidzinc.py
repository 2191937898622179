"""Tests of the Python module: its numbers are the header's, its calls are the library's, and what the library cannot see is refused before a call."""

import array
import copy
import ctypes
import fractions
import math
import pathlib
import pickle
import random
import re
import struct
import unittest

import katydidzinc as kz

ROOT = pathlib.Path(__file__).resolve().parent.parent
HEADER = ROOT / "include" / "katydidzinc.h"


def pendulum():
    """A bob on a pin of the world, with a motor and a stop about the angle."""
    return kz.Study(
        bodies=[kz.Body("bob", (1.0, 0.0), inverse_masses=(1.0, 1.0), inverse_inertia=10.0, velocity=(0.0, -1.0))],
        joints=[
            kz.Joint(
                "pin", "world", "bob", kz.LIN_X | kz.LIN_Y, kz.ANG_X, kz.ANG_X, frame2=kz.Pose(x=-1.0), limits={2: kz.Limits(0.0, 1.0)},
                center_angle=0.5, motors={2: kz.Motor(target_vel=1.0, damping=2.0, max_force=3.0)},
            )
        ],
    )


def held(study):
    return [memoryview(s).tobytes() for s in (study.bodies, study.words, study.numbers, study.rows)] + [study.built]


class Header(unittest.TestCase):
    def test_every_constant(self):
        text = HEADER.read_text()
        found = re.findall(r"^#define KATYDIDZINC_(\w+) (?:U?INT\d+_C\()?(\d+)", text, re.M) + re.findall(r"^    KATYDIDZINC_(\w+) = (\d+)", text, re.M)
        self.assertGreater(len(found), 90)
        for name, value in found:
            self.assertEqual(getattr(kz, name), int(value), name)

    def test_every_rule(self):
        rules = dict(re.findall(r"case KATYDIDZINC_(\w+): return \"(.*)\";", HEADER.read_text()))
        self.assertEqual({getattr(kz, name): words for name, words in rules.items()}, kz.RULES)

    def test_every_call(self):
        calls = set(re.findall(r"^uint64_t katydidzinc_(\w+)\(", HEADER.read_text(), re.M))
        self.assertEqual(calls, set(kz._ARGUMENTS))


class Version(unittest.TestCase):
    def test_library(self):
        self.assertEqual(kz.__version__, f"{kz.VERSION_MAJOR}.{kz.VERSION_MINOR}.{kz.VERSION_PATCH}")
        self.assertEqual(kz._lib.katydidzinc_version(), 1000000 * kz.VERSION_MAJOR + 1000 * kz.VERSION_MINOR + kz.VERSION_PATCH)

    def test_other_layout(self):
        class Other:
            katydidzinc_layout, katydidzinc_version = staticmethod(lambda: kz.LAYOUT + 1), staticmethod(lambda: 2003004)

        with self.assertRaisesRegex(ImportError, f"elsewhere.so, version 2.3.4, has records of layout {kz.LAYOUT + 1}; this module, {kz.__version__}, reads those of layout {kz.LAYOUT}"):
            kz._of_this_layout(Other, "elsewhere.so")
        with self.assertRaisesRegex(ImportError, "elsewhere.so does not say what its records are"):
            kz._of_this_layout(object(), "elsewhere.so")


class Defaults(unittest.TestCase):
    def test_joint(self):
        s = kz.Study([kz.Body(), kz.Body()], [kz.Joint("j", 0, 1)])
        numbers = list(memoryview(s.numbers).cast("B").cast("f"))
        limits, motor = [-kz.MAX, kz.MAX, 0.0], [0.0, 0.0, 0.0, 0.0, kz.MAX, 0.0]
        self.assertEqual(numbers, [1.0, 0.0, 0.0, 0.0] * 2 + limits * 3 + motor * 3 + [1.0e6, 1.0, 0.0, 0.0, 0.0, 1.0, 0.0])
        self.assertEqual(list(memoryview(s.words).cast("B").cast("I")), [0, 1] + [0] * 10)
        s.load()
        self.assertEqual(s.build(), 0)
        self.assertEqual(s.read_rows("j"), [])
        self.assertEqual((s.length_unit, s.normalized_max_corrective_velocity), (1.0, 3.0))

    def test_center(self):
        def typed(limits, **given):
            s = kz.Study([kz.Body()], [kz.Joint("j", kz.WORLD, 0, limit_axes=kz.ANG_X, limits={2: limits}, **given)])
            return memoryview(s.words).cast("B").cast("I")[kz.CENTER_CHOICE], *memoryview(s.numbers).cast("B").cast("f")[kz.CENTER_RE:].tolist()

        f32 = lambda x: struct.unpack("f", struct.pack("f", x))[0]
        for low, high, middle in ((0.0, 2.4, f32(1.2)), (-0.5, 0.5, 0.0), (1.0, 1.0, 1.0), (-0.5, 1.2, f32(f32(f32(1.2) - 0.5) * 0.5)), (5.0, -1.0, 2.0), (0.0, 6.28, f32(3.14))):
            self.assertEqual(typed(kz.Limits(low, high)), (kz.CENTER_ANGLE, middle, 0.0))
        for limits in (kz.Limits(), kz.Limits(0.0, 2 * kz.PI), kz.Limits(0.0, math.inf), kz.Limits(math.nan, 1.0)):
            self.assertEqual(typed(limits), (kz.CENTER_COSINE_SINE, 1.0, 0.0))
        self.assertEqual(typed(kz.Limits(0.0, 2.4), center=(0.0, 1.0)), (kz.CENTER_COSINE_SINE, 0.0, 1.0))
        self.assertEqual(typed(kz.Limits(0.0, 2.4), center_angle=0.5), (kz.CENTER_ANGLE, 0.5, 0.0))

    def test_words(self):
        words = [memoryview(kz.Study([kz.Body()], [kz.Joint("j", kz.WORLD, 0, enabled=e)]).words).cast("B").cast("I")[kz.ENABLED] for e in (True, False, 0, 1, 2)]
        self.assertEqual(words, [0, 2, 0, 1, 2])
        for wrong in (-1, 2**32):
            with self.assertRaises(OverflowError):
                kz.Study([kz.Body()], [kz.Joint("j", kz.WORLD, wrong)])

    def test_body(self):
        self.assertEqual(list(memoryview(kz.Study([kz.Body()]).bodies).cast("B").cast("f")), [1.0] + [0.0] * 9)


class Given(unittest.TestCase):
    """What a caller types, in the ways that a study's text has."""

    def numbers(self, **given):
        return list(kz.flat(kz.Study([kz.Body(**given)]).bodies))

    def test_inverse(self):
        def nearest(x):
            """The f32 nearest to a fraction, ties to even, by whole numbers alone."""
            low = kz._rounded(float(x))
            near = [struct.unpack("f", struct.pack("I", struct.unpack("I", struct.pack("f", low))[0] + d))[0] for d in (-1, 0, 1)]
            return min(near, key=lambda y: (abs(fractions.Fraction(y) - x), struct.unpack("I", struct.pack("f", y))[0] % 2))

        draw = random.Random(1)
        # the largest have inverses below the smallest normal f32
        for bits in [draw.randrange(0x1E800000, 0x7F800000) for _ in range(2000)] + [0x7F7FFFFF, 0x7F000001, 0x7E800001, 0x3F800001]:
            x = struct.unpack("f", struct.pack("I", bits))[0]
            self.assertEqual((kz.inverse(x), kz.inverse(-x)), (nearest(1 / fractions.Fraction(x)), -nearest(1 / fractions.Fraction(x))))
        self.assertEqual([kz.inverse(x) for x in (0.0, -0.0, 1.0e-46, 1.0e-20, -1.0e-20, math.inf)], [0.0] * 6)
        self.assertNotEqual(kz.inverse(1.1e-20), 0.0)
        self.assertTrue(math.isnan(kz.inverse(math.nan)))

    def test_sines(self):
        """The table of sines that the proved crate has."""
        text = (ROOT / "crates" / "floats" / "src" / "sines.rt").read_text()
        table = [int(n) for n in re.findall(r"\d+", re.search(r"\[u32; 4097\] = \[([\d,\s]*)\]", text).group(1))]
        self.assertEqual((len(table), [kz._sine_entry(k) for k in range(4097)]), (4097, table))

    def test_rotation(self):
        for angle in (0.0, -0.0, 0.1, 1.0, -1.0, 1.5707964, 3.1415927, -3.1415927, 4.0, 6.2831855, 100.0, -1024.0, 1.0e-12):
            re, im = kz.rotation_from_angle(angle)
            x = kz._rounded(angle)
            self.assertAlmostEqual(re, math.cos(x), delta=1.0e-6)
            self.assertAlmostEqual(im, math.sin(x), delta=1.0e-6)
            self.assertEqual((kz._rounded(re), kz._rounded(im)), (re, im))
        self.assertEqual(struct.pack("ff", *kz.rotation_from_angle(-0.0)), struct.pack("ff", 1.0, 0.0))
        for x in (math.nan, math.inf, -math.inf):
            self.assertTrue(all(map(math.isnan, kz.rotation_from_angle(x))))
        self.assertEqual(kz.rotation_from_angle(3.0e38), kz.rotation_from_angle(kz._rounded(3.0e38)))

    def test_ways(self):
        turned = list(kz.rotation_from_angle(0.3))
        self.assertEqual(self.numbers(angle=0.3)[:2], turned)
        self.assertEqual(self.numbers(mass=3.0, inertia=7.0)[4:7], [kz.inverse(7.0), kz.inverse(3.0), kz.inverse(3.0)])
        self.assertEqual(self.numbers(inverse_mass=0.25)[5:7], [0.25, 0.25])
        self.assertEqual(self.numbers(mass=0, inertia=0)[4:7], [0.0, 0.0, 0.0])
        self.assertEqual(kz.Pose(1.0, 2.0, angle=0.3)._list(), turned + [1.0, 2.0])
        self.assertEqual((kz.Pose(re=0.5)._list(), kz.Pose(im=0.5)._list()), ([0.5, 0.0, 0.0, 0.0], [1.0, 0.5, 0.0, 0.0]))
        s = pendulum()
        s.place("bob", 1.0, 2.0, angle=0.3)
        self.assertEqual(list(kz.flat(s.bodies)[:4]), turned + [1.0, 2.0])
        for wrong in (
            dict(mass=1.0, inverse_mass=1.0), dict(mass=1.0, inverse_masses=(1.0, 1.0)), dict(inverse_mass=1.0, inverse_masses=(1.0, 1.0)), dict(inertia=1.0, inverse_inertia=1.0),
            dict(angle=0.0, rotation=(1.0, 0.0)),
        ):
            with self.assertRaisesRegex(ValueError, "^body 'bob': " + " and ".join(sorted(wrong, key=lambda w: ("rotation", "angle", "mass", "inverse_mass", "inverse_masses", "inertia", "inverse_inertia").index(w)))):
                kz.Body("bob", **wrong)
        for wrong in (dict(re=1.0, angle=0.0), dict(im=1.0, angle=0.0)):
            with self.assertRaises(ValueError):
                kz.Pose(**wrong)
            with self.assertRaises(ValueError):
                s.place("bob", 0.0, 0.0, **wrong)
        with self.assertRaisesRegex(ValueError, "center and center_angle"):
            kz.Joint("pin", "world", "bob", center=(1.0, 0.0), center_angle=0.0)

    def test_lengths(self):
        for field in ("position", "rotation", "inverse_masses", "velocity"):
            for wrong in ((1.0,), (1.0, 2.0, 3.0)):
                with self.assertRaisesRegex(ValueError, f"^body 'bob': {field}: 2 numbers are wanted, not {len(wrong)}"):
                    kz.Body("bob", **{field: wrong})
            with self.assertRaisesRegex(TypeError, f"^body 'bob': {field}: 2 numbers"):
                kz.Body("bob", **{field: 1.0})
        for field in ("mass", "inertia", "angle", "angular_velocity", "inverse_inertia"):
            with self.assertRaisesRegex(TypeError, f"^body 'bob': {field} is no number: 'one'"):
                kz.Body("bob", **{field: "one"})
        for wrong in (dict(impulses=(0.0, 0.0)), dict(center=(1.0,))):
            with self.assertRaisesRegex(ValueError, "^joint 'pin': "):
                kz.Joint("pin", "world", "bob", **wrong)
        # a record that is changed afterwards is looked at where a study is made of it
        body = kz.Body("bob")
        body.position = (1.0, 2.0, 3.0)
        with self.assertRaisesRegex(ValueError, "^body 'bob': position"):
            kz.Study([body])

    def test_axes(self):
        self.assertEqual([kz.mask(a) for a in ("", "x y", "angle", "x,y, angle", ["y", 2], 5, "x x", (), 9)], [0, 3, 4, 7, 6, 5, 1, 0, 9])
        self.assertEqual([kz.axis_number(a) for a in ("x", "y", "angle", 0, 2)], [0, 1, 2, 0, 2])
        for wrong in ("z", ["rx"], [3], [-1]):
            with self.assertRaises(ValueError):
                kz.mask(wrong)
        with self.assertRaisesRegex(ValueError, "^joint 'pin', locked_axes: 'angel' is no axis: did you mean 'angle'"):
            kz.Joint("pin", "world", "bob", locked_axes="x angel")
        masks = lambda **given: list(kz.flat(kz.Study([kz.Body()], [kz.Joint("j", kz.WORLD, 0, **given)]).words))[2:6]
        self.assertEqual(masks(locked_axes="x y", coupled_axes="angle"), [3, 0, 0, 4])
        # an axis that limits or motors name is limited or driven, unless the mask says otherwise
        self.assertEqual(masks(limits={"angle": kz.Limits(0.0, 1.0)}, motors={"x": kz.Motor(), 1: kz.Motor()}), [0, 4, 3, 0])
        self.assertEqual(masks(limits={"angle": kz.Limits(0.0, 1.0)}, limit_axes=0, motors=[kz.Motor()] * 3, motor_axes="y"), [0, 0, 2, 0])
        for wrong, error in ((dict(limits={"z": kz.Limits()}), ValueError), (dict(limits={"x": kz.Motor()}), TypeError), (dict(motors=[kz.Motor()] * 4), ValueError), (dict(limits={"x": kz.Limits(), 0: kz.Limits()}), ValueError)):
            with self.assertRaisesRegex(error, "^joint 'pin', "):
                kz.Joint("pin", "world", "bob", **wrong)
        s = pendulum()
        s.set_masks("pin", locked_axes="x", limit_axes="", motor_axes="y angle")
        self.assertEqual(list(kz.flat(s.words)[2:6]), [1, 0, 6, 0])

    def test_names(self):
        for make, words in (
            (lambda: kz.Body(angular_velocty=1.0), "^Body has no 'angular_velocty': did you mean 'angular_velocity'"),
            (lambda: kz.Joint("j", 0, 1, lock_axes="x"), "^Joint has no 'lock_axes': did you mean 'locked_axes'"),
            (lambda: kz.Motor(target_velocity=1.0), "^Motor has no 'target_velocity': did you mean 'target_vel'"),
            (lambda: kz.Limits(minimum=1.0), "^Limits has no 'minimum'"),
            (lambda: kz.Pose(angel=1.0), "^Pose has no 'angel': did you mean 'angle'"),
            (lambda: kz.Study(joint=[]), "^Study has no 'joint': did you mean 'joints'"),
            (lambda: pendulum().build(warn=1.0), "did you mean 'warm'"),
            (lambda: pendulum().frame(sweep=1), "did you mean 'sweeps'"),
            (lambda: pendulum().set_masks(0, lock="x"), "^Study.set_masks has no 'lock'"),
        ):
            with self.assertRaisesRegex(TypeError, words):
                make()
        for record, name in ((kz.Body(), "angularvelocity"), (kz.Joint("j", 0, 1), "limit_axis"), (kz.Motor(), "maxforce"), (kz.Limits(), "mim"), (kz.Pose(), "z")):
            with self.assertRaisesRegex(AttributeError, f"^{type(record).__name__} has no '{name}'"):
                setattr(record, name, 1.0)
        s = pendulum()
        for call, words in (
            (lambda: s.read_velocity("bop"), "^no body is named 'bop': did you mean 'bob'"), (lambda: s.read_rows("pim"), "^no joint is named 'pim': did you mean 'pin'"),
            (lambda: kz.Study([kz.Body("thigh"), kz.Body("shank")], [kz.Joint("knee", "thigh", "shnk")]), "^no body is named 'shnk': did you mean 'shank'"),
            (lambda: kz.Study([kz.Body("a"), kz.Body("a")]).read_velocity("a"), "^more than one body is named 'a'"),
        ):
            with self.assertRaisesRegex(ValueError, words):
                call()
        self.assertEqual((s.body_number("world"), s.body_number("bob"), s.body_number(0), s.joint_number("pin")), (kz.WORLD, 0, 0, 0))

    def test_copy(self):
        s = pendulum()
        for other in (s.copy(), copy.copy(s), copy.deepcopy(s), pickle.loads(pickle.dumps(s))):
            self.assertEqual(held(other), held(s))
            other.build()
            self.assertNotEqual(held(other), held(s))
        self.assertEqual(repr(s), "<katydidzinc.Study of 1 bodies and 1 joints, not built>")


class Calls(unittest.TestCase):
    def test_empty(self):
        s = kz.Study()
        s.load()
        self.assertEqual((s.build(), s.sweep(4), s.table(), s.reactions(), s.residuals(), s.frame()), (0, [], [], [], [], []))
        self.assertEqual((len(str(s.table()).splitlines()), len(s.table().csv().splitlines()), len(kz.flat(s.bodies))), (1, 1, 0))
        self.assertEqual(len(s.simulate(3)), 4)
        with self.assertRaises(kz.Refused):
            s.set_masks(0, "x")
        loose = kz.Study([kz.Body("stone")])
        loose.load()
        self.assertEqual((loose.build(), loose.table()), (0, []))

    def test_pandas(self):
        s = pendulum()
        s.load()
        s.build()
        s.sweep(4)
        try:
            import pandas
        except ImportError:
            for call in (s.table().to_pandas, s.reactions().to_pandas, s.simulate(1).to_pandas):
                with self.assertRaisesRegex(ImportError, "needs pandas, which is not installed"):
                    call()
            print("pandas: left out, because it is not installed")
            return
        rows, found = s.table().to_pandas(), s.table()
        self.assertEqual(list(rows.columns), list(kz.TableRow._fields))
        self.assertEqual([tuple(row) for row in rows.itertuples(index=False)], [tuple(row) for row in found])
        reactions = s.reactions().to_pandas()
        self.assertEqual(list(reactions.columns), ["joint", "body1 x", "body1 y", "body1 angular", "body2 x", "body2 y", "body2 angular", "along x", "along y", "moment"])
        r = s.reactions()[0]
        self.assertEqual(list(reactions.iloc[0]), ["pin", *r.body1, *r.body2, *r.along, r.moment])
        empty = kz.Study()
        empty.load()
        empty.build()
        self.assertEqual((list(empty.table().to_pandas().columns), len(empty.reactions().to_pandas())), (list(kz.TableRow._fields), 0))
        self.assertIsInstance(rows, pandas.DataFrame)

    def test_a_step(self):
        s = pendulum()
        s.load()
        self.assertEqual(s.build(), 4)
        self.assertTrue(s.built)
        s.sweep(8)
        s.remove_bias()
        s.sweep()
        s.write_back()
        self.assertEqual([r.id for r in s.read_rows("pin")], ["Motor2", "Dof0", "Dof1", "Limit2"])
        impulses = [r.impulse for r in s.read_rows(0)]
        self.assertTrue(all(math.isfinite(x) for x in impulses))
        numbers = memoryview(s.numbers).cast("B").cast("f")
        stored = [numbers[kz.MOTOR_ANGULAR + kz.MOTOR_IMPULSE], numbers[kz.DOF_X], numbers[kz.DOF_Y], numbers[kz.LIMITS_ANGULAR + kz.LIMIT_IMPULSE]]
        self.assertEqual(stored, impulses)
        self.assertEqual(s.build(warm=1.0), 4)
        self.assertEqual([r.impulse for r in s.read_rows(0)], impulses)
        before = s.read_velocity("bob")
        s.warm_start()
        self.assertNotEqual(s.read_velocity("bob"), before)
        s.place("bob", 2.0, 3.0, 0.0, 1.0)
        self.assertEqual(list(memoryview(s.bodies).cast("B").cast("f"))[:4], [0.0, 1.0, 2.0, 3.0])
        s.load()
        self.assertFalse(s.built)

    def test_table(self):
        s = pendulum()
        s.load()
        s.build()
        s.sweep(4)
        table = s.table()
        self.assertEqual([(r.joint, r.body1, r.body2, r.id, r.rule) for r in table][0], ("pin", "world", "bob", "Motor2", "1.1"))
        self.assertEqual([r.unit for r in table], ["N*m*s", "N*s", "N*s", "N*m*s"])
        self.assertEqual([r.definition for r in table], ["motorAngularOf", "lockLinearOf", "lockLinearOf", "limitAngularOf"])
        self.assertEqual(len(str(table).splitlines()), 5)
        self.assertEqual([line[39:49].strip() for line in str(table).splitlines()], ["unit"] + [f"1e-6 {r.unit}" for r in table])
        lines = table.csv().split("\r\n")
        self.assertEqual(len(lines), 6)
        self.assertEqual({line.count(",") for line in lines[:5]}, {13})

    def test_reactions(self):
        s = pendulum()
        s.load()
        s.build()
        before = s.read_velocity("bob")
        s.sweep(4)
        [r], after = s.reactions(), s.read_velocity("bob")
        self.assertEqual(r.joint, "pin")
        # the bob is of mass 1 and inertia 0.1, and the world's axes are the joint's
        for got, was, is_, mass in zip(r.body2, before, after, (1.0, 1.0, 0.1)):
            self.assertAlmostEqual(got, mass * (is_ - was), places=6)
        self.assertEqual((r.body1.x, r.body1.y), (-r.body2.x, -r.body2.y))
        self.assertEqual(r.along, (r.body1.x, r.body1.y))
        # the pin stands at the origin, and so does the world: the moment is what the world gets there
        self.assertAlmostEqual(r.moment, r.body1.angular, places=6)
        rows = s.read_rows("pin")
        self.assertAlmostEqual(r.moment, sum(row.impulse for row in rows if row.axis == 2), places=5)
        # a row's impulse is no reaction, where it was made orthogonal to a lock
        self.assertNotEqual(r.body1.y, next(row.impulse for row in rows if row.id == "Dof1"))

    def test_residuals(self):
        s = pendulum()
        s.load()
        s.build()
        sizes = []
        for _ in range(3):
            [before], rows = s.residuals(), s.read_rows("pin")
            self.assertEqual(len(before), 4)
            s.sweep(1)
            # the first row of the first joint is the first to be stepped
            change = s.read_rows("pin")[0].impulse - rows[0].impulse
            self.assertAlmostEqual(before[0], change, places=6)
            sizes.append(max(map(abs, before)))
        self.assertLess(sizes[2], sizes[0])
        s.sweep(64)
        self.assertLess(max(map(abs, s.residuals()[0])), 1.0e-6)

    def test_neither_is_a_call(self):
        s = pendulum()
        s.load()
        for call in (s.reactions, s.residuals):
            with self.assertRaises(kz.Refused) as caught:
                call()
            self.assertEqual(caught.exception.number, kz.NOT_BUILT)
        s.build()
        self.assertEqual((s.reactions()[0].body1, s.reactions()[0].moment), ((0.0, 0.0, 0.0), 0.0))

    def test_counts(self):
        for force, count in ((math.inf, 0), (3.0, 0), (0.001, 1)):
            s = pendulum()
            memoryview(s.numbers).cast("B").cast("f")[kz.MOTOR_ANGULAR + kz.MOTOR_MAX_FORCE] = force
            s.load()
            s.build()
            self.assertEqual((s.sweep(0), s.sweep(4)), ([0], [count]))
            self.assertEqual(s.table()[0].at, "low" if count else "")

    def test_set_targets(self):
        s = pendulum()
        s.load()
        s.build()
        numbers = memoryview(s.numbers).cast("B").cast("f")
        targets = lambda: [numbers[at + kz.MOTOR_TARGET_VEL] for at in (kz.MOTOR_X, kz.MOTOR_Y, kz.MOTOR_ANGULAR)]
        for table in ("", b""):
            s.set_targets(table)
            self.assertEqual(targets(), [0.0, 0.0, 1.0])
        s.set_targets('0,2,-2500\r\n"0","1",+0500')
        self.assertEqual(targets(), [0.0, 0.5, -2.5])
        s.set_targets(bytearray(b"0,2,1\r\n0,2,3\r\n"))
        self.assertEqual(targets(), [0.0, 0.5, kz.motor_target(3)])
        self.assertTrue(s.built)

    def test_set_masks(self):
        s = kz.Study(
            [kz.Body("a", (1.0, 0.0)), kz.Body("b", (2.0, 0.0))],
            [kz.Joint("one", kz.WORLD, "a", kz.ALL_AXES), kz.Joint("two", "a", "b", kz.LIN_X, motor_axes=kz.ANG_X)],
        )
        words = memoryview(s.words).cast("B").cast("I")
        masks = lambda j: list(words[j * kz.WORDS_WIDTH + kz.LOCKED_AXES : j * kz.WORDS_WIDTH + kz.COUPLED_AXES + 1])
        firsts = lambda: [words[j * kz.WORDS_WIDTH + kz.FIRST_ROW] for j in range(2)]
        self.assertEqual(firsts(), [0, 0])
        s.load()
        self.assertEqual((s.build(), firsts()), (5, [0, 3]))
        s.set_masks("one", locked_axes=kz.LIN_X | kz.LIN_Y)
        self.assertEqual((s.built, masks(0), masks(1), firsts()), (False, [3, 0, 0, 0], [1, 0, 4, 0], [0, 2]))
        with self.assertRaises(kz.Refused) as caught:
            s.build(1.0, 1)
        self.assertEqual(caught.exception.number, kz.NOT_BUILT)
        self.assertEqual(s.build(), 4)
        s.set_masks("two", 0, 0, 0, 0)
        self.assertEqual((masks(1), firsts(), s.build()), ([0, 0, 0, 0], [0, 2], 2))
        # a first row that a caller alters is nobody's until a load or a mask change
        words[kz.WORDS_WIDTH + kz.FIRST_ROW] = 77
        s.set_masks("one")
        self.assertEqual((s.built, masks(0), firsts()), (False, [3, 0, 0, 0], [0, 2]))
        words[kz.WORDS_WIDTH + kz.FIRST_ROW] = 77
        self.assertEqual((s.build(), firsts()), (2, [0, 77]))
        self.assertEqual([len(s.read_rows(j)) for j in range(2)], [2, 0])
        s.load()
        self.assertEqual(firsts(), [0, 2])

    def test_frame(self):
        f32 = lambda x: struct.unpack("f", struct.pack("f", x))[0]

        def moved(n, h):
            """A body's new pose, each operation rounded once."""
            a = f32(n[9] * h)
            re, im = f32(n[0] - f32(n[1] * a)), f32(n[1] + f32(n[0] * a))
            length = f32(math.sqrt(f32(f32(re * re) + f32(im * im))))
            re, im = (f32(re / length), f32(im / length)) if length else (n[0], n[1])
            return f32(n[2] + f32(n[7] * h)), f32(n[3] + f32(n[8] * h)), re, im

        for warm, sweeps, substeps in ((None, 1, 1), (0.75, 4, 3), (1.0, 0, 2), (None, 64, 16)):
            whole, parts = pendulum(), pendulum()
            dt = parts.dt
            for _ in range(3):
                told = whole.frame(sweeps, substeps, warm)
                parts.dt = f32(f32(dt) / substeps)
                for i in range(substeps):
                    parts.build(warm, i)
                    parts.warm_start()
                    parts.sweep(sweeps)
                    parts.place("bob", *moved(list(memoryview(parts.bodies).cast("B").cast("f")), parts.dt))
                    parts.remove_bias()
                    counts = parts.sweep(sweeps)
                parts.write_back()
                parts.dt = dt
                self.assertEqual((told, held(whole)), (counts, held(parts)))
                self.assertTrue(whole.built)
                self.assertEqual(whole.dt, dt)

    def test_motor_table(self):
        records = [(0, 2, -1500), (127, 0, 8000000), (3, 1, 0)]
        text = kz.write_motor_table(records)
        self.assertEqual(text, b"0,2,-1500\r\n127,0,8000000\r\n3,1,0\r\n")
        self.assertEqual(kz.read_motor_table(text), records)
        self.assertEqual(kz.read_motor_table(text.decode()), records)
        self.assertEqual((kz.write_motor_table([]), kz.read_motor_table(b"")), (b"", []))
        self.assertEqual([kz.motor_target(n) for n in (-1500, 0, 250)], [-1.5, 0.0, 0.25])
        for number, call in (
            (kz.BROKEN_TABLE, lambda: kz.read_motor_table(b"0,0,1\n")),
            (kz.BROKEN_TABLE, lambda: kz.write_motor_table([(0, 0, 1)] * 4097)),
            (kz.NOT_THREE_NUMBERS, lambda: kz.read_motor_table(b"joint,axis,velocity")),
            (kz.NOT_THREE_NUMBERS, lambda: kz.write_motor_table([(0, 0, 8000001)])),
            (kz.ABSENT_AXIS, lambda: kz.read_motor_table(b"3,0,1", 3)),
            (kz.ABSENT_AXIS, lambda: kz.write_motor_table([(0, -1, 1)])),
        ):
            with self.assertRaises(kz.Refused) as caught:
                call()
            self.assertEqual(caught.exception.number, number)
        with self.assertRaises(OverflowError):
            kz.write_motor_table([(0, 0, 2**31)])

    def test_seeded(self):
        flat = lambda s, letter: list(memoryview(s).cast("B").cast(letter))
        s = kz.seeded(4294967295)
        self.assertEqual((len(s.body_names), s.joint_names), (7, ["j0"]))
        self.assertEqual((s.dt, s.length_unit, s.normalized_max_corrective_velocity, s.built), (1 / 64, 41.125, -62.625, False))
        self.assertEqual(flat(s.words, "I"), [6, 0, 6, 0, 6, 4] + [0] * 6)
        self.assertEqual(flat(s.bodies, "f")[:10], [1.0, 0.0, 45.0, 81.5, 72.0, -94.375, -114.125, -99.625, -0.625, -21.0])
        self.assertEqual(flat(s.numbers, "f")[17:23], [19.375, -76.75, -49.25, 67.25, -81.375, -110.375])
        for seed in (0, 1, 2, 2**31, 2**32 - 1):
            s = kz.seeded(seed)
            s.load()
            self.assertEqual(s.build(), len(s.table()))
            s.sweep(4)
        self.assertEqual(held(kz.seeded(7)), held(kz.seeded(7)))
        for seed in (-1, 2**32):
            with self.assertRaises(OverflowError):
                kz.seeded(seed)
        with self.assertRaises(TypeError):
            kz.seeded(0.5)

    def test_micro_report(self):
        self.assertEqual([kz.micro_report(x) for x in (1 / 128, -1 / 128, 0.0)], [7812, -7812, 0])
        self.assertEqual([kz.millionths(x) for x in (3000.0, math.inf, math.nan)], ["over", "over", "nan"])

    def test_plot(self):
        try:
            import matplotlib

            matplotlib.use("Agg")
        except ImportError:
            s = pendulum()
            s.load()
            s.build()
            for call in (s.plot, s.simulate(1).plot, s.simulate(1).animate):
                with self.assertRaisesRegex(ImportError, "needs matplotlib, which is not installed"):
                    call()
            print("plots: left out, because matplotlib is not installed")
            return
        import tempfile

        s = pendulum()
        s.load()
        s.build()
        with tempfile.TemporaryDirectory() as folder:
            path = pathlib.Path(folder) / "impulses.png"
            s.plot(path)
            self.assertTrue(path.stat().st_size > 1000)
            motion = s.simulate(8, gravity=(0.0, -9.81))
            motion.plot(pathlib.Path(folder) / "time.png")
            motion.animate(pathlib.Path(folder) / "motion.gif", speed=0.5)
            nothing = kz.Study().simulate(0)
            nothing.plot(pathlib.Path(folder) / "nothing.png")
            nothing.animate(pathlib.Path(folder) / "nothing.gif")
            sizes = [file.stat().st_size > 1000 for file in sorted(pathlib.Path(folder).iterdir())]
            self.assertEqual(sizes, [True] * 5)


class Refusals(unittest.TestCase):
    def refused(self, number, study, call):
        before = held(study)
        with self.assertRaises(kz.Refused) as caught:
            call()
        self.assertEqual((caught.exception.number, caught.exception.rule), (number, kz.RULES[number]))
        self.assertEqual(held(study), before)

    def test_each(self):
        s = kz.Study([kz.Body()] * 129)
        self.refused(kz.TOO_MANY_BODIES, s, s.load)
        s = kz.Study([kz.Body("b")], [kz.Joint("j", "world", "b")] * 129)
        self.refused(kz.TOO_MANY_JOINTS, s, s.load)
        for number, change in (
            (kz.LARGE_MASK, dict(locked_axes=8)),
            (kz.ABSENT_BODY, dict(body2=1)),
            (kz.SAME_BODY, dict(body1=0)),
            (kz.NOT_FINITE, dict(natural_frequency=math.nan)),
            (kz.LARGE_ANGLE, dict(center_angle=1025.0)),
        ):
            s = kz.Study([kz.Body("b")], [kz.Joint("j", **{"body1": kz.WORLD, "body2": 0, **change})])
            self.refused(number, s, s.load)
        s = pendulum()
        s.dt = -1.0
        self.refused(kz.NEGATIVE_DT, s, s.load)
        s = pendulum()
        s.rows = array.array("f", [0.0] * 71)
        self.refused(kz.SMALL_STORAGE, s, s.load)
        s = pendulum()
        s.load()
        for call in (s.warm_start, lambda: s.sweep(1), s.remove_bias, s.write_back, lambda: s.read_rows(0), lambda: s.build(1.0, 1)):
            self.refused(kz.NOT_BUILT, s, call)
        for number, table in (
            (kz.BROKEN_TABLE, "0,2,1\r\n0,2,1\n"),
            (kz.BROKEN_TABLE, "0,2,1\r\n" * 4097),
            (kz.NOT_THREE_NUMBERS, "0,2,1\r\n0,2"),
            (kz.NOT_THREE_NUMBERS, "0,2,8000001"),
            (kz.ABSENT_AXIS, "0,2,1\r\n1,2,1"),
            (kz.ABSENT_AXIS, "0,3,1"),
        ):
            self.refused(number, s, lambda: s.set_targets(table))
        s.build()
        self.refused(kz.TOO_MANY_ROUNDS, s, lambda: s.sweep(65))
        for call in (
            lambda: s.read_rows(1), lambda: s.read_velocity(1), lambda: s.read_velocity(kz.WORLD), lambda: s.place(7, 0.0, 0.0), lambda: s.set_masks(1),
            lambda: s.set_masks(kz.WORLD, 7, 7, 7, 7),
        ):
            self.refused(kz.ABSENT, s, call)
        self.refused(kz.LARGE_MASK, s, lambda: s.set_masks(1, 8))
        for substeps in (0, 17, 2**32 - 1):
            self.refused(kz.SUBSTEPS, s, lambda: s.frame(64, substeps))
            self.refused(kz.TOO_MANY_ROUNDS, s, lambda: s.frame(65, substeps))
        self.refused(kz.NOT_FINITE, s, lambda: s.frame(4, 1, math.nan))
        # a body that leaves the finite numbers in the second of four substeps, and what it had done before is undone
        free = kz.Study([kz.Body("bob", (1.0, 0.0), (1.0, 0.0), 10.0, (1.0, 1.0), (0.0, -1.0)), kz.Body("stone", (kz.MAX * 0.625, 0.0), velocity=(kz.MAX, 0.0))],
                        [kz.Joint("pin", "world", "bob", kz.LIN_X | kz.LIN_Y, frame2=kz.Pose(x=-1.0))], dt=1.0)
        for _ in range(2):
            self.refused(kz.NOT_FINITE, free, lambda: free.frame(4, 4, 1.0))
            free.build()
        s.rows = array.array("f", [0.0] * 72)
        self.refused(kz.SMALL_STORAGE, s, lambda: s.set_masks(0, limit_axes=kz.LIN_X | kz.ANG_X, locked_axes=0, motor_axes=kz.ALL_AXES))
        s.rows = array.array("f", [0.0] * 71)
        self.refused(kz.SMALL_STORAGE, s, lambda: s.set_masks(1))
        s.set_masks(0, limit_axes=0)

    def test_places(self):
        def place(study, call=None, **changes):
            for name, value in changes.items():
                setattr(study, name, value)
            with self.assertRaises(kz.Refused) as caught:
                (call or study.load)()
            refused = caught.exception
            again = pickle.loads(pickle.dumps(refused))
            self.assertEqual((again, repr(again), str(again), again.__dict__), (refused, repr(refused), str(refused), refused.__dict__))
            self.assertEqual(eval(repr(refused), {"Refused": kz.Refused, "Place": kz.Place}), refused)
            self.assertIn(f"rule {refused.number}: {refused.rule}", str(refused))
            self.assertTrue(refused.place is None or str(refused).endswith(f"; here: {refused.place}"))
            return refused.number, refused.place and tuple(refused.place)

        def two(body={}, joint={}):
            """Two bodies and two joints, the second of each as wanted."""
            return kz.Study(
                [kz.Body("one"), kz.Body("two", **body)], [kz.Joint("first", "world", "one"), kz.Joint("second", **{"body1": "one", "body2": "two", **joint})],
            )

        many = [kz.Body(f"b{i}") for i in range(130)]
        self.assertEqual(place(kz.Study(many)), (1, ("body", "b128", 128, "")))
        self.assertEqual(place(kz.Study(many[:2], [kz.Joint(f"j{i}", 0, 1) for i in range(129)])), (2, ("joint", "j128", 128, "")))
        for k, name in enumerate(("locked_axes", "limit_axes", "motor_axes", "coupled_axes")):
            self.assertEqual(place(two(joint={name: 8 + k})), (3, ("joint", "second", 1, f"{name} {8 + k}")))
        self.assertEqual(place(two(joint=dict(body2=7))), (4, ("joint", "second", 1, "body2 7")))
        self.assertEqual(place(two(joint=dict(body1=2))), (4, ("joint", "second", 1, "body1 2")))
        self.assertEqual(place(two(joint=dict(body2="one"))), (5, ("joint", "second", 1, "both are one")))
        self.assertEqual(place(two(joint=dict(body1="world", body2=kz.WORLD))), (5, ("joint", "second", 1, "both are world")))
        for body, words in (
            (dict(rotation=(math.nan, 0.0)), "rotation re nan"), (dict(rotation=(1.0, math.inf)), "rotation im inf"), (dict(position=(-math.inf, 0.0)), "position x -inf"),
            (dict(position=(0.0, math.nan)), "position y nan"), (dict(inverse_inertia=math.inf), "inverse_inertia inf"), (dict(inverse_masses=(math.nan, 1.0)), "inverse_masses x nan"),
            (dict(inverse_masses=(1.0, math.nan)), "inverse_masses y nan"), (dict(angle=math.inf), "rotation re nan"),
        ):
            self.assertEqual(place(two(body=body)), (6, ("body", "two", 1, words)))
        for joint, words in (
            (dict(frame1=kz.Pose(re=math.nan)), "frame1 re nan"), (dict(frame1=kz.Pose(y=math.inf)), "frame1 y inf"), (dict(frame2=kz.Pose(math.nan)), "frame2 x nan"),
            (dict(limits={"y": kz.Limits(math.nan, math.inf)}), "limits y min nan"), (dict(limits={"angle": kz.Limits(0.0, math.nan)}), "limits angle max nan"),
            (dict(motors={"x": kz.Motor(target_vel=math.inf)}), "motors x target_vel inf"), (dict(motors={"y": kz.Motor(damping=math.nan)}), "motors y damping nan"),
            (dict(motors={"angle": kz.Motor(max_force=math.nan)}), "motors angle max_force nan"), (dict(natural_frequency=math.inf), "natural_frequency inf"),
            (dict(damping_ratio=math.nan), "damping_ratio nan"), (dict(center=(math.nan, 0.0)), "center re nan"), (dict(center=(1.0, math.nan)), "center im nan"),
            (dict(center_angle=math.inf), "center_angle inf"),
        ):
            self.assertEqual(place(two(joint=joint)), (6, ("joint", "second", 1, words)))
        # what rule 6 does not ask for is passed over
        fine = two(body=dict(velocity=(math.nan, math.inf), angular_velocity=math.nan), joint=dict(limits={"x": kz.Limits(-math.inf, math.inf, math.nan)}, motors={"x": kz.Motor(max_force=math.inf, impulse=math.nan)}, impulses=(math.nan,) * 3))
        fine.load()
        self.assertEqual(place(fine, dt=math.nan), (6, ("setting", "dt", None, "nan")))
        self.assertEqual(place(two(), length_unit=1.0e39), (6, ("setting", "length_unit", None, "inf")))
        self.assertEqual(place(two(joint=dict(center_angle=-1025.0))), (12, ("joint", "second", 1, "center_angle -1025.0")))
        self.assertEqual(place(two(), dt=-1.0), (7, ("setting", "dt", None, "-1.0")))
        s, own = pendulum(), ("call", "", None, "")
        self.assertEqual(place(s, lambda: s.set_masks(0, 8)), (3, own))
        self.assertEqual(place(s, lambda: s.build(math.nan)), (6, own))
        self.assertEqual(place(s, lambda: s.place(0, math.inf, 0.0)), (6, own))
        self.assertEqual(place(s, lambda: s.frame(warm=math.nan)), (6, own))
        self.assertEqual(place(s, s.warm_start), (10, None))
        s.build()
        self.assertEqual(place(s, lambda: s.sweep(65)), (9, own))
        self.assertEqual(place(s, lambda: s.frame(1, 17)), (16, own))
        self.assertEqual(place(s, lambda: s.read_rows(3)), (11, ("joint", "", 3, "")))
        self.assertEqual(place(s, lambda: s.read_velocity(4)), (11, ("body", "", 4, "")))
        stone = kz.Study([kz.Body("stone", velocity=(kz.MAX, 0.0))], dt=4.0)
        self.assertEqual(place(stone, stone.frame), (6, ("call", "", None, "the poses that it would give")))
        self.assertEqual(str(kz.Refused("load", 3, kz.Place("joint", "knee", 1, "locked_axes 8"))), "load is refused by rule 3: a mask exceeds 7, in space 63; here: joint 'knee' (number 1), locked_axes 8")
        self.assertEqual(str(kz.Refused("sweep", 10)), "sweep is refused by rule 10: the model is not built")
        self.assertEqual(len({kz.Refused("sweep", 10), kz.Refused("sweep", 10), kz.Refused("sweep", 9)}), 2)

    def test_short(self):
        s = pendulum()
        s.load()
        s.build()
        for n, m, number in ((107, 6, kz.SHORT_SLICE), (108, 5, kz.SHORT_SLICE), (0, 0, kz.SHORT_SLICE), (108, 6, None)):
            out, ids = array.array("f", [7.0] * n), array.array("I", [7] * m)
            call = lambda: s._call("read_rows", True, 0, out=out, ids=ids)
            if number is None:
                self.assertEqual(call(), 4)
                self.assertEqual(list(ids), [10, 0, 1, 6, 7, 7])
            else:
                self.refused(number, s, call)
                self.assertEqual((set(out) | {7.0}, set(ids) | {7}), ({7.0}, {7}))
        for n in (0, 127):
            counts = (ctypes.c_uint8 * 128)(*[7] * 128)
            self.refused(kz.SHORT_SLICE, s, lambda: s._call("sweep", True, 1, of_bytes=(counts, n)))
            self.refused(kz.SHORT_SLICE, s, lambda: s._call("frame", True, 0, 0.0, 1, 1, of_bytes=(counts, n)))
            self.assertEqual(set(counts), {7})
        out = array.array("f", [7.0] * 2)
        self.refused(kz.SHORT_SLICE, s, lambda: s._call("read_velocity", False, 0, out=out))
        self.assertEqual(list(out), [7.0, 7.0])

    def test_what_the_library_cannot_see(self):
        s = pendulum()
        s.load()
        s.build()
        for call in (lambda: s.sweep(2**32), lambda: s.read_rows(2**32), lambda: s.read_velocity(-1), lambda: s.set_masks(0, 2**32), lambda: s.frame(1, -1)):
            with self.assertRaises(OverflowError):
                call()
        whole = array.array("f", [0.0] * 200)
        s.rows, s.numbers = memoryview(whole)[:100], memoryview(whole)[99:]
        self.refused(kz.OVERLAP, s, s.load)
        s = pendulum()
        s.bodies = array.array("d", [0.0] * 10)
        with self.assertRaises(TypeError):
            s.load()
        s.bodies = memoryview(array.array("f", [0.0] * 20))[::2]
        with self.assertRaises(TypeError):
            s.load()

    def test_float_mode(self):
        self.assertTrue(kz.float_mode())
        libm = None
        try:
            libm = ctypes.CDLL("libm.so.6")
        except OSError:
            self.skipTest("no libm.so.6")
        s = pendulum()
        for mode in (0x400, 0x800, 0xC00):
            libm.fesetround(mode)
            try:
                found = kz.float_mode()
                refused = None
                try:
                    s.load()
                except kz.Refused as r:
                    refused = r.number
            finally:
                libm.fesetround(0)
            self.assertEqual((found, refused), (False, kz.FLOAT_MODE), hex(mode))


class Arrays(unittest.TestCase):
    def test_kind(self):
        s = pendulum()
        if kz.numpy is None:
            self.assertIsInstance(s.bodies, array.array)
            print("numpy: left out, because it is not installed; the arrays are the module array's")
        else:
            self.assertEqual((s.bodies.shape, s.words.shape, s.numbers.shape, s.rows.shape), ((1, 10), (1, 12), (1, 42), (6, 18)))
            self.assertEqual((s.bodies.dtype, s.words.dtype), (kz.numpy.float32, kz.numpy.uint32))

    def test_bits(self):
        self.assertEqual(struct.pack("f", kz.MAX), struct.pack("I", 0x7F7FFFFF))


if __name__ == "__main__":
    unittest.main(verbosity=0)
