"""Tests of simulate: its frames are those of a caller who makes them one by one, in bits, and what it records is what the reads answer."""

import math
import pickle
import struct
import unittest

import katydidzinc as kz


def arm(dt=1.0 / 64.0):
    """An arm with a motor that runs out of force and a stop, and a slider between arm and forearm."""
    return kz.Study(
        [
            kz.Body("arm", (0.5, 0.0), mass=1.0, inertia=0.1, angular_velocity=-2.0),
            kz.Body("forearm", (1.5, 0.0), mass=0.5, inertia=0.05, velocity=(0.0, 1.0)),
            kz.Body("wall", (3.0, 0.0), velocity=(0.0, 0.0)),
        ],
        [
            kz.Joint("shoulder", "world", "arm", "x y", frame2=kz.Pose(x=-0.5), limits={"angle": kz.Limits(-0.2, 0.5)}, motors={"angle": kz.Motor(target_vel=3.0, damping=50.0, max_force=0.5)}),
            kz.Joint("elbow", "arm", "forearm", "x y angle", frame1=kz.Pose(x=0.5), frame2=kz.Pose(x=-0.5)),
        ],
        dt=dt,
    )


def bits(*numbers):
    """Numbers as bits, all NaN as one."""
    return [0x7FC00000 if x != x else struct.unpack("I", struct.pack("f", x))[0] for x in numbers]


def flatten(values):
    return [x for one in values for x in flatten(one)] if hasattr(values, "__len__") else [float(values)]


def held(study):
    return [memoryview(s).tobytes() for s in (study.bodies, study.words, study.numbers, study.rows)] + [study.built]


class Frames(unittest.TestCase):
    def same(self, found, *numbers):
        self.assertEqual(bits(*flatten(found)), bits(*numbers))

    def test_by_hand(self):
        for gravity, sweeps, substeps, warm in ((None, 4, 1, None), ((0.0, -9.81), 4, 1, 1.0), ((0.3, -9.81), 2, 5, 0.75), ((0.0, 0.0), 0, 2, None)):
            study, hand = arm(), arm()
            motion = study.simulate(30, sweeps, substeps, warm, gravity=gravity)
            change = [g / 64.0 / 2.0 for g in gravity or (0.0, 0.0)]
            numbers = kz.flat(hand.bodies)

            def fall():
                for body in range(2):  # the wall has no mass that moves
                    for axis in range(2):
                        numbers[body * 10 + kz.VELOCITY_X + axis] += change[axis]

            pose = lambda: [numbers[body * 10 + k] for body in range(3) for k in range(4)]
            velocity = lambda: [numbers[body * 10 + k] for body in range(3) for k in (7, 8, 9)]
            self.assertEqual((len(motion), len(motion.time), motion.time[0]), (31, 31, 0.0))
            self.same(motion.poses[0], *pose())
            self.same(motion.velocities[0], *velocity())
            for of in (motion.impulses, motion.lower, motion.upper, motion.reactions):
                self.assertTrue(all(map(math.isnan, flatten(of[0]))))
            self.assertEqual(flatten(motion.motors[0]), [0.0, 0.0])
            for k in range(1, 31):
                fall()
                counts = hand.frame(sweeps, substeps, warm)
                rows = [row for joint in range(2) for row in hand.read_rows(joint)]
                reactions = hand.reactions()
                fall()
                self.assertEqual(motion.time[k], k / 64.0)
                self.same(motion.poses[k], *pose())
                self.same(motion.velocities[k], *velocity())
                self.same(motion.impulses[k], *(row.impulse for row in rows))
                self.same(motion.lower[k], *(row.impulse_min for row in rows))
                self.same(motion.upper[k], *(row.impulse_max for row in rows))
                # poses are those after the frame, so that a reaction of hand.reactions() and of the motion have the same
                self.same(motion.reactions[k], *(x for r in reactions for x in (*r.body1, *r.body2, *r.along, r.moment)))
                self.assertEqual(flatten(motion.motors[k]), counts)
            self.assertEqual(held(study), held(hand))
            self.assertEqual([(r.joint, r.id, r.unit) for r in motion.rows], [(r.joint, r.id, r.unit) for r in hand.table()])
            self.assertEqual([(j.name, j.body1, j.body2, j.frame1, j.frame2) for j in motion.joints], [("shoulder", kz.WORLD, 0, (0.0, 0.0), (-0.5, 0.0)), ("elbow", 0, 1, (0.5, 0.0), (-0.5, 0.0))])

    def test_kinds(self):
        motion = arm().simulate(5)
        if kz.numpy is None:
            self.assertIsInstance(motion.poses, list)
            self.assertEqual((len(motion.poses), len(motion.poses[0]), len(motion.poses[0][0])), (6, 3, 4))
        else:
            shapes = [one.shape for one in (motion.time, motion.poses, motion.velocities, motion.impulses, motion.lower, motion.upper, motion.reactions, motion.motors)]
            self.assertEqual(shapes, [(6,), (6, 3, 4), (6, 3, 3), (6, 7), (6, 7), (6, 7), (6, 2, 9), (6, 2)])
            self.assertEqual({one.dtype for one in (motion.poses, motion.velocities, motion.impulses, motion.reactions)}, {kz.numpy.dtype("float32")})
        again = pickle.loads(pickle.dumps(motion))
        for name in ("time", "poses", "velocities", "impulses", "lower", "upper", "reactions", "motors"):
            self.assertEqual(bits(*flatten(getattr(again, name))), bits(*flatten(getattr(motion, name))))
        self.assertEqual((again.rows, again.joints, again.body_names), (motion.rows, motion.joints, motion.body_names))
        self.same(motion.pose("forearm"), *(x for moment in motion.poses for x in moment[1]))
        self.same(motion.velocity(0), *(x for moment in motion.velocities for x in moment[0]))
        self.same(motion.impulse("elbow", "Dof2"), *(moment[4] for moment in motion.impulses))
        self.same(motion.reaction("elbow"), *(x for moment in motion.reactions for x in moment[1]))
        for call, words in (
            (lambda: motion.pose("forarm"), "no body is named 'forarm': did you mean 'forearm'"), (lambda: motion.impulse("elbow", "Dof3"), "no row is named 'elbow Dof3'"),
            (lambda: motion.reaction("elbo"), "no joint is named 'elbo'"), (lambda: arm().simulate(1, every=0), "every"), (lambda: arm().simulate(1, gravity=(1.0,)), "gravity: 2 numbers are wanted"),
        ):
            with self.assertRaisesRegex(ValueError, words):
                call()
        with self.assertRaisesRegex(TypeError, "did you mean 'gravity'"):
            arm().simulate(1, gravty=(0.0, 0.0))
        self.assertEqual(repr(motion), "<katydidzinc.Motion of 6 moments, 3 bodies and 7 rows>")

    def test_time(self):
        """The time is the frame's number times the f32 that dt is."""
        dt = struct.unpack("f", struct.pack("f", 1.0 / 60.0))[0]
        motion = arm(1.0 / 60.0).simulate(7, every=3)
        self.assertEqual(flatten(motion.time), [0.0, 3 * dt, 6 * dt])
        whole = arm(1.0 / 60.0).simulate(7)
        for k, frame in enumerate((0, 3, 6)):
            self.same(motion.poses[k], *flatten(whole.poses[frame]))
            self.same(motion.impulses[k], *flatten(whole.impulses[frame]))

    def test_marks(self):
        """The motor runs out of force, and the stop is touched, as the plot marks them."""
        motion = arm().simulate(60, gravity=(0.0, -9.81))
        self.assertIn(1.0, flatten(motion.motors))
        stop = [row.id for row in motion.rows].index("Limit2")
        self.assertTrue(any(moment[stop] == math.inf for moment in motion.upper) or any(moment[stop] == -math.inf for moment in motion.lower))

    def test_masks(self):
        """Rows that come and go have NaN where they are not there."""
        seen = []

        def before(study, k):
            seen.append(k)
            if k == 2:
                study.set_masks("shoulder", locked_axes="x", motor_axes="y")
            if k == 4:
                study.set_masks("shoulder", locked_axes="x y", motor_axes="angle")

        motion = arm().simulate(6, before=before)
        self.assertEqual(seen, list(range(6)))
        self.assertEqual([f"{r.joint} {r.id}" for r in motion.rows], ["shoulder Motor2", "shoulder Dof0", "shoulder Dof1", "shoulder Limit2", "elbow Dof2", "elbow Dof0", "elbow Dof1", "shoulder Motor1"])
        there = lambda joint, id: [not math.isnan(x) for x in flatten(motion.impulse(joint, id))]
        self.assertEqual(there("shoulder", "Motor2"), [False, True, True, False, False, True, True])
        self.assertEqual(there("shoulder", "Dof1"), [False, True, True, False, False, True, True])
        self.assertEqual(there("shoulder", "Motor1"), [False, False, False, True, True, False, False])
        self.assertEqual(there("elbow", "Dof0"), [False] + [True] * 6)

    def test_refused(self):
        for gravity in (None, (0.0, -9.81)):
            study = kz.Study([kz.Body("stone", velocity=(kz.MAX, 0.0)), kz.Body("bob", mass=1.0)], dt=0.375)
            with self.assertRaises(kz.Refused) as caught:
                study.simulate(10, gravity=gravity)
            refused = caught.exception
            self.assertEqual((refused.call, refused.number, len(refused.motion)), ("frame", kz.NOT_FINITE, 3))
            self.same(refused.motion.poses[-1], *(kz.flat(study.bodies)[i * 10 + k] for i in range(2) for k in range(4)))
            self.same(refused.motion.velocities[-1], *(kz.flat(study.bodies)[i * 10 + k] for i in range(2) for k in (7, 8, 9)))
            again = pickle.loads(pickle.dumps(refused))
            self.assertEqual((again, len(again.motion)), (refused, 3))

    def test_pandas(self):
        motion = arm().simulate(4, gravity=(0.0, -9.81))
        try:
            import pandas
        except ImportError:
            print("pandas: left out, because it is not installed")
            return
        table = motion.to_pandas()
        self.assertIsInstance(table, pandas.DataFrame)
        self.assertEqual((table.shape, table.index.name, list(table.index)), ((5, 3 * 4 + 3 * 3 + 2 * 9 + 3 * 7 + 2), "time [s]", [k / 64.0 for k in range(5)]))
        self.same(table["pose", "forearm", "x"], *(moment[1][2] for moment in motion.poses))
        self.same(table["velocity", "arm", "angular"], *(moment[0][2] for moment in motion.velocities))
        self.same(table["impulse", "shoulder", "Motor2"], *flatten(motion.impulse("shoulder", "Motor2")))
        self.same(table["upper", "shoulder", "Limit2"], *(moment[3] for moment in motion.upper))
        self.same(table["reaction", "elbow", "moment"], *(moment[1][8] for moment in motion.reactions))
        self.assertEqual(list(table["motors", "shoulder", "out of force"]), [moment[0] for moment in motion.motors])


if __name__ == "__main__":
    unittest.main(verbosity=0)
