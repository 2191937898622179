"""A leg that lands on its stops: trunk, thigh and shank fall by 0.2 m, the trunk on an upright rail and the foot above one place. The ground is a stop of the foot's height, from 0 up;
the knee bends until it meets its own stop. Gravity changes velocities between frames, by `simulate`. A frame has one substep, so that every impulse which the joints give is recorded.
It prints what the stops gave and what they took of the energy, each beside the same by hand; and, where matplotlib is installed, draws energies, impulses and the motion itself.

    tools/library && PYTHONPATH=python python3 examples/python/landing.py [--energy FILE.png] [--impulses FILE.png] [--animation FILE.gif]
"""

import math

import drawing
import katydidzinc as kz

FRAMES, DT, SWEEPS = 1024, 1.0 / 1024.0, 64
GRAVITY, FALL, LENGTH = 9.81, 0.2, 0.4
TRUNK, THIGH, SHANK = 8.0, 2.0, 1.0
BENT, STOP = 1.2, 2.2
NAMES, MASSES = ("trunk", "thigh", "shank"), (TRUNK, THIGH, SHANK)
INERTIAS = (0.25, THIGH * LENGTH**2 / 12.0, SHANK * LENGTH**2 / 12.0)
WEIGHT = sum(MASSES) * GRAVITY


def leg():
    """The knee's angle, from thigh to shank, is 0 where the leg is straight. Hip and foot stand above each other, so thigh and shank lean by half of it, to either side."""
    half, (re, im) = LENGTH / 2.0, kz.rotation_from_angle(BENT / 2.0)
    rise = LENGTH * re
    pin = lambda name, body1, body2, y: kz.Joint(name, body1, body2, locked_axes="x y", frame1=kz.Pose(y=y), frame2=kz.Pose(y=half))
    knee = pin("knee", "thigh", "shank", -half)
    knee.limits = {"angle": kz.Limits(0.0, STOP)}
    return kz.Study(
        dt=DT,
        bodies=[
            kz.Body("trunk", (0.0, FALL + 2.0 * rise), mass=TRUNK, inertia=INERTIAS[0]),
            kz.Body("thigh", (-half * im, FALL + 1.5 * rise), (re, -im), mass=THIGH, inertia=INERTIAS[1]),
            kz.Body("shank", (-half * im, FALL + 0.5 * rise), (re, im), mass=SHANK, inertia=INERTIAS[2]),
        ],
        joints=[
            kz.Joint("rail", "world", "trunk", locked_axes="x angle"),
            pin("hip", "trunk", "thigh", 0.0),
            knee,
            kz.Joint("ground", "world", "shank", locked_axes="x", frame2=kz.Pose(y=-half), limits={"y": kz.Limits(min=0.0)}),
        ],
    )


def numbers(values):
    """The numbers of each body at a moment, in double precision."""
    return [[float(x) for x in one] for one in values]


def kinetic(velocities):
    return sum(0.5 * m * (vx * vx + vy * vy) + 0.5 * i * turn * turn for m, i, (vx, vy, turn) in zip(MASSES, INERTIAS, velocities))


def solved(motion, frame):
    """The velocities that the frame's joints found, and those that they left: gravity's two halves lie before and after."""
    change = GRAVITY * DT / 2.0
    found, left = numbers(motion.velocities[frame - 1]), numbers(motion.velocities[frame])
    return [(vx, vy - change, turn) for vx, vy, turn in found], [(vx, vy + change, turn) for vx, vy, turn in left]


def met(motion, frame):
    """How fast the foot comes down, and how fast the knee bends, right before a frame's joints act."""
    (_, thigh, shank), (_, im, _, _) = solved(motion, frame)[0], numbers(motion.poses[frame - 1])[2]
    return -(shank[1] + shank[2] * im * LENGTH / 2.0), shank[2] - thigh[2]


def unexplained(motion):
    """The largest differences between mass times change of velocity, inertia times change of angular velocity, and what the joints gave: in N s and in N m s."""
    linear = angular = 0.0
    for frame in range(1, len(motion)):
        found, left = solved(motion, frame)
        for k, (m, i) in enumerate(zip(MASSES, INERTIAS)):
            got = [0.0, 0.0, 0.0]
            for joint, reaction in zip(motion.joints, motion.reactions[frame]):
                for body, part in ((joint.body1, reaction[0:3]), (joint.body2, reaction[3:6])):
                    if body == k:
                        got = [a + float(b) for a, b in zip(got, part)]
            off = [factor * (b - a) - g for factor, a, b, g in zip((m, m, i), found[k], left[k], got)]
            linear, angular = max(linear, abs(off[0]), abs(off[1])), max(angular, abs(off[2]))
    return linear, angular


def bending(angle):
    """Of the leg on the ground, by the one number that is free, the knee's angle: the momentum upwards, over the angle's velocity; the inertia of the angle; and the energy of height."""
    sine, cosine = math.sin(angle / 2.0), math.cos(angle / 2.0)
    lever = -LENGTH * sine * (TRUNK + 0.75 * THIGH + 0.25 * SHANK)
    inertia = (LENGTH * sine) ** 2 * (TRUNK + 0.75**2 * THIGH + 0.25**2 * SHANK) + (LENGTH * cosine / 4.0) ** 2 * (THIGH + SHANK) + (INERTIAS[1] + INERTIAS[2]) / 4.0
    return lever, inertia, GRAVITY * LENGTH * cosine * (2.0 * TRUNK + 1.5 * THIGH + 0.5 * SHANK)


def by_hand():
    """Of each stop, by the laws of impact, all else rigid and a move exact: how fast it is met, what the ground gives, what the knee's stop gives, and the energy lost."""
    down = math.sqrt(2.0 * GRAVITY * FALL)
    lever, inertia, height = bending(BENT)
    bends = -lever * down / inertia
    ground = sum(MASSES) * down + lever * bends
    moving = 0.5 * inertia * bends**2 + height
    lever, inertia, height = bending(STOP)
    bends = math.sqrt(2.0 * (moving - height) / inertia)
    return (down, ground, 0.0, 0.5 * ground * down), (bends, -lever * bends, inertia * bends, 0.5 * inertia * bends**2)


def main():
    pictures = drawing.wanted("a leg that lands on its stops")
    study = leg()
    study.load()
    motion = study.simulate(FRAMES, SWEEPS, gravity=(0.0, -GRAVITY))
    # the ground's impulse is that on the world, downwards, and the knee's that on the thigh: docs/STUDY.md has the signs
    ground = [0.0] + [-float(x) for x in motion.impulse("ground", "Limit1")[1:]]
    knee = [0.0] + [float(x) for x in motion.impulse("knee", "Limit2")[1:]]
    moving = [kinetic(numbers(v)) for v in motion.velocities]
    height = [sum(m * GRAVITY * float(pose[3]) for m, pose in zip(MASSES, poses)) for poses in motion.poses]
    total = [a + b for a, b in zip(moving, height)]
    landing = next(k for k, x in enumerate(ground) if x)
    bent = next(k for k, x in enumerate(knee) if x)
    print(f"a leg of {sum(MASSES):g} kg falls by {FALL:g} m, {FRAMES} frames of {1000.0 * DT:.4f} ms")
    for what, unit, frame, hand in zip(("the foot meets the ground", "the knee meets its stop"), ("m/s", "rad/s"), (landing, bent), by_hand()):
        found, left = solved(motion, frame)
        fast = met(motion, frame)
        change = sum(m * (b[1] - a[1]) for m, a, b in zip(MASSES, found, left))
        half = 0.5 * (ground[frame] * fast[0] + knee[frame] * fast[1])
        print(f"{what} after {float(motion.time[frame]):.4f} s at {fast[frame == bent]:.4f} {unit}; by hand at {hand[0]:.4f} {unit}")
        print(f"  the ground gives {ground[frame]:.4f} N s; mass times change of velocity, of all bodies, is {change:.4f} N s; by hand {hand[1]:.4f} N s")
        print(f"  the knee's stop gives {knee[frame]:.4f} N m s; by hand {hand[2]:.4f} N m s")
        print(f"  {kinetic(found) - kinetic(left):.4f} J are lost; half of impulse times velocity is {half:.4f} J; by hand {hand[3]:.4f} J")
    rest = FRAMES // 4
    couple = bending(STOP)[2] * math.tan(STOP / 2.0) / 2.0
    print(f"from there to the end the ground gives {sum(ground[bent:]) - WEIGHT * DT * (FRAMES - bent + 1):.4f} N s more than weight times time; by hand {by_hand()[1][1]:.4f} N s")
    print(f"at rest a frame's impulses are, in the mean of the last {rest} frames, {sum(ground[-rest:]) / rest:.6f} N s of the ground and {sum(knee[-rest:]) / rest:.6f} N m s of the knee's stop")
    print(f"  by hand, weight and the weights' couple times dt: {WEIGHT * DT:.6f} N s, {couple * DT:.6f} N m s")
    print(f"energy: {total[0]:.4f} J at the start, {total[landing - 1]:.4f} J before the ground, {total[bent - 1]:.4f} J before the knee's stop, {total[-1]:.4f} J at the end; by hand {bending(STOP)[2]:.4f} J")
    print("each body, each frame: mass times change of velocity is what joints and gravity gave, but for at most {:.1e} N s and {:.1e} N m s".format(*unexplained(motion)))
    curves = [(name, motion.time, values) for name, values in (("of moving and of height", total), ("of height, from the ground", height), ("of moving", moving))]
    drawing.draw(pictures, motion, curves, [("ground", motion.time[landing]), ("knee's stop", motion.time[bent])], 0.25)


main()
