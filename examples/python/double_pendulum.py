"""A double pendulum: two rods of a metre, the first pinned to the world and the second to the first, let go at 120 degrees, both in line. Gravity changes velocities between frames, by `simulate`. It prints the
energy by frames of 1, 4 and 16 substeps, which is lost the less the more there are, and how far the pins are off; and, where matplotlib is installed, draws energies, impulses and the motion itself.

    tools/library && PYTHONPATH=python python3 examples/python/double_pendulum.py [--energy FILE.png] [--impulses FILE.png] [--animation FILE.gif]
"""

import math

import drawing
import katydidzinc as kz

FRAMES, DT, SUBSTEPS, SWEEPS, WARM = 1280, 1.0 / 64.0, (1, 4, 16), 8, 1.0
GRAVITY, MASS, LENGTH = 9.81, 1.0, 1.0
INERTIA = MASS * LENGTH**2 / 12.0
START = 2.0 * math.pi / 3.0


def rods():
    """Of each rod frame 2 is the upper end; at angle 0 it hangs down from there."""
    half = LENGTH / 2.0
    re, im = kz.rotation_from_angle(START)
    center = lambda along: (along * im, -along * re)
    return kz.Study(
        dt=DT,
        bodies=[kz.Body(name, center(along), angle=START, mass=MASS, inertia=INERTIA) for name, along in (("upper", half), ("lower", 3.0 * half))],
        joints=[
            kz.Joint("shoulder", "world", "upper", locked_axes="x y", frame2=kz.Pose(y=half)),
            kz.Joint("elbow", "upper", "lower", locked_axes="x y", frame1=kz.Pose(y=-half), frame2=kz.Pose(y=half)),
        ],
    )


def energies(motion):
    """The energy at each moment, of falling from the height of the pin and of moving."""
    found = []
    for poses, velocities in zip(motion.poses, motion.velocities):
        total = 0.0
        for (_, _, _, y), (vx, vy, turn) in zip(poses, velocities):
            y, vx, vy, turn = float(y), float(vx), float(vy), float(turn)
            total += MASS * GRAVITY * y + 0.5 * MASS * (vx * vx + vy * vy) + 0.5 * INERTIA * turn * turn
        found.append(total)
    return found


def off(motion):
    """How far the ends that a pin holds together are apart at most."""
    most, half = 0.0, LENGTH / 2.0
    for upper, lower in motion.poses:
        (re1, im1, x1, y1), (re2, im2, x2, y2) = (map(float, upper)), (map(float, lower))
        most = max(most, math.hypot(x1 - half * im1, y1 + half * re1))
        most = max(most, math.hypot(x1 + half * im1 - (x2 - half * im2), y1 - half * re1 - (y2 + half * re2)))
    return most


def main():
    pictures = drawing.wanted("a double pendulum")
    print(f"two rods of {LENGTH:g} m from {math.degrees(START):g} degrees, {FRAMES} frames of {DT:g} s")
    curves = []
    for substeps in SUBSTEPS:
        study = rods()
        study.load()
        motion = study.simulate(FRAMES, SWEEPS, substeps, WARM, gravity=(0.0, -GRAVITY))
        found = energies(motion)
        curves.append((substeps, motion, found))
        re, im, x, y = motion.poses[-1][1]
        print(f"substeps: {substeps}")
        print(f"  energy: {found[0]:.4f} J at the start, at most {max(found):.4f}, {found[-1]:.4f} at the end")
        print(f"  pins: at most {1000.0 * off(motion):.4f} mm off")
        print(f"  the lower rod ends at {float(x):.4f}, {float(y):.4f} m")
    drawing.draw(pictures, curves[-1][1], [(f"{substeps} substeps", motion.time, found) for substeps, motion, found in curves])


main()
