"""A wing beat from motor tables: a thorax on an upright rail has a wing on either side, and before each frame a motor table sets the velocities at which the two shoulders are to turn, so that
the wings swing five times a second. There is neither air nor gravity: what is seen is the inertia. The motors have a greatest torque, less than the turns of the wings ask for, and the shoulders
have stops, which the wings meet before they turn. It prints momentum, energy and work, some beside the same by hand; and, where matplotlib is installed, draws energies, impulses and the motion.

    tools/library && PYTHONPATH=python python3 examples/python/wing_beat.py [--energy FILE.png] [--impulses FILE.png] [--animation FILE.gif]
"""

import math

import drawing
import katydidzinc as kz

SECONDS, STEPS, SWEEPS, WARM = 0.5, (1.0 / 1024.0, 1.0 / 4096.0), 32, 1.0
BEATS, SWING, STOP, TORQUE = 5.0, 0.9, 0.8, 0.5
THORAX, WING, LENGTH, WIDTH = 0.3, 0.025, 0.3, 0.06
INERTIAS = (0.0002, WING * LENGTH**2 / 12.0, WING * LENGTH**2 / 12.0)
MASSES = (THORAX, WING, WING)
RIGHT, LEFT, ANGLE = 1, 2, 2  # two joints' numbers and an axis, as a motor table has them


def bird(dt):
    """Both wings begin at their upper stops, at rest. The right one turns counterclockwise as it rises, the left one clockwise."""
    half, side = LENGTH / 2.0, WIDTH / 2.0
    re, im = kz.rotation_from_angle(STOP)

    def shoulder(name, sign):
        motor = kz.Motor(damping=10000.0, max_force=TORQUE)
        return kz.Joint(
            name, "thorax", name, locked_axes="x y", frame1=kz.Pose(x=sign * side), frame2=kz.Pose(x=-sign * half), limits={"angle": kz.Limits(-STOP, STOP)}, motors={"angle": motor}
        )

    return kz.Study(
        dt=dt,
        bodies=[
            kz.Body("thorax", mass=THORAX, inertia=INERTIAS[0]),
            kz.Body("right", (side + half * re, half * im), (re, im), mass=WING, inertia=INERTIAS[1]),
            kz.Body("left", (-side - half * re, half * im), (re, -im), mass=WING, inertia=INERTIAS[2]),
        ],
        joints=[kz.Joint("rail", "world", "thorax", locked_axes="x angle"), shoulder("right", 1.0), shoulder("left", -1.0)],
    )


def tables(dt):
    """A motor table for each frame: a record for each shoulder, its number, the axis, and thousandths of the angular velocity at the frame's middle."""
    found = []
    for frame in range(round(SECONDS / dt)):
        turn = round(-1000.0 * SWING * 2.0 * math.pi * BEATS * math.sin(2.0 * math.pi * BEATS * (frame + 0.5) * dt))
        found.append(kz.write_motor_table([(RIGHT, ANGLE, turn), (LEFT, ANGLE, -turn)]))
    return found


def kinetic(velocities):
    return sum(0.5 * m * (vx * vx + vy * vy) + 0.5 * i * turn * turn for m, i, (vx, vy, turn) in zip(MASSES, INERTIAS, velocities))


def about_shoulder(pose, velocity):
    """The right wing's angular momentum about its shoulder's place, of a pose and a velocity."""
    re, im, (vx, vy, turn) = float(pose[0]), float(pose[1]), velocity
    return INERTIAS[1] * turn + WING * LENGTH / 2.0 * (re * vy - im * vx)


def works(motion, kind):
    """What the rows of this id did up to each moment, both shoulders together: an impulse times the mean of the angular velocities before and after it. A positive impulse turns body 1 counterclockwise."""
    rows = [motion.impulse(name, kind) for name in ("right", "left")]
    found = [0.0]
    for frame in range(1, len(motion)):
        done = 0.0
        for row, wing in zip(rows, (1, 2)):
            turns = [float(motion.velocities[k][wing][2]) - float(motion.velocities[k][0][2]) for k in (frame - 1, frame)]
            done -= float(row[frame]) * (turns[0] + turns[1]) / 2.0
        found.append(found[-1] + done)
    return found


def main():
    pictures = drawing.wanted("a wing beat from motor tables")
    print(f"two wings of {1000.0 * WING:g} g on a thorax of {1000.0 * THORAX:g} g, {BEATS:g} beats a second from {SWING:g} to -{SWING:g} rad by the tables, stops at {STOP:g} and -{STOP:g} rad, {SECONDS:g} s")
    drawn = None
    for dt in STEPS:
        study, beat = bird(dt), tables(dt)
        study.load()
        motion = study.simulate(len(beat), SWEEPS, 1, WARM, before=lambda study, frame: study.set_targets(beat[frame]))
        velocities = [[[float(x) for x in one] for one in moment] for moment in motion.velocities]
        angles = [math.atan2(float(moment[1][1]), float(moment[1][0])) for moment in motion.poses]
        energy, motors, stops = [kinetic(moment) for moment in velocities], works(motion, "Motor2"), works(motion, "Limit2")
        rest = [e - m - s for e, m, s in zip(energy, motors, stops)]
        momentum = max(abs(sum(m * v[1] for m, v in zip(MASSES, moment))) for moment in velocities)
        fast = min(range(len(velocities)), key=lambda k: velocities[k][1][2])
        by_hand = -WING * LENGTH * math.cos(angles[fast]) * velocities[fast][1][2] / (THORAX + 2.0 * WING)
        motor, stop = ([0.0] + [float(x) for x in motion.impulse("right", kind)[1:]] for kind in ("Motor2", "Limit2"))
        met = next(k for k, x in enumerate(stop) if abs(x) > 2.0 * TORQUE * dt)
        change = about_shoulder(motion.poses[met - 1][1], velocities[met][1]) - about_shoulder(motion.poses[met - 1][1], velocities[met - 1][1])
        short, touched = sum(counts[RIGHT] > 0 for counts in motion.motors), sum(x != 0.0 for x in stop)
        print(f"{len(beat)} frames of {1000.0 * dt:.4f} ms; the first table's records, joint, axis and thousandths of rad/s: {' and '.join(beat[0].decode().split())}")
        print(f"  right wing: from {max(angles):.4f} to {min(angles):.4f} rad, at most {-velocities[fast][1][2]:.3f} rad/s downwards; the tables ask for {SWING * 2.0 * math.pi * BEATS:.3f} rad/s")
        print(f"  its motor: out of torque in {short} frames, with {max(map(abs, motor)):.9f} N m s a frame; by hand, torque times dt, {TORQUE * dt:.9f} N m s")
        print(f"  its stops: touched in {touched} frames, first hard after {float(motion.time[met]):.4f} s at {-velocities[met - 1][1][2]:.3f} rad/s, with {-stop[met]:.6f} N m s")
        print(f"    with the motor's {-motor[met]:.6f} N m s that is {-stop[met] - motor[met]:.6f} N m s; the wing's angular momentum about its shoulder changes by {change:.6f} N m s")
        print(f"  thorax: {velocities[fast][0][1]:.4f} m/s where the wing is the fastest; by hand, of the wings' momentum, {by_hand:.4f} m/s")
        print(f"  momentum upwards, of thorax and wings: at most {momentum:.1e} N s; by hand 0 N s")
        print(f"  energy: {energy[-1]:.4f} J at the end; the motors gave {motors[-1]:.4f} J, the stops {stops[-1]:.4f} J, and so the pins and the rail {rest[-1]:.4f} J; by hand these give 0 J")
        drawn = drawn or (motion, energy, motors, stops, rest)
    motion, *energies = drawn
    names = ("of thorax and wings", "given by the motors", "given by the stops", "given by pins and rail")
    drawing.draw(pictures, motion, [(name, motion.time, values) for name, values in zip(names, energies)], speed=0.1)


main()
