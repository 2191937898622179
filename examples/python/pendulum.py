"""A pendulum that swings for ten thousand frames: a rod of a metre pinned to the world, let go at sixty degrees. A frame moves the rod; gravity is the caller's, half of its
change of velocity before each frame and half after it. It prints the energy and the period, by frames of 1, 4 and 16 substeps, and draws both. The move is of first order: the rod
loses energy, the less the more substeps a frame has.

    tools/library && PYTHONPATH=python python3 examples/python/pendulum.py [FILE.svg]
"""

import math
import sys

import katydidzinc as kz

FRAMES, DT, SUBSTEPS, SWEEPS, WARM = 10000, 1.0 / 64.0, (1, 4, 16), 4, 1.0
GRAVITY, MASS, LENGTH = 9.81, 1.0, 1.0
INERTIA = MASS * LENGTH**2 / 12.0
START = math.radians(60.0)


def pendulum():
    """Frame 2 is the rod's upper end; at angle 0 the rod hangs down from there."""
    half = LENGTH / 2.0
    return kz.Study(
        dt=DT,
        bodies=[
            kz.Body(
                "rod", (half * math.sin(START), -half * math.cos(START)), (math.cos(START), math.sin(START)),
                inverse_inertia=1.0 / INERTIA, inverse_masses=(1.0 / MASS, 1.0 / MASS),
            )
        ],
        joints=[kz.Joint("pin", kz.WORLD, "rod", kz.LIN_X | kz.LIN_Y, frame2=kz.Pose(y=half))],
    )


def exact_period():
    """That of the rigid pendulum: a quarter of a turn by the arithmetic-geometric mean."""
    a, b = 1.0, math.cos(START / 2.0)
    while abs(a - b) > 1.0e-15:
        a, b = (a + b) / 2.0, math.sqrt(a * b)
    about_pin = INERTIA + MASS * LENGTH**2 / 4.0
    return 2.0 * math.pi * math.sqrt(about_pin / (MASS * GRAVITY * LENGTH / 2.0)) / a


def swing(study, substeps):
    """The angle and the energy after each frame, the start first, and how far the pin was off at most."""
    rod = memoryview(study.bodies).cast("B").cast("f")
    angles, energies, off = [], [], 0.0

    def look():
        re, im, x, y = rod[:4]
        vx, vy, turn = rod[kz.VELOCITY_X :]
        angles.append(math.atan2(im, re))
        energies.append(0.5 * MASS * (vx * vx + vy * vy) + 0.5 * INERTIA * turn * turn + MASS * GRAVITY * (y + LENGTH / 2.0))
        return math.hypot(x - LENGTH / 2.0 * im, y + LENGTH / 2.0 * re)

    look()
    for _ in range(FRAMES):
        rod[kz.VELOCITY_Y] -= GRAVITY * DT / 2.0
        study.frame(SWEEPS, substeps, WARM)
        rod[kz.VELOCITY_Y] -= GRAVITY * DT / 2.0
        off = max(off, look())
    return angles, energies, off


def periods(angles):
    """From each fall through angle 0 to the next but one, a straight line between two frames."""
    falls = [(i + a / (a - b)) * DT for i, (a, b) in enumerate(zip(angles, angles[1:])) if a > 0.0 >= b]
    return [later - earlier for earlier, later in zip(falls, falls[1:])]


def drawn(curves):
    """The curves as the text of an SVG: a name, a unit, times and values each, one above the other."""
    width, height, left = 900, 190, 80
    parts = [f'<svg xmlns="http://www.w3.org/2000/svg" width="{width}" height="{height * len(curves)}" font-family="sans-serif" font-size="12">']
    for k, (name, unit, times, values) in enumerate(curves):
        low, high, last = min(values), max(values), FRAMES * DT
        top = k * height + 30
        x = lambda t: left + t / last * (width - left - 20)
        y = lambda v: top + (high - v) / ((high - low) or 1.0) * (height - 60)
        parts.append(f'<text x="{left}" y="{top - 10}">{name} [{unit}] over {last:g} s</text>')
        for v in (low, high):
            parts.append(f'<text x="{left - 6}" y="{y(v) + 4:.1f}" text-anchor="end">{v:.5g}</text>')
            parts.append(f'<line x1="{left}" x2="{width - 20}" y1="{y(v):.1f}" y2="{y(v):.1f}" stroke="#ccc"/>')
        points = " ".join(f"{x(t):.1f},{y(v):.1f}" for t, v in zip(times, values))
        parts.append(f'<polyline fill="none" stroke="#05a" stroke-width="0.7" points="{points}"/>')
    return "\n".join(parts) + "\n</svg>\n"


def main():
    print(f"rod of {LENGTH:g} m from {math.degrees(START):g} degrees, {FRAMES} frames of {DT:g} s; the rigid pendulum has a period of {exact_period():.5f} s")
    curves = []
    for substeps in SUBSTEPS:
        study = pendulum()
        study.load()
        angles, energies, off = swing(study, substeps)
        found = periods(angles)
        print(f"substeps: {substeps}")
        print(f"  energy: {energies[0]:.4f} J at the start, at most {max(energies):.4f}, {energies[-1]:.4f} at the end")
        print(f"  period: the first {found[0]:.5f} s, the last of {len(found)} {found[-1]:.5f}")
        print(f"  largest angle: {math.degrees(max(angles[:200])):.3f} degrees in the first 200 frames, {math.degrees(max(angles[-200:])):.3f} in the last")
        print(f"  pin: at most {1000.0 * off:.4f} mm off")
        curves.append((f"energy, {substeps} substeps", "J", [i * DT for i in range(FRAMES + 1)], energies))
        curves.append((f"period of each swing, {substeps} substeps", "s", [i * (FRAMES * DT) / len(found) for i in range(len(found))], found))
    for path in sys.argv[1:]:
        with open(path, "w") as file:
            file.write(drawn(curves))


main()
