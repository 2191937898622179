"""What the examples over time share: the words after their names, and the pictures of a motion. These need matplotlib; where it is not installed, a line says what is left out."""

import argparse
import sys


def wanted(description):
    """The pictures that are asked for, a file's name each."""
    parser = argparse.ArgumentParser(description=description)
    for what in ("--energy", "--impulses", "--animation"):
        parser.add_argument(what, metavar="FILE")
    return parser.parse_args()


def draw(pictures, motion, curves, marks=(), speed=1.0):
    """Energies as curves, a name, times and values each; marks are names and times. The motion's impulses; and its bodies, at this speed."""
    files = [file for file in vars(pictures).values() if file]
    if not files:
        return
    try:
        from matplotlib.figure import Figure
    except ImportError:
        print(f"{', '.join(files)}: left out, because this python3 has no matplotlib", file=sys.stderr)
        return
    if pictures.energy:
        figure = Figure(figsize=(9.0, 4.0), layout="constrained")
        axes = figure.subplots()
        for name, times, values in curves:
            axes.plot(times, values, linewidth=0.8, label=name)
        for name, time in marks:
            axes.axvline(time, color="gray", linewidth=0.8, linestyle=":")
            axes.annotate(name, (time, 1.0), (3.0, -10.0), axes.get_xaxis_transform(), "offset points", color="gray", fontsize="small")
        axes.set_xlabel("time, the frame's number times dt [s]")
        axes.set_ylabel("energy [J]")
        axes.legend()
        figure.savefig(pictures.energy)
    if pictures.impulses:
        motion.plot(pictures.impulses)
    if pictures.animation:
        motion.animate(pictures.animation, speed)
