"""Drawings of katydidzinc's studies by matplotlib, which is imported with this module: `study.plot`, `motion.plot` and `motion.animate` are what a caller uses."""

from __future__ import annotations

import importlib
import math
import pathlib
from typing import Any, Dict, List, Optional, Tuple

import katydidzinc as kz

UNITS = (("N*s", "impulse [N s]"), ("N*m*s", "impulse [N m s]"))
PICTURES_A_SECOND = 25


def _module(name: str) -> Any:
    return importlib.import_module(f"matplotlib.{name}")


def _figure(path: Any, width: float, height: float) -> Any:
    """A figure: where it is to be shown, of pyplot, which needs a screen."""
    make = _module("pyplot").figure if path is None else _module("figure").Figure
    return make(figsize=(width, height), layout="constrained")


def _done(figure: Any, path: Any) -> None:
    if path is None:
        _module("pyplot").show()
        _module("pyplot").close(figure)
    else:
        figure.savefig(path)


def bars(table: kz.Table, path: Any) -> None:
    """The impulses of a table's rows, orange at a bound, those in N s and those in N m s on axes of their own."""
    parts = [(label, [r for r in table if r.unit == unit]) for unit, label in UNITS]
    parts = [part for part in parts if part[1]] or parts[:1]
    figure = _figure(path, max(4.0, 0.5 * len(table) + 3.0), 4.0)
    wide = [max(len(rows), 1) for _, rows in parts]
    for axes, (label, rows) in zip(figure.subplots(1, len(parts), squeeze=False, gridspec_kw={"width_ratios": wide})[0], parts):
        axes.bar(range(len(rows)), [r.impulse for r in rows], color=["tab:orange" if r.at else "tab:blue" for r in rows])
        axes.set_xticks(range(len(rows)), [f"{r.joint} {r.id}" for r in rows], rotation=90)
        axes.axhline(0.0, color="black", linewidth=0.5)
        axes.set_ylabel(f"{label}; orange: at a bound")
    _done(figure, path)


def _marks(motion: kz.Motion, k: int) -> Tuple[str, str, Any]:
    """The mark of a row, what it says, and at which moments it stands."""
    row, impulse, lower, upper = motion.rows[k], motion.impulses[:, k], motion.lower[:, k], motion.upper[:, k]
    if row.id.startswith("Limit"):
        return "o", "stop touched", (lower != 0.0) & (lower == lower) | (upper != 0.0) & (upper == upper)
    out = motion.motors[:, motion.joint_names.index(row.joint)] > 0
    return "x", "motor out of force", out & ((impulse == lower) | (impulse == upper)) if row.id.startswith("Motor") else out & False


def over_time(motion: kz.Motion, path: Any) -> None:
    """The impulses of a motion's rows over its time."""
    parts = [(label, [k for k, row in enumerate(motion.rows) if row.unit == unit]) for unit, label in UNITS]
    parts = [part for part in parts if part[1]] or parts[:1]
    figure = _figure(path, 10.0, 1.0 + 3.5 * len(parts))
    for axes, (label, rows) in zip(figure.subplots(len(parts), 1, squeeze=False, sharex=True)[:, 0], parts):
        said: Dict[str, Any] = {}
        for k in rows:
            row = motion.rows[k]
            [line] = axes.plot(motion.time, motion.impulses[:, k], linewidth=0.8, label=f"{row.joint} {row.id}")
            mark, words, there = _marks(motion, k)
            if there.any():
                [said[words]] = axes.plot(motion.time[there], motion.impulses[there, k], mark, color=line.get_color(), markersize=4, fillstyle="none")
        lines, names = axes.get_legend_handles_labels()
        if lines:
            axes.legend(lines + list(said.values()), names + list(said), loc="center left", bbox_to_anchor=(1.0, 0.5), fontsize="small")
        axes.axhline(0.0, color="black", linewidth=0.5)
        axes.set_ylabel(label)
    axes.set_xlabel("time, the frame's number times dt [s]; impulses are those of a frame's last substep")
    _done(figure, path)


_Point = Tuple[float, float]


def _anchors(motion: kz.Motion, moment: int) -> List[Tuple[_Point, _Point]]:
    """The places of each joint's two frames."""

    def at(body: int, place: _Point) -> _Point:
        if body == kz.WORLD:
            return place
        re, im, x, y = (float(n) for n in motion.poses[moment, body])
        return x + re * place[0] - im * place[1], y + im * place[0] + re * place[1]

    return [(at(joint.body1, joint.frame1), at(joint.body2, joint.frame2)) for joint in motion.joints]


def _segments(motion: kz.Motion, moment: int) -> List[List[_Point]]:
    """For each body the way from its centre of mass to each of its joints, and back."""
    anchors = _anchors(motion, moment)
    found = []
    for i in range(len(motion.body_names)):
        center = (float(motion.poses[moment, i, 2]), float(motion.poses[moment, i, 3]))
        way = [center]
        for joint, ends in zip(motion.joints, anchors):
            for body, place in zip((joint.body1, joint.body2), ends):
                if body == i:
                    way += [place, center]
        found.append(way)
    return found


def moving(motion: kz.Motion, path: Any, speed: float) -> Any:
    """The bodies, each drawn from its centre of mass to its joints, as they move."""
    figure = _figure(path, 6.0, 6.0)
    axes = figure.subplots()
    last = float(motion.time[-1])
    pictures = max(1, int(last * PICTURES_A_SECOND / speed) + 1)
    moments = [min(len(motion) - 1, round(k * speed / PICTURES_A_SECOND / last * (len(motion) - 1))) if last else 0 for k in range(pictures)]
    drawn = [_segments(motion, moment) for moment in moments]
    fixed = [ends[joint.body1 != kz.WORLD] for joint, ends in zip(motion.joints, _anchors(motion, 0)) if kz.WORLD in (joint.body1, joint.body2)]
    points = [point for ways in drawn for way in ways for point in way] + fixed
    if fixed:
        axes.plot(*zip(*fixed), "ks", markersize=6)
    lines = [axes.plot([], [], "o-", markersize=4, label=name)[0] for name in motion.body_names]
    said = axes.set_title("")
    axes.set_aspect("equal")
    for edge, of in ((axes.set_xlim, [p[0] for p in points]), (axes.set_ylim, [p[1] for p in points])):
        finite = [x for x in of if math.isfinite(x)] or [0.0]
        room = 0.05 * (max(finite) - min(finite)) + 0.05
        edge(min(finite) - room, max(finite) + room)
    axes.set_xlabel("x [m]")
    axes.set_ylabel("y [m]")
    if 0 < len(lines) <= 12:
        axes.legend(loc="upper right", fontsize="small")

    def picture(k: int) -> List[Any]:
        for line, way in zip(lines, drawn[k]):
            line.set_data(*zip(*way))
        said.set_text(f"{float(motion.time[moments[k]]):.2f} s")
        return [*lines, said]

    animation = _module("animation").FuncAnimation(figure, picture, frames=pictures, interval=1000.0 / PICTURES_A_SECOND, blit=False)
    if path is None:
        _module("pyplot").show()
    else:
        writer: Optional[Any] = _module("animation").PillowWriter(fps=PICTURES_A_SECOND) if pathlib.Path(path).suffix == ".gif" else None
        animation.save(path, writer=writer)
    return animation
