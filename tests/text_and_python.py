"""Studies as text and in Python are the same, in bits: random studies are written as text, run by the program study, and made and run in Python by the same words (masses, angles, axes). Of each, the rows with their impulses,
bounds and residuals, the joints' reactions and the motors that ran out of force are compared; or, where a call is refused, the number of its rule.

    tools/library && PYTHONPATH=python python3 tests/text_and_python.py [COUNT] [SEED]

STUDY_PROGRAM names another program than crates/study/out/study.
"""

import csv
import os
import pathlib
import random
import re
import struct
import subprocess
import sys
import tempfile

import katydidzinc as kz

PROGRAM = os.path.abspath(os.environ.get("STUDY_PROGRAM", pathlib.Path(__file__).resolve().parent.parent / "crates" / "study" / "out" / "study"))
# so many studies are run by one process of the program
TOGETHER = 100
SETTINGS = (("dt", 0.03), ("length_unit", 2.0), ("normalized_max_corrective_velocity", 10.0))
MASKS = (("lock", "locked_axes", 5), ("limit", "limit_axes", 4), ("motor", "motor_axes", 4), ("couple", "coupled_axes", 1))
MOTORS = (
    ("target_velocity", "target_vel", 3.0), ("target_position", "target_pos", 1.0), ("stiffness", "stiffness", 50.0), ("damping", "damping", 20.0), ("max_force", "max_force", 40.0),
    ("motor_impulse", "impulse", 0.5),
)
ENABLED = ("enabled", "disabled_by_attached_body", "disabled")


def value(word):
    """The number that a word of the text is."""
    return struct.unpack("f", struct.pack("I", int(word, 16)))[0] if word.startswith("0x") else float(word)


class Drawn:
    """A random study: the lines of its text, and what makes it in Python."""

    def __init__(self, seed):
        self.draw = random.Random(seed)
        self.lines, self.settings, self.bodies, self.joints, self.calls = [], {}, [], [], []
        self.make()

    # words of numbers: decimals of few digits, with an exponent or without, and bits

    def number(self, size):
        d = self.draw
        x = d.uniform(-size, size)
        kind = d.randrange(10)
        if kind == 0:
            return d.choice(("0", "-0", "1", "-1", "0.5"))
        if kind == 1:
            return f"{x:.3e}"
        if kind == 2:
            return f"0x{struct.unpack('I', struct.pack('f', x))[0]:08x}"
        return f"{x:.{d.randrange(1, 7)}f}"

    def above(self, size):
        """One that is not below zero."""
        return f"{self.draw.uniform(0.0, size):.{self.draw.randrange(1, 7)}f}"

    def put(self, line, *words):
        """Writes a line, and answers its numbers."""
        self.lines.append(" ".join([line, *words]))
        return [value(word) for word in words]

    def rotation(self, line):
        """Nothing, an angle, or a cosine and a sine."""
        angle = {"  rotation": "  angle"}.get(line, line.replace("rotation", "angle"))
        kind = self.draw.randrange(4)
        if kind == 0:
            return None, None
        if kind == 1:
            return self.put(line, self.number(1.0), self.number(1.0)), None
        return None, self.put(angle, self.number(2000.0 if self.draw.randrange(4) == 0 else 4.0))[0]

    # bodies, joints and calls

    def body(self, name):
        d, given = self.draw, {}
        self.lines.append(f"body {name}")
        if d.randrange(4):
            given["position"] = self.put("  position", self.number(2.0), self.number(2.0))
        given["rotation"], given["angle"] = self.rotation("  rotation")
        kind = d.randrange(5)
        if kind == 1:
            [given["inverse_mass"]] = self.put("  inverse_mass", self.above(3.0))
        elif kind == 2:
            given["inverse_masses"] = self.put("  inverse_masses", self.above(3.0), self.above(3.0))
        elif kind:
            [given["mass"]] = self.put("  mass", d.choice((self.above(20.0), self.above(20.0), "0", "1e-21", "7e30")))
        kind = d.randrange(4)
        if kind == 1:
            [given["inverse_inertia"]] = self.put("  inverse_inertia", self.above(10.0))
        elif kind:
            [given["inertia"]] = self.put("  inertia", d.choice((self.above(2.0), self.above(2.0), "0")))
        if d.randrange(4):
            given["velocity"] = self.put("  velocity", self.number(3.0), self.number(3.0))
        if d.randrange(3):
            [given["angular_velocity"]] = self.put("  angular_velocity", self.number(4.0))
        self.bodies.append(kz.Body(name, **given))

    def mask(self, line):
        """Axes as words, or a mask as a number, which now and then is too large."""
        d = self.draw
        if d.randrange(8):
            words = " ".join(d.sample(kz.AXES, d.randrange(1, 4)))
            self.lines.append(f"{line} {words}")
            return words
        number = d.randrange(8) if d.randrange(40) else 8
        self.lines.append(f"{line} {number}")
        return number

    def frame(self, name):
        d = self.draw
        x, y = self.put(f"  {name}", self.number(1.0), self.number(1.0)) if d.randrange(4) else (0.0, 0.0)
        rotation, angle = self.rotation(f"  {name}_rotation")
        return kz.Pose(x, y, *(rotation or ()), angle=angle)

    def joint(self, name, body1, body2):
        d = self.draw
        self.lines.append(f"joint {name} {body1} {body2}")
        given = {mask: self.mask(f"  {word}") if d.randrange(6) < odds else 0 for word, mask, odds in MASKS}
        given.update(frame1=self.frame("frame1"), frame2=self.frame("frame2"), limits={}, motors={}, impulses=[0.0, 0.0, 0.0])
        for axis in d.sample(kz.AXES, d.randrange(4)):
            ends = sorted((self.number(1.0), self.number(1.0)), key=value) if d.randrange(8) else ("-inf", self.number(1.0))
            given["limits"][axis] = limits = kz.Limits(*self.put(f"  limits {axis}", *ends))
            if d.randrange(3) == 0:
                [limits.impulse] = self.put(f"  limit_impulse {axis}", self.number(0.5))
        for axis in d.sample(kz.AXES, d.randrange(4)):
            given["motors"][axis] = motor = kz.Motor()
            for word, field, size in MOTORS:
                if d.randrange(2):
                    setattr(motor, field, self.put(f"  {word} {axis}", self.above(size) if field in ("stiffness", "damping", "max_force") else self.number(size))[0])
            if d.randrange(2):
                motor.model = d.choice((kz.ACCELERATION_BASED, kz.FORCE_BASED))
                self.lines.append(f"  motor_model {axis} {('acceleration', 'force')[motor.model]}")
        kind = d.randrange(5)
        if kind == 0:
            given["center"] = self.put("  center", self.number(1.0), self.number(1.0))
        elif kind == 1:
            [given["center_angle"]] = self.put("  center_angle", self.number(3.0 if d.randrange(8) else 1100.0))
        if d.randrange(3) == 0:
            [given["natural_frequency"]], [given["damping_ratio"]] = self.put("  natural_frequency", self.above(100.0)), self.put("  damping_ratio", self.above(5.0))
        for axis in range(3):
            if d.randrange(3) == 0:
                [given["impulses"][axis]] = self.put(f"  impulse {kz.AXES[axis]}", self.number(0.5))
        if d.randrange(4) == 0:
            given["enabled"] = d.randrange(3)
            self.lines.append(f"  {ENABLED[given['enabled']]}")
        self.joints.append(kz.Joint(name, body1, body2, **given))

    def call(self, text, name, *arguments, **named):
        self.lines.append(text)
        self.calls.append((name, arguments, named))

    def step(self):
        d, warm = self.draw, self.draw.choice((None, "1", "0.75"))
        words, coefficient = ("", None) if warm is None else (f" warm {warm}", float(warm))
        if d.randrange(3) == 0:
            sweeps, substeps = d.randrange(6), d.randrange(1, 4)
            self.call(f"frame{words} sweeps {sweeps} substeps {substeps}", "frame", sweeps, substeps, coefficient)
            return
        self.call(f"build{words}", "build", coefficient)
        if warm:
            self.call("warm_start", "warm_start")
        n = d.randrange(8)
        self.call(f"sweep {n}", "sweep", n)
        if d.randrange(2):
            self.call("remove_bias", "remove_bias")
            self.call("sweep 2", "sweep", 2)
        self.call("write_back", "write_back")

    def make(self):
        d = self.draw
        self.lines.append("settings")
        for name, size in SETTINGS:
            if d.randrange(2):
                [self.settings[name]] = self.put(f"  {name}", self.above(size) if d.randrange(60) else "-0.5")
        names = [f"b{i}" for i in range(d.randrange(1, 6))]
        for name in names:
            self.body(name)
        for j in range(d.randrange(1, 6)):
            ends = d.sample([*names, "world"], 2)
            self.joint(f"j{j}", ends[0], ends[1] if d.randrange(60) else ends[0])
        self.call("load", "load")
        self.step()
        if d.randrange(2):
            body, x, y, angle = d.choice(names), self.number(2.0), self.number(2.0), self.number(4.0)
            self.call(f"place {body} {x} {y} {angle}", "place", body, value(x), value(y), angle=value(angle))
            self.step()
        if d.randrange(4) == 0:
            joint, locked, driven = d.choice(self.joints).name, *(" ".join(d.sample(kz.AXES, d.randrange(1, 4))) for _ in range(2))
            self.call(f"masks {joint} lock {locked} motor {driven}", "set_masks", joint, locked, 0, driven, 0)
            self.step()

    def text(self):
        return "\n".join([*self.lines, "table csv", ""])

    def by_python(self):
        """The records of the table, or the number of a refusal."""
        study = kz.Study(self.bodies, self.joints, **self.settings)
        none = counts = ["-"] * len(self.joints)
        try:
            for name, arguments, named in self.calls:
                answer = getattr(study, name)(*arguments, **named)
                # the text has the counts of the last round since the rows were made
                if name in ("build", "frame"):
                    counts = none
                if name in ("sweep", "frame") and arguments[0]:
                    counts = answer
        except kz.Refused as refused:
            return [str(refused.number)]
        residuals = [x for joint in study.residuals() for x in joint]
        rows = [(r.joint, r.body1, r.body2, r.id, r.unit, *map(kz._bits, (r.impulse, r.lower, r.upper, residual)), r.rule, r.definition) for r, residual in zip(study.table(), residuals)]
        numbers = [(r.body1.x, r.body1.y, *r.along, r.moment, r.body1.angular, r.body2.angular) for r in study.reactions()]
        return rows + [(name, *map(kz._bits, of), str(count)) for name, of, count in zip(study.joint_names, numbers, counts)]


def by_text(out, said):
    """The records of the program's table, or the number of a refusal."""
    refused = re.search(r": refused with (\d+)", said)
    if refused:
        return [refused.group(1)]
    rows, reactions = (list(csv.DictReader(block.splitlines())) for block in out.split("\r\n\r\n"))
    bits = lambda record: [field.lower() for name, field in record.items() if name.endswith("[f32 bits]")]
    return [(r["joint"], r["body1"], r["body2"], r["id"], r["unit"], *bits(r), r["rule"], r["definition"]) for r in rows] + [
        (r["joint"], *bits(r), r["motors low or high in the last round"]) for r in reactions
    ]


def run_texts(texts):
    """What the program prints and says of each of these."""
    with tempfile.TemporaryDirectory() as folder:
        names = [f"{k}.study" for k in range(len(texts))]
        for name, text in zip(names, texts):
            (pathlib.Path(folder) / name).write_text(text)
        # of a single file the program would not say its name
        ended = subprocess.run([PROGRAM, *names, names[0]], cwd=folder, capture_output=True)
    parts = [re.split(r"^# \d+\.study\n", stream.decode(), flags=re.M)[1:-1] for stream in (ended.stdout, ended.stderr)]
    if {len(part) for part in parts} != {len(texts)}:
        raise SystemExit(f"text and Python: the program ended with {ended.returncode} within its files: {ended.stderr.decode()[-1000:]}")
    return list(zip(*parts))


def main():
    count, seed = int(sys.argv[1]) if len(sys.argv) > 1 else 1000, sys.argv[2] if len(sys.argv) > 2 else "1"
    records = refused = 0
    for first in range(0, count, TOGETHER):
        drawn = [Drawn(f"{seed} {k}") for k in range(first, min(first + TOGETHER, count))]
        for k, (one, (out, said)) in enumerate(zip(drawn, run_texts([one.text() for one in drawn])), first):
            text, python = by_text(out, said), one.by_python()
            if text != python:
                other = [pair for pair in zip(text, python) if pair[0] != pair[1]]
                raise SystemExit(f"text and Python: study {k} of seed {seed} differs\n{one.text()}{said}\n{len(text)} and {len(python)} records; the first that differ: {other[:1]}")
            records, refused = records + len(text), refused + isinstance(text[0], str)
    print(f"text and Python: {count} studies of seed {seed} are the same in bits: {records - refused} records of rows and reactions, and {refused} refusals")


main()
