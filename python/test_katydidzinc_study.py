"""Tests of studies as text from Python: numbers and words are the header's, a text is read as its lines say, a fault is told where it stands, and what is written is read as the same model."""

import math
import pathlib
import pickle
import re
import subprocess
import struct
import tempfile
import unittest

import katydidzinc as kz
import katydidzinc_study as texts

ROOT = pathlib.Path(__file__).resolve().parent.parent
HEADER = ROOT / "include" / "katydidzinc_study.h"
STUDIES = sorted((ROOT / "examples" / "studies").glob("*.study"))
KNEE = ROOT / "examples" / "studies" / "knee.study"
PROGRAM = ROOT / "crates" / "study" / "out" / "study"


def held(study):
    return [bytes(memoryview(s).cast("B")) for s in (study.bodies, study.words, study.numbers)] + [study.dt, study.length_unit, study.normalized_max_corrective_velocity]


class Header(unittest.TestCase):
    def test_every_constant(self):
        text = HEADER.read_text()
        found = re.findall(r"^#define KATYDIDZINC_(\w+) (?:U?INT\d+_C\()?(\d+)", text, re.M) + re.findall(r"^    KATYDIDZINC_(\w+) = (\d+)", text, re.M)
        self.assertGreater(len(found), 30)
        for name, value in found:
            self.assertEqual(getattr(texts, name), int(value), name)

    def test_every_fault(self):
        faults = dict(re.findall(r"case KATYDIDZINC_(\w+): return \"(.*)\";", HEADER.read_text()))
        self.assertEqual({getattr(texts, name): words for name, words in faults.items()}, texts.FAULTS)

    def test_what_is_told(self):
        fields = re.search(r"typedef struct katydidzinc_text_read \{(.*?)\}", HEADER.read_text(), re.S).group(1)
        self.assertEqual(re.findall(r"^    \w+ (\w+);", fields, re.M), [name for name, _ in texts._Read._fields_])


class Read(unittest.TestCase):
    def test_the_knee(self):
        s = kz.read(KNEE)
        self.assertEqual((s.body_names, s.joint_names), (["thigh", "shank"], ["hip", "knee"]))
        self.assertEqual(s.dt, struct.unpack("f", struct.pack("f", 0.01))[0])
        self.assertEqual((s.length_unit, s.normalized_max_corrective_velocity, s.built), (1.0, 3.0, False))
        words, numbers = list(memoryview(s.words).cast("B").cast("I")), list(memoryview(s.numbers).cast("B").cast("f"))
        self.assertEqual(words[:4], [kz.WORLD, 0, kz.ALL_AXES, 0])
        self.assertEqual(words[12:17], [0, 1, kz.LIN_X | kz.LIN_Y, kz.ANG_X, kz.ANG_X])
        self.assertEqual(words[12 + kz.CENTER_CHOICE], kz.CENTER_ANGLE)
        knee = numbers[kz.NUMBERS_WIDTH :]
        f32 = lambda x: struct.unpack("f", struct.pack("f", x))[0]
        self.assertEqual(knee[kz.LIMITS_ANGULAR : kz.LIMITS_ANGULAR + 2], [0.0, f32(2.4)])
        self.assertEqual(knee[kz.CENTER_RE], f32(1.2))
        self.assertEqual(knee[kz.MOTOR_ANGULAR + kz.MOTOR_MAX_FORCE], 12.0)
        self.assertEqual(knee[kz.LIMITS_X : kz.LIMITS_X + 2], [-kz.MAX, kz.MAX])
        s.load()
        self.assertEqual(s.build(), 7)
        self.assertEqual([r.joint for r in s.table()], ["hip"] * 3 + ["knee"] * 4)

    def test_calls_are_not_run(self):
        s = kz.read(str(KNEE))
        self.assertFalse(s.built)
        self.assertEqual([c.text for c in s.calls], ["load", "build", "settle 1e-9", "remove_bias", "settle 1e-9", "write_back", "table"])
        lines = KNEE.read_text().split("\n")
        for call in s.calls:
            self.assertEqual(lines[call.line - 1], call.text)
        self.assertEqual(kz.loads("body a\n\n# load\n\tload # now\r\n\nsweep 2").calls, [(4, "load"), (6, "sweep 2")])
        self.assertEqual(kz.loads('load\nset_targets "left leg #2.csv" # now\n').calls, [(1, "load"), (2, 'set_targets "left leg #2.csv"')])
        self.assertEqual(kz.loads("body a\n").calls, [])
        self.assertEqual(kz.Study().calls, ())

    def test_defaults_are_those_of_the_module(self):
        read = kz.loads("body a\nbody b\njoint j a b\n limit angle\n limits angle 0 1\njoint k world a\n")
        made = kz.Study([kz.Body("a"), kz.Body("b")], [kz.Joint("j", "a", "b", limit_axes=kz.ANG_X, limits={2: kz.Limits(0.0, 1.0)}), kz.Joint("k", "world", "a")])
        self.assertEqual(held(read)[:3], held(made)[:3])
        self.assertEqual((read.body_names, read.joint_names), (made.body_names, made.joint_names))
        self.assertEqual(len(memoryview(read.rows).cast("B")), len(memoryview(made.rows).cast("B")))

    def test_nothing(self):
        for nothing in ("", b"", "# nothing\n"):
            s = kz.loads(nothing)
            self.assertEqual((s.body_names, s.joint_names, s.calls), ([], [], []))
            s.load()
            self.assertEqual(s.build(), 0)

    def test_names_of_any_bytes(self):
        for name in (b"\xc3\xa9tau", b"\xff\x00", b"x" * 64):
            s = kz.loads(b"body " + name + b"\njoint j-" + name[:60] + b" world " + name + b"\n")
            self.assertEqual(s.body_names[0].encode("utf-8", "surrogateescape"), name)
            s.load()
            s.build()
        self.assertEqual(kz.loads("body étau").body_names, ["étau"])

    def test_a_model_of_129(self):
        s = kz.loads("".join(f"body b{i}\n" for i in range(129)))
        self.assertEqual(len(s.body_names), 129)
        with self.assertRaises(kz.Refused) as refused:
            s.load()
        self.assertEqual(refused.exception.number, kz.TOO_MANY_BODIES)
        with self.assertRaises(kz.Refused) as refused:
            s.text()
        self.assertEqual(refused.exception.number, kz.TOO_MANY_BODIES)
        s = kz.loads("body a\n" + "".join(f"joint j{i} world a\n" for i in range(129)))
        with self.assertRaises(kz.Refused) as refused:
            s.text()
        self.assertEqual(refused.exception.number, kz.TOO_MANY_JOINTS)


class Faults(unittest.TestCase):
    # each fault with a text that has it, and the fault's line and column
    TEXTS = {
        texts.FAULT_UNKNOWN: ("body a\nbogus", 2, 1),
        texts.FAULT_NAME: ("body", 1, 5),
        texts.FAULT_TAKEN: ("body a\nbody a", 2, 6),
        texts.FAULT_NO_BODY: ("body a\njoint j a b", 2, 11),
        texts.FAULT_NUMBER: ("settings\n dt x", 2, 5),
        texts.FAULT_DIGITS: ("settings\n dt 1.2345678901234567890123", 2, 5),
        texts.FAULT_LINE_END: ("load now", 1, 6),
        texts.FAULT_AXIS: ("body a\njoint j a world\n limits z 0 1", 3, 9),
        texts.FAULT_BODIES_FULL: ("".join(f"body b{i}\n" for i in range(130)), 130, 6),
        texts.FAULT_JOINTS_FULL: ("body a\n" + "".join(f"joint j{i} world a\n" for i in range(130)), 131, 7),
        texts.FAULT_AFTER_CALLS: ("load\nbody a", 2, 1),
        texts.FAULT_ELSEWHERE: ("body a\n dt 1", 2, 2),
        texts.FAULT_WHOLE_NUMBER: ("sweep x", 1, 7),
        texts.FAULT_NO_JOINT: ("load\nread_rows j", 2, 11),
        texts.FAULT_NO_REPEAT: ("end", 1, 1),
        texts.FAULT_NESTED: ("repeat 2\nrepeat 2", 2, 1),
        texts.FAULT_OPEN_REPEAT: ("load\nrepeat 2\nload", 2, 1),
        texts.FAULT_MODEL: ("body a\njoint j a world\n motor_model x torque", 3, 16),
        texts.FAULT_WORLD_NAME: ("body world", 1, 6),
        texts.FAULT_WARM: ("build cold", 1, 7),
        texts.FAULT_CSV: ("table tsv", 1, 7),
        texts.FAULT_FILE_NAME: ("set_targets", 1, 12),
        texts.FAULT_LONG_NAME: ("body " + "x" * 65, 1, 6),
        texts.FAULT_PLAIN_NAME: ("body a,b", 1, 6),
        texts.FAULT_MASK: ("body a\njoint j a world\nmasks j x", 3, 9),
        texts.FAULT_SUBSTEPS: ("frame", 1, 6),
    }

    def test_every_fault(self):
        self.assertEqual(set(self.TEXTS), set(texts.FAULTS))
        for fault, (text, line, column) in self.TEXTS.items():
            with self.assertRaises(kz.StudyError) as raised:
                kz.loads(text, "here")
            e = raised.exception
            self.assertEqual((e.fault, e.line, e.column), (fault, line, column), text[:40])
            self.assertEqual(str(e), f"here:{line}:{column}: {texts.FAULTS[fault]}")
            self.assertEqual(e.expected, texts.FAULTS[fault])

    def test_as_a_value(self):
        with self.assertRaises(ValueError) as raised:
            kz.loads("bogus")
        e = raised.exception
        again = pickle.loads(pickle.dumps(e))
        self.assertEqual((type(again), str(again), again.fault, again.line, again.column, again.expected, again.name), (kz.StudyError, str(e), e.fault, 1, 1, e.expected, "text"))

    def test_a_file(self):
        with tempfile.TemporaryDirectory() as folder:
            path = pathlib.Path(folder) / "broken.study"
            path.write_text("load\nbogus\n")
            with self.assertRaises(kz.StudyError) as raised:
                kz.read(path)
            self.assertEqual(str(raised.exception), f"{path}:2:1: {texts.FAULTS[texts.FAULT_UNKNOWN]}")
            with self.assertRaises(FileNotFoundError):
                kz.read(pathlib.Path(folder) / "none")

    @unittest.skipUnless(PROGRAM.is_file(), "the program study is not linked")
    def test_command(self):
        """What the command `study` tells of each text."""
        with tempfile.TemporaryDirectory() as folder:
            path = pathlib.Path(folder) / "case"
            for text, line, column in self.TEXTS.values():
                path.write_text(text)
                with self.assertRaises(kz.StudyError) as raised:
                    kz.read(path)
                said = subprocess.run([PROGRAM, path], capture_output=True, text=True).stderr
                # the command may add the word that was meant, and shows the line with marks below
                lines = [re.sub(r" \(did you mean `[^`]*`\?\)$", "", line) for line in said.split("\n")]
                self.assertIn(str(raised.exception), lines)


class Text(unittest.TestCase):
    def test_read_back(self):
        studies = [kz.read(path) for path in STUDIES] + [kz.seeded(seed) for seed in range(200)]
        self.assertGreater(len(studies), 206)
        for s in studies:
            text = s.text()
            again = kz.loads(text)
            words = memoryview(s.words).cast("B").cast("I")
            for j in range(len(s.joint_names)):
                words[j * kz.WORDS_WIDTH + kz.FIRST_ROW] = 0
            self.assertEqual(held(again), held(s))
            self.assertEqual(again.text(), text)
            self.assertEqual(again.body_names, [f"b{i}" for i in range(len(s.body_names))])
            self.assertEqual(again.joint_names, [f"j{j}" for j in range(len(s.joint_names))])
            self.assertEqual(again.calls, [])

    @unittest.skipUnless(PROGRAM.is_file(), "the program study is not linked")
    def test_command(self):
        """What `study print` prints of each study."""
        for path in STUDIES:
            self.assertEqual(subprocess.run([PROGRAM, "print", path], capture_output=True, text=True).stdout, kz.read(path).text())

    def test_of_a_study_made_here(self):
        s = kz.Study([kz.Body("bob", (1.0, -0.0), inverse_masses=(1e-45, 2.0))], [kz.Joint("pin", "world", "bob", locked_axes=3, limit_axes=kz.LIN_X, frame2=kz.Pose(x=-1.0), limits={0: kz.Limits(-math.inf, math.inf)})])
        text = s.text()
        self.assertTrue(text.startswith("settings\ndt 0x3C888889\n"))
        self.assertIn("\nbody b0\n", text)
        self.assertIn("\nlimits x 0xFF800000 0x7F800000\n", text)
        self.assertEqual(held(kz.loads(text)), held(s)[:3] + held(kz.loads(text))[3:])

    def test_numbers_that_no_load_takes(self):
        s = kz.Study([kz.Body("a", position=(math.nan, math.inf))])
        bodies = memoryview(kz.loads(s.text()).bodies).cast("B").cast("f")
        self.assertTrue(math.isnan(bodies[kz.POSE_X]) and bodies[kz.POSE_Y] == math.inf)

    def test_a_slice_that_is_none(self):
        s = kz.Study([kz.Body("a")])
        s.bodies = bytes(40)
        with self.assertRaises(TypeError):
            s.text()


if __name__ == "__main__":
    unittest.main()
