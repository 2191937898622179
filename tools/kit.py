"""What the tools take of the Rattle kit beside the commands of rt: the crates as crates.txt lists them, and the words that rt gives to the prover for each.

`rt ci` leaves each library as it proved it in crates/NAME/out/rlib; rt's other commands prove the libraries below a crate again, since these are not theirs. The tools
that run after it (tools/archive, tools/try-edits) check over those instead, where no source is newer: the prover itself holds each to the sums that it was made of.
"""

import importlib.util
import json
import os
import re
import subprocess
import sys

sys.dont_write_bytecode = True
ROOT = os.path.dirname(os.path.dirname(os.path.realpath(__file__)))


def load():
    try:
        page = subprocess.run(["rt", "doc"], stdout=subprocess.PIPE, text=True, check=True).stdout.strip()
    except (OSError, subprocess.CalledProcessError):
        sys.exit(f"{os.path.basename(sys.argv[0])}: there is no Rattle kit here: no rt")
    path = os.path.join(os.path.dirname(page), "bin", "rtlib.py")
    made = importlib.util.module_from_spec(importlib.util.spec_from_file_location("rtlib", path))
    sys.modules["rtlib"] = made
    made.__spec__.loader.exec_module(made)
    return made


rtlib = load()
TOOLCHAIN = f"{rtlib.KIT}/toolchain"


def crates():
    """The repository's crates by their names, lowest first."""
    return {it.name: it for it in rtlib.crates_below(ROOT)}


def newest(crate):
    """When a source of the crate was last written."""
    return max(os.stat(it).st_mtime for it in [f"{ROOT}/crates.txt", *rtlib.files_of(crate.folder)])


def is_proved(crate):
    """Whether the library stands in out/rlib as rt or rt ci built it of today's sources. (What rt ci takes from an earlier run has the times of that run, but for the folder.)"""
    if crate.is_built():
        return True
    return not os.path.exists(f"{crate.folder}/out/rlib/stamp") and os.path.isfile(f"{crate.rlib}/format") and newest(crate) <= os.stat(crate.rlib).st_mtime


def is_ready(crate):
    """Whether all libraries below are there, of one run."""
    return all(is_proved(it) for it in crate.below())


def command(verb, crate, *more, flags=("--jobs", "1")):
    """The prover's command for a crate, to run in its folder or in a copy of it."""
    return [*rtlib.guarded(), rtlib.RATTLE, verb, *crate.words([*flags], keeps=False), *more]


def said_by(words, folder):
    """Runs a command and returns its status and what it said."""
    ran = subprocess.run(words, cwd=folder, stdin=subprocess.DEVNULL, stdout=subprocess.PIPE, stderr=subprocess.STDOUT, errors="replace")
    return ran.returncode, ran.stdout


def functions(crate):
    """How many functions of the crate were proved: a library says so as it was built; a program's and a static library's stand in its sources."""
    if os.path.isfile(f"{crate.rlib}/toolchain/mir.json"):
        with open(f"{crate.rlib}/toolchain/mir.json", encoding="utf-8") as it:
            return len(json.load(it))
    texts = [rtlib.text_of(it) for it in rtlib.files_of(crate.folder) if it.endswith(".rt")]
    return sum(len(re.findall(r'^ *(?:pub )?(?:extern "C" )?fn ', it, re.M)) for it in texts)


if __name__ == "__main__":
    # tools/kit.py CRATE..: a line for each crate, with its number of functions
    every = crates()
    for name in sys.argv[1:]:
        print(f"proved: {name}, {functions(every[name])} functions")
