"""Makes the package's wheel: the modules and the shared object of target/lib (tools/library), by python3 alone.

    python3 python/katydidzinc_build.py FOLDER

It is also the build backend that pyproject.toml names, for pip. The same files make the same bytes: times are SOURCE_DATE_EPOCH's, or 1980's first day.
"""

import base64
import hashlib
import os
import pathlib
import re
import sys
import time
import zipfile

HERE = pathlib.Path(__file__).resolve().parent
ROOT = HERE.parent
MODULES = ("katydidzinc.py", "katydidzinc_space.py", "katydidzinc_study.py", "katydidzinc_plot.py")
LIBRARY = "libkatydidzinc.so"


def _project():
    """The texts of pyproject.toml that a wheel repeats. (tomllib is there from Python 3.11 on.)"""
    text = (HERE / "pyproject.toml").read_text(encoding="utf-8")
    return {key: re.search(rf'^{key} = "(.*)"$', text, re.M).group(1) for key in ("name", "version", "description", "requires-python")}


def _platform(library):
    """The oldest glibc whose names the library asks for; manylinux has none before 2.5."""
    asked = [(int(a), int(b)) for a, b in re.findall(rb"GLIBC_(\d+)\.(\d+)", library)]
    major, minor = max(asked + [(2, 5)])
    return f"manylinux_{major}_{minor}_x86_64"


def _library():
    place = ROOT / "target" / "lib" / LIBRARY
    if not place.is_file():
        sys.exit(f"{place} is not there: tools/library makes it")
    return place.read_bytes()


def _sum(content):
    return "sha256=" + base64.urlsafe_b64encode(hashlib.sha256(content).digest()).rstrip(b"=").decode()


def build_wheel(wheel_directory, config_settings=None, metadata_directory=None):
    project, library = _project(), _library()
    tag = f"py3-none-{_platform(library)}"
    info = f"{project['name']}-{project['version']}.dist-info"
    files = {module: (HERE / module).read_bytes() for module in MODULES}
    # a checker of types takes the hints of a module that is one file where a folder of its name holds the marker; to Python the file is the module
    files.update({f"{module[:-3]}/py.typed": b"" for module in MODULES})
    files[LIBRARY] = library
    files[f"{info}/METADATA"] = (
        f"Metadata-Version: 2.1\nName: {project['name']}\nVersion: {project['version']}\nSummary: {project['description']}\n"
        f"Author: The Katydidzinc maintainers\nLicense: Apache-2.0\nRequires-Python: {project['requires-python']}\n"
        "License-File: LICENSE\nLicense-File: NOTICE\n"
    ).encode()
    files[f"{info}/WHEEL"] = f"Wheel-Version: 1.0\nGenerator: katydidzinc_build\nRoot-Is-Purelib: false\nTag: {tag}\n".encode()
    for licence in ("LICENSE", "NOTICE"):
        files[f"{info}/{licence}"] = (ROOT / licence).read_bytes()
    record = [f"{name},{_sum(files[name])},{len(files[name])}" for name in sorted(files)]
    files[f"{info}/RECORD"] = "\n".join(record + [f"{info}/RECORD,,", ""]).encode()
    # a zip's time has no zone and starts with 1980; the record stands last, as the format asks
    when = max(time.gmtime(int(os.environ.get("SOURCE_DATE_EPOCH", 0)))[:6], (1980, 1, 1, 0, 0, 0))
    wheel = f"{project['name']}-{project['version']}-{tag}.whl"
    with zipfile.ZipFile(pathlib.Path(wheel_directory) / wheel, "w", zipfile.ZIP_DEFLATED) as archive:
        for name in sorted(files, key=lambda name: (name.startswith(info), name.endswith("RECORD"), name)):
            entry = zipfile.ZipInfo(name, when)
            entry.create_system, entry.compress_type = 3, zipfile.ZIP_DEFLATED
            entry.external_attr = (0o755 if name == LIBRARY else 0o644) << 16
            archive.writestr(entry, files[name])
    return wheel


if __name__ == "__main__":
    print(build_wheel(sys.argv[1]))
