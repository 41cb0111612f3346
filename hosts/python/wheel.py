#!/usr/bin/env python3
"""wheel.py LIBRARY PROCESSOR FOLDER: writes the package and the shared library for a processor as a
wheel, and prints its name. It needs nothing but Python.

The library names no C library, so that it serves with glibc and with musl; the tags are the oldest
that pip knows of either. The same files make the same bytes: nothing is compressed, names are
sorted, and the time of each is that of SOURCE_DATE_EPOCH, or 1980.
"""

import base64
import hashlib
import os
import sys
import time
import zipfile
from pathlib import Path
from typing import Dict, Tuple

HERE = Path(__file__).resolve().parent
TAGS = {
    "x86_64": "manylinux_2_17_x86_64.musllinux_1_1_x86_64",
    "aarch64": "manylinux_2_17_aarch64.musllinux_1_1_aarch64",
    "armv7": "manylinux_2_17_armv7l.musllinux_1_1_armv7l",
    "riscv64": "manylinux_2_31_riscv64.musllinux_1_2_riscv64",
}


def metadata(version: str) -> str:
    return (
        "Metadata-Version: 2.1\nName: trawlbeacon\n"
        f"Version: {version}\n"
        "Summary: The proved Roughtime library, for Python\n"
        "Requires-Python: >=3.8\nClassifier: Typing :: Typed\n"
        "Classifier: Operating System :: POSIX :: Linux\n"
    )


def about(tag: str) -> str:
    tags = "".join(f"Tag: py3-none-{one}\n" for one in tag.split("."))
    return f"Wheel-Version: 1.0\nGenerator: trawlbeacon\nRoot-Is-Purelib: false\n{tags}"


def contents(library: Path, version: str, tag: str) -> Dict[str, bytes]:
    """What is in it, but for RECORD."""
    package = HERE / "trawlbeacon"
    own = [*package.glob("*.py"), package / "py.typed"]
    files = {f"trawlbeacon/{file.name}": file.read_bytes() for file in own}
    files[f"trawlbeacon/libtrawlbeacon.so.{version.split('.')[0]}"] = library.read_bytes()
    info = f"trawlbeacon-{version}.dist-info"
    files[f"{info}/METADATA"] = metadata(version).encode()
    files[f"{info}/WHEEL"] = about(tag).encode()
    return files


def record(files: Dict[str, bytes], name: str) -> bytes:
    """The hash and the length of each."""
    lines = []
    for file, held in sorted(files.items()):
        digest = base64.urlsafe_b64encode(hashlib.sha256(held).digest()).decode().rstrip("=")
        lines.append(f"{file},sha256={digest},{len(held)}\n")
    return ("".join(lines) + f"{name},,\n").encode()


def moment() -> Tuple[int, int, int, int, int, int]:
    """No file in a zip is older than 1980."""
    seconds = max(int(os.environ.get("SOURCE_DATE_EPOCH", "0")), 315532800)
    year, month, day, hour, minute, second = time.gmtime(seconds)[:6]
    return year, month, day, hour, minute, second


def write(library: Path, processor: str, folder: Path) -> Path:
    version, tag = (HERE / "../../VERSION").read_text().strip(), TAGS[processor]
    files = contents(library, version, tag)
    name = f"trawlbeacon-{version}.dist-info/RECORD"
    files[name] = record(files, name)
    wheel = folder / f"trawlbeacon-{version}-py3-none-{tag}.whl"
    with zipfile.ZipFile(wheel, "w") as made:
        for file in sorted(files, key=lambda one: (".dist-info/" in one, one)):
            entry = zipfile.ZipInfo(file, moment())
            entry.create_system, entry.external_attr = 3, 0o100644 << 16
            made.writestr(entry, files[file])
    return wheel


def main() -> int:
    if len(sys.argv) != 4 or sys.argv[2] not in TAGS:
        print(f"usage: wheel.py LIBRARY {'|'.join(TAGS)} FOLDER", file=sys.stderr)
        return 2
    print(write(Path(sys.argv[1]), sys.argv[2], Path(sys.argv[3])).name)
    return 0


if __name__ == "__main__":
    sys.exit(main())
