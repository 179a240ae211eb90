#!/usr/bin/env python3
"""Makes the wheel with the standard library alone: as `pip install ./python` asks for it, or by hand, as
`python3 build_wheel.py FOLDER [LIBRARY]`. It has the package flexray, and flexlab with the command of that name. The shared object
goes into it where it is built; the wheel is then for Linux on x86-64, else for any system, and the shared object is taken from
there. The same files give the same bytes."""
from __future__ import annotations

import base64
import hashlib
import os
import sys
import zipfile
from typing import Any

HERE = os.path.dirname(os.path.realpath(__file__))
LIBRARY = "libflexray.so.0"
SCRIPTS = "[console_scripts]\nflexlab = flexlab.door:main\n"


def _read(*parts: str) -> bytes:
    with open(os.path.join(HERE, *parts), "rb") as file:
        return file.read()


def _version() -> str:
    return _read("..", "VERSION").decode().strip()


def _metadata() -> bytes:
    return (f"Metadata-Version: 2.1\nName: flexray\nVersion: {_version()}\n"
            "Summary: The clocks of a FlexRay cluster, simulated by a program whose every function is proved\n"
            "Requires-Python: >=3.9\n").encode()


def _stamp() -> bytes:
    """Of which sources all is: flexlab takes a library of these alone."""
    if HERE not in sys.path:
        sys.path.insert(0, HERE)
    from flexlab.program.stamp import stamp
    return f"{stamp() or ''}\n".encode()


def _library(given: str | None = None) -> str | None:
    found = given or os.environ.get("FLEXRAY_LIBRARY") or os.path.join(HERE, "..", "out", "library", "lib", LIBRARY)
    return found if os.path.exists(found) else None


def _parts(library: str | None) -> dict[str, bytes]:
    found = {}
    for package in ("flexlab", "flexray"):
        for folder, folders, names in os.walk(os.path.join(HERE, package)):
            folders.sort()
            for name in sorted(names):
                if name.endswith((".py", ".toml")) or name == "py.typed":
                    path = os.path.relpath(os.path.join(folder, name), HERE)
                    found[path.replace(os.sep, "/")] = _read(path)
    found["flexlab/VERSION"] = _read("..", "VERSION")
    found["flexlab/stamp"] = _stamp()
    if library:
        with open(library, "rb") as file:
            found[f"flexray/{LIBRARY}"] = file.read()
    return found


def build_wheel(wheel_directory: str, config_settings: dict[str, Any] | None = None, metadata_directory: str | None = None,
                library: str | None = None) -> str:
    """The name of the wheel that was written into the directory."""
    library = _library(library)
    tag = "py3-none-linux_x86_64" if library else "py3-none-any"
    info = f"flexray-{_version()}.dist-info"
    name = f"flexray-{_version()}-{tag}.whl"
    parts = _parts(library)
    parts[f"{info}/METADATA"] = _metadata()
    parts[f"{info}/entry_points.txt"] = SCRIPTS.encode()
    parts[f"{info}/WHEEL"] = (f"Wheel-Version: 1.0\nGenerator: flexray\nRoot-Is-Purelib: {str(not library).lower()}\n"
                              f"Tag: {tag}\n").encode()
    lines = []
    for place, data in parts.items():
        digest = base64.urlsafe_b64encode(hashlib.sha256(data).digest()).rstrip(b"=").decode()
        lines.append(f"{place},sha256={digest},{len(data)}\n")
    parts[f"{info}/RECORD"] = ("".join(lines) + f"{info}/RECORD,,\n").encode()
    with zipfile.ZipFile(os.path.join(wheel_directory, name), "w", zipfile.ZIP_DEFLATED) as wheel:
        for place, data in parts.items():
            entry = zipfile.ZipInfo(place, (2020, 1, 1, 0, 0, 0))
            entry.external_attr = 0o644 << 16
            entry.compress_type = zipfile.ZIP_DEFLATED
            wheel.writestr(entry, data)
    return name


def build_sdist(sdist_directory: str, config_settings: dict[str, Any] | None = None) -> str:
    raise NotImplementedError("the package is built from the repository, of which it is a part")


if __name__ == "__main__":
    if not 2 <= len(sys.argv) <= 3:
        sys.exit("usage: build_wheel.py FOLDER [LIBRARY]")
    print(os.path.join(sys.argv[1], build_wheel(sys.argv[1], library=sys.argv[2] if len(sys.argv) == 3 else None)))
