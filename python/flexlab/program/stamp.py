"""The stamp of a build: a digest of the sources that the C library is compiled from. tools/library makes it the build ID of the
shared object, and the package has it in a file, so that a library of other sources is never taken for this one's."""
from __future__ import annotations

import hashlib
import os

HERE = os.path.dirname(os.path.realpath(__file__))
TOP = os.path.realpath(os.path.join(HERE, "..", "..", ".."))
#: The crate of the C library, which stands on those of both programs.
CRATE = "flexray_c"


def lines_of_crates(top: str) -> dict[str, str]:
    """The lines of crates.txt, by the crate that each is of."""
    with open(os.path.join(top, "crates.txt"), encoding="utf-8") as file:
        rows = [line.split("#")[0].strip() for line in file]
    return {row.split()[0].rstrip(":"): row for row in rows if ":" in row}


def closed(crate: str, lines: dict[str, str]) -> list[str]:
    """A crate and all of the repository that it stands on, by name."""
    found, open_ones = {crate}, [crate]
    while open_ones:
        for below in lines[open_ones.pop()].partition(":")[2].split():
            if below in lines and below not in found:
                found.add(below)
                open_ones.append(below)
    return sorted(found)


def of_sources(top: str) -> str:
    """The digest, 40 hexadecimal digits, of what gives the library's code: the lines of its crates, and their sources. What only
    proves, in specs/ and proofs/, changes no code."""
    lines = lines_of_crates(top)
    digest = hashlib.sha256()
    for crate in closed(CRATE, lines):
        digest.update(f"{lines[crate]}\n".encode())
        folder = os.path.join(top, "crates", crate, "src")
        paths = sorted(os.path.join(at, name) for at, _, names in os.walk(folder) for name in names if name.endswith(".rt"))
        for path in paths:
            with open(path, "rb") as file:
                data = file.read()
            digest.update(f"{os.path.relpath(path, folder)} {len(data)}\n".encode())
            digest.update(data)
    return digest.hexdigest()[:40]


def stamp(top: str = TOP) -> str | None:
    """The stamp of what stands here: of a wheel or a package, as its file says, or of a repository; None where it is none of
    them."""
    for folder in (os.path.join(HERE, ".."), top):
        try:
            with open(os.path.join(folder, "stamp"), encoding="ascii") as file:
                return file.read().strip()
        except OSError:
            continue
    return of_sources(top) if os.path.exists(os.path.join(top, "crates.txt")) else None
