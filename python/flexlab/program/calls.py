"""Finding and calling other programs: flexray, and those of Debian's packages. Where the Python package of flexray is there, a
call of flexray is one of its library in this process."""
import fcntl
import functools
import importlib
import os
import queue
import shutil
import subprocess
import sys
import tempfile
import threading
from collections.abc import Callable, Sequence
from typing import IO, Any, NamedTuple
from types import ModuleType

from flexray import Answer

from ..base.ending import MISSING, PROGRAM, Stop
from .requests import REQUESTS, WHOLE
from .stamp import stamp

PACKAGES = {"gnuplot": "gnuplot-nox", "parallel": "parallel", "tshark": "tshark"}
HERE = os.path.dirname(os.path.realpath(__file__))
# Where the repository has what its tools build, and what they say of that.
OUT = os.path.realpath(os.path.join(HERE, "..", "..", "..", "out"))
Request = Callable[..., Answer]


class Told(NamedTuple):
    """What a call of a program came to: its status, what it printed, and its last line on standard error."""
    status: int
    text: str
    line: str


def flexray(given: str | None = None, words: Sequence[str] = ()) -> str:
    """The program: as given, of the variable FLEXRAY, of this repository, or on the path; one that answers these words, or all."""
    for path, whence in ((given, "--flexray"), (os.environ.get("FLEXRAY"), "the variable FLEXRAY")):
        if path:
            if not os.access(path, os.X_OK) or os.path.isdir(path):
                raise Stop(MISSING, f"{path}, which {whence} names, is no program that can be run")
            return os.path.abspath(path)
    found = own_program(words)
    if found:
        return found
    raise Stop(MISSING, f"flexray: not built yet, and not on the path; {coming()}, or name it by --flexray. `./flexray --try WORDS` there "
                        "answers a call of flexray without proof, in one to two minutes")


def coming(out: str = OUT) -> str:
    """What is said of a program that is not built: how far a build is that goes on, or which command builds it."""
    try:
        with open(os.path.join(out, "building"), encoding="utf-8") as file:
            how_far = file.read().strip()
    except OSError:
        how_far = ""
    if how_far and any(is_held(os.path.join(out, name)) for name in ("lock", "proving")):
        return f"it is being built: {how_far}"
    return "`./flexray --build` at the top of the repository builds it, and says how long that takes"


def is_held(path: str) -> bool:
    """Whether a process has locked a file."""
    try:
        with open(path, "rb") as file:
            fcntl.flock(file, fcntl.LOCK_SH | fcntl.LOCK_NB)
    except BlockingIOError:
        return True
    except OSError:
        pass
    return False


def is_of_core(words: Sequence[str]) -> bool:
    """Whether the program that a checkout builds first answers these words."""
    rows = (row.split(",") for row in WHOLE)
    return bool(words) and not any(len(row) <= len(words) and all(one in ("", word) for one, word in zip(row, words)) for row in rows)


def own_program(words: Sequence[str] = ()) -> str | None:
    """The program of this repository, of the package that this flexlab is part of, or the one on the path. A repository may have
    built the whole program, or at first one that suffices for these words; without words the whole one."""
    # Of a package the program itself, and not the script bin/flexray that calls it.
    share = os.path.join(HERE, "..", "..", "..")
    packed = os.path.join(share, "..", "..", "lib", "flexray", "flexray")
    for crate in ("flexray_cli", *(["flexray_core_cli"] if is_of_core(words) else [])):
        built = os.path.join(HERE, "..", "..", "..", "crates", crate, "out", crate)
        if os.access(built, os.X_OK):
            return os.path.realpath(built)
    if os.path.exists(os.path.join(share, "stamp")) and os.access(packed, os.X_OK):
        return os.path.realpath(packed)
    return shutil.which("flexray")


def series(program: str) -> str | None:
    """The second program, flexray-series, where it is installed beside the first or on the path.

    The variable FLEXRAY_SERIES names another one; where it is empty none is taken.
    """
    beside, given = os.path.dirname(os.path.realpath(program)), os.environ.get("FLEXRAY_SERIES")
    if given == "":
        return None
    if given and os.access(given, os.X_OK) and not os.path.isdir(given):
        return os.path.realpath(given)
    for path in (os.path.join(beside, "flexray-series"), os.path.join(beside, "..", "lib", "flexray", "flexray-series"),
                 shutil.which("flexray-series"),
                 os.path.join(beside, "..", "..", "flexray_series_cli", "out", "flexray_series_cli")):
        if path and os.access(path, os.X_OK) and not is_script(path):
            return os.path.realpath(path)
    return None


def is_script(path: str) -> bool:
    """The launcher of a repository is one: it would build the program first, which takes long."""
    with open(path, "rb") as file:
        return file.read(2) == b"#!"


def helper(name: str) -> str:
    """A program of a Debian package, or the end of flexlab with the package's name."""
    found = shutil.which(name)
    if not found:
        raise Stop(MISSING, f"{name} is missing: install the Debian package {PACKAGES[name]} "
                            f"(apt-get install {PACKAGES[name]})")
    return found


# Which words of a request are files, by its first word: their roles and their places.
FILES: dict[str, dict[str, int]] = {words.split()[0]: files for words, files in REQUESTS.items()}
NAMES = ("first", "second", "third")


@functools.lru_cache
def package() -> ModuleType | None:
    """The Python package of flexray, or None where it or its library is not there or is of other sources than these. Where the
    variable FLEXLAB_LIBRARY is `no` it is not taken."""
    if os.environ.get("FLEXLAB_LIBRARY") == "no":
        return None
    place = os.path.realpath(os.path.join(HERE, "..", ".."))
    if os.path.isdir(os.path.join(place, "flexray")) and sys.path[:1] != [place]:
        sys.path.insert(0, place)
    try:
        found = importlib.import_module("flexray")
        return found if found.library.build() == stamp() else None
    except (ImportError, AttributeError):
        return None


@functools.lru_cache
def by_library(program: str) -> Request | None:
    """The function of the package that answers as this program does: where it is the one that flexlab finds by itself, or
    flexray-series beside it. None where a call has to be one of the program."""
    own, found = own_program(["bound"]), package()
    if not own or found is None:
        return None
    request: Request | None = None
    if os.path.realpath(program) == os.path.realpath(own):
        request = found.request
    elif not os.environ.get("FLEXRAY_SERIES") and program == series(own):
        request = found.series_request
    return request


def answered(program: str, words: Sequence[str]) -> Told | None:
    """(status, text, line) of a call of the library in place of the program; None where only the program can answer."""
    request, own = by_library(program), package()
    if request is None or own is None:
        return None
    # Words of no request have no places.
    named = FILES.get(words[0] if words else "")
    places = [0, 1, 2] if request == own.series_request else None if named is None else [*named.values()]
    if places is None or len(words) <= max(places, default=0) or any("\n" in word for word in words):
        return None
    spelt, files = list(words), list[bytes]()
    for name, place in zip(NAMES, places):
        # A file that cannot be read, and one that is none, are the program's to tell.
        if not os.path.isfile(words[place]):
            return None
        try:
            with open(words[place], "rb") as file:
                files.append(file.read(own.library.MOST + 1))
        except OSError:
            return None
        spelt[place] = name
    found = beside(functools.partial(request, spelt, *files))
    return Told(found.status, found.text, found.line)


def beside(ask: Callable[[], Any]) -> Any:
    """What a call of the library answers. It goes on in a thread of its own: the first thread would not hear ^C meanwhile."""
    if threading.current_thread() is not threading.main_thread():
        return ask()
    told: queue.SimpleQueue[tuple[Any, BaseException | None]] = queue.SimpleQueue()

    def work() -> None:
        try:
            told.put((ask(), None))
        except BaseException as fault:  # pylint: disable=broad-except
            told.put((None, fault))

    threading.Thread(target=work, daemon=True).start()
    found, fault = told.get()
    if fault:
        raise fault
    return found


def stream(program: str, words: list[str], most: int) -> tuple[int, bytes, str]:
    """Calls a program, and takes what it prints in pieces: its status, its bytes, and its last line on err. Of more than so many
    bytes it is ended, and one byte more is handed back."""
    found = bytearray()
    with tempfile.TemporaryFile() as told:
        try:
            with subprocess.Popen([program, *words], stdin=subprocess.DEVNULL, stdout=subprocess.PIPE, stderr=told) as ended:
                try:
                    while len(found) <= most and (piece := ended.stdout.read(1 << 16) if ended.stdout else b""):
                        found += piece
                    if len(found) > most:
                        ended.kill()
                except BaseException:
                    ended.kill()
                    raise
        except OSError as fault:
            raise Stop(PROGRAM, f"{program}: {fault.strerror}")
        told.seek(0)
        lines = told.read(1 << 16).decode("utf-8", "replace").strip().splitlines()
    return ended.returncode, bytes(found[:most + 1]), lines[-1] if lines else ""


def call(program: str, words: Sequence[str], out: IO[bytes] | None = None, cwd: str | None = None) -> Told:
    """Calls a program, in the folder `cwd` where one is named: its status, what it printed (or wrote to the file `out`), and its
    last line on err. No shell reads the words."""
    found = answered(program, words) if cwd is None else None
    if found is not None:
        if out:
            out.write(found.text.encode("utf-8"))
        return found._replace(text="") if out else found
    try:
        ended = subprocess.run([program, *words], stdin=subprocess.DEVNULL, stderr=subprocess.PIPE,
                               stdout=out or subprocess.PIPE, check=False, cwd=cwd)
    except OSError as fault:
        raise Stop(PROGRAM, f"{program}: {fault.strerror}")
    text = "" if out else ended.stdout.decode("utf-8", "replace")
    told = ended.stderr.decode("utf-8", "replace").strip().splitlines()
    return Told(ended.returncode, text, told[-1] if told else "")
