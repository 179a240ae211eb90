"""Files: how each one is read and written, and the three files of a cluster, in the forms of docs/FORMATS.md.

A file is written beside its place and takes its name once it is whole, so none is ever there in part; and what is read is a
file, of a bounded length. Nothing else in flexlab opens a file to write it.
"""
from __future__ import annotations

import codecs
import contextlib
import fcntl
import io
import os
import re
import stat
import sys
from collections.abc import Iterator
from typing import IO, TYPE_CHECKING, Any

from . import ranges
from .ending import FILE, REFUSED, Stop

if TYPE_CHECKING:
    from ..toml.cluster import Cluster, Link, Steps

# No file that is read whole is longer: a longer one is told as that. Of captures, what they unpack to counts too.
MIB = 1 << 20
LONGEST = 256 * MIB


@contextlib.contextmanager
def named_faults(path: str) -> Iterator[None]:
    """Ends flexlab where a file cannot be read or written, with its name: the system does not name one that is open."""
    try:
        yield
    except OSError as fault:
        raise Stop(FILE, f"{fault.filename or path}: {fault.strerror}")


@contextlib.contextmanager
def whole(path: str, binary: bool = False, encoding: str = "utf-8") -> Iterator[IO[Any]]:
    """A file to be written. It is written beside its place, and takes its name once it is whole; what is no file, as a device
    or a pipe, is written as it is."""
    form: dict[str, Any] = {"mode": "wb"} if binary else {
        "mode": "w", "encoding": encoding, "newline": "", "errors": "surrogateescape" if encoding == "utf-8" else "strict"}
    with named_faults(path):
        place = os.path.realpath(path)
        if os.path.lexists(place) and not os.path.isfile(place):
            with open(path, **form) as file:
                yield file
            return
        part = os.path.join(os.path.dirname(place), f".{os.path.basename(place)[:200]}.{os.getpid()}.part")
        # None of that name is taken, as a link that another user put there.
        with contextlib.suppress(FileNotFoundError):
            os.unlink(part)
        form["mode"] = form["mode"].replace("w", "x")
        try:
            with open(part, **form) as file:
                yield file
            os.replace(part, place)
        except BaseException as fault:
            with contextlib.suppress(OSError):
                os.unlink(part)
            if isinstance(fault, OSError):
                raise Stop(FILE, f"{path}: {fault.strerror}")
            raise


def put(path: str, text: str, encoding: str = "utf-8") -> None:
    """Writes a text as a file, whole or not at all."""
    with whole(path, encoding=encoding) as file:
        file.write(text)


@contextlib.contextmanager
def new(path: str) -> Iterator[IO[bytes]]:
    """A file to be written that is not there yet; where it does not become whole it is taken away."""
    with named_faults(path), open(path, "xb") as file:
        try:
            yield file
            file.flush()
        except BaseException:
            os.unlink(path)
            raise


def put_new(path: str, text: str) -> None:
    """Writes a text as a file that is not there yet, whole or not at all."""
    with new(path) as file:
        file.write(text.encode("utf-8", "surrogateescape"))


def put_bytes(path: str, data: bytes) -> None:
    """Writes bytes as a file, whole or not at all."""
    with whole(path, binary=True) as file:
        file.write(data)


def make_folder(path: str) -> None:
    """Makes a folder, and those above it, where it is not there."""
    with named_faults(path):
        os.makedirs(path, exist_ok=True)


def check_is_file(path: str) -> None:
    """Ends flexlab where this is a device, a socket, or a pipe other than one that a shell hands on: it may have no end."""
    with named_faults(path):
        mode = os.stat(path).st_mode
    is_handed_on = stat.S_ISFIFO(mode) and re.fullmatch(r"/dev/stdin|(?:/dev|/proc/self)/fd/[0-9]+", path)
    if not (stat.S_ISREG(mode) or stat.S_ISDIR(mode) or is_handed_on):
        kind = "a named pipe" if stat.S_ISFIFO(mode) else "a device" if stat.S_ISCHR(mode) or stat.S_ISBLK(mode) else "a socket"
        raise Stop(FILE, f"{path}: it is {kind}, and a file is wanted")


def read(path: str, most: int = LONGEST, is_capture: bool = False) -> bytes:
    """The bytes of a file of at most so many."""
    check_is_file(path)
    with named_faults(path), open(path, "rb") as file:
        data = file.read(most + 1)
    if len(data) > most:
        raise too_long(path, most, is_capture)
    return data


def too_long(path: str, most: int, is_capture: bool, unpacked: bool = False) -> Stop:
    """What ends flexlab at a file of more than so many bytes."""
    size = f"{most // MIB} MiB" if most % MIB == 0 else f"{most} bytes"
    return Stop(REFUSED, f"{path}: {'it unpacks to' if unpacked else 'it has'} more than {size}, which is the most that is taken"
                         + ("; --most-mib raises that" if is_capture else ""))


def text_of(path: str, most: int = LONGEST) -> IO[str]:
    """The text of a table or a log of another tool, in the encoding that it has: by its byte order mark, else UTF-8, else
    Windows-1252, of which Latin-1 is a part."""
    data = read(path, most, is_capture=True)
    for mark, encoding in ((b"\xef\xbb\xbf", "utf-8-sig"), (b"\xff\xfe", "utf-16"), (b"\xfe\xff", "utf-16")):
        if data.startswith(mark):
            break
    else:
        if 4 * data[:4096].count(0) > len(data[:4096]):
            raise Stop(REFUSED, f"{path}: it has zero bytes, so it is no text, or one in UTF-16 without a byte order mark: have it "
                                "kept as UTF-8")
        encoding = "utf-8" if is_utf8(data) else "cp1252"
    return io.TextIOWrapper(io.BytesIO(data), encoding=encoding, errors="replace", newline="")


def is_utf8(data: bytes) -> bool:
    """Whether bytes are UTF-8, looked at in pieces."""
    decoder = codecs.getincrementaldecoder("utf-8")()
    try:
        for at in range(0, len(data), MIB):
            decoder.decode(data[at:at + MIB])
        decoder.decode(b"", final=True)
    except UnicodeDecodeError:
        return False
    return True


@contextlib.contextmanager
def alone(folder: str) -> Iterator[None]:
    """Makes a folder of results, and holds it: another flexlab that writes into it waits until this one has ended."""
    make_folder(folder)
    with named_faults(folder):
        held = os.open(folder, os.O_RDONLY | os.O_CLOEXEC)
    try:
        try:
            fcntl.flock(held, fcntl.LOCK_EX | fcntl.LOCK_NB)
        except BlockingIOError:
            print(f"flexlab: another flexlab writes into {folder}: this one waits until it has ended", file=sys.stderr, flush=True)
            fcntl.flock(held, fcntl.LOCK_EX)
        except OSError:
            # A file system without locks: there two at once are left to the user.
            pass
        yield
    finally:
        os.close(held)


def parameter_lines(cluster: Cluster) -> Iterator[str]:
    if ranges.version_of(cluster.parameters) == 2:
        yield "version,2,,,\n"
    yield from (f"param,{name},{value},,\n" for name, value in cluster.parameters.items())
    for node in cluster.nodes.values():
        yield f"node,{node.number},{node.key_slot or ''},{node.channels},{int(node.coldstart)}\n"
    yield from (f"slot,{slot},{node},{base},{repetition}\n" for slot, node, base, repetition in cluster.slots)


def drift_lines(cluster: Cluster) -> Iterator[str]:
    yield from start_lines(cluster)
    for number, steps in cluster.lengths.items():
        yield from length_lines(number, steps)
    yield from delay_lines(cluster.delays)


def start_lines(cluster: Cluster) -> Iterator[str]:
    yield f"doubles,{cluster.doubles},,,,\n"
    for node in cluster.nodes.values():
        if not node.arbitrary and (node.start or node.rate):
            yield f"start,{node.number},{node.start},{node.rate},,\n"


def length_lines(number: int, steps: Steps) -> Iterator[str]:
    return (f"length,{number},{cycle},{ticks},,\n" for cycle, ticks in sorted(steps.items()))


def delay_lines(delays: dict[Link, Steps]) -> Iterator[str]:
    for (sender, receiver, channel), steps in sorted(delays.items()):
        yield from (f"delay,{sender},{receiver},{channel},{cycle},{ticks}\n" for cycle, ticks in sorted(steps.items()))


def script_lines(cluster: Cluster) -> Iterator[str]:
    yield from (f"arbitrary,{node},,,,,\n" for node in cluster.arbitrary)
    yield from (f"join,{double},{node},{reference},,,\n" for node, (double, reference) in sorted(cluster.joins.items()))
    for (cycle, sender, receiver, channel), (kind, value, frame) in sorted(cluster.script.items()):
        yield f"{kind},{cycle},{sender},{receiver},{channel},{value},{frame}\n"


HELD = contextlib.ExitStack()


def hold(folder: str) -> None:
    """Holds a folder as `alone` does, until the request is done."""
    HELD.enter_context(alone(folder))


def write_files(cluster: Cluster, folder: str) -> list[str]:
    """Writes params.csv, drift.csv and script.csv, and hands back their paths."""
    paths = []
    make_folder(folder)
    for name, lines in (("params", parameter_lines), ("drift", drift_lines), ("script", script_lines)):
        text = "".join(lines(cluster))
        if len(text) > ranges.FILE_BYTES:
            raise Stop(REFUSED, f"{cluster.path}: {name}.csv would have {len(text)} bytes, and flexray takes files "
                                f"of at most {ranges.FILE_BYTES}; fewer cycles or nodes make it shorter")
        paths.append(os.path.join(folder, f"{name}.csv"))
        put(paths[-1], text, "ascii")
    return paths
