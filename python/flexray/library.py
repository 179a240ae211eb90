"""The shared object: where it is, and one call of it. Each status, text and line is the program's own."""
from __future__ import annotations

import ctypes
import ctypes.util
import operator
import os
import sys
import struct
import threading
from dataclasses import dataclass
from typing import Any, Sequence, Union

from .errors import LibraryMissing

__all__ = ["DONE", "NO", "USAGE", "READ_FAULT", "WRITE_FAULT", "REFUSED", "NO_MEMORY", "TOO_LONG", "MOST", "Answer", "Bytes",
           "request", "series_request", "version", "path"]

#: Bytes of a file.
Bytes = Union[bytes, bytearray, memoryview]

#: The exit statuses of the program.
DONE, NO, USAGE, READ_FAULT, WRITE_FAULT, REFUSED, NO_MEMORY, TOO_LONG = range(8)
#: How many bytes a file may have.
MOST = 16_777_216

#: The shared object; its number is the first one of the version.
NAME = "libflexray.so.0"
# The first place for a text; the longest one of a request so far is kept in mind, since a text that does not fit is computed
# a second time.
_ROOM = 1 << 16
_LINE = 512
_rooms: dict[tuple[str, str], int] = {}
_lock = threading.Lock()
_loaded: ctypes.CDLL | None = None
_path = ""


@dataclass(frozen=True)
class Answer:
    """The exit status, the printed text, and the line on standard error without its line feed."""

    status: int
    text: str
    line: str


class _Texts(ctypes.Structure):
    """The lengths of the whole text and of the whole line, also where they did not fit."""

    _fields_ = [("text", ctypes.c_size_t), ("line", ctypes.c_size_t)]


def _places() -> list[str]:
    """Where the library may be: as the variable says; beside this module, in a wheel; where the repository builds it, or a release
    is unpacked; where the system has it."""
    given = os.environ.get("FLEXRAY_LIBRARY")
    if given:
        return [given]
    here = os.path.dirname(os.path.realpath(__file__))
    found = [os.path.join(here, NAME), os.path.join(here, "..", "..", "out", "library", "lib", NAME)]
    # Where a release is unpacked: the module is in share/flexray/python, the library in lib.
    if here.endswith(os.path.join("share", "flexray", "python", "flexray")):
        found.append(os.path.join(here, "..", "..", "..", "..", "lib", NAME))
    return [os.path.realpath(place) for place in found if os.path.exists(place)] + [NAME]


def _library() -> ctypes.CDLL:
    global _loaded, _path
    with _lock:
        if _loaded is None:
            told = ""
            for place in _places():
                try:
                    library = ctypes.CDLL(place)
                    _declare(library)
                    _loaded, _path = library, place if os.sep in place else _taken(library, place)
                    break
                except (OSError, AttributeError) as fault:
                    told = str(fault)
            else:
                raise LibraryMissing(f"{NAME}: {told}; tools/library builds it, the Debian package has it, and the "
                                     "variable FLEXRAY_LIBRARY names it elsewhere")
        return _loaded


def _declare(library: ctypes.CDLL) -> None:
    data, size = ctypes.c_char_p, ctypes.c_size_t
    places = [ctypes.c_void_p, size, ctypes.c_void_p, size, ctypes.POINTER(_Texts)]
    for name in ("flexray_request", "flexray_series_request"):
        function = getattr(library, name)
        function.argtypes = [data, size, data, size, data, size, data, size, *places]
        function.restype = ctypes.c_uint32
    library.flexray_version.restype = ctypes.c_uint32
    library.flexray_version.argtypes = []


class _Symbol(ctypes.Structure):
    """What the loader tells of an address, first the file that it took."""

    _fields_ = [("file", ctypes.c_char_p), ("base", ctypes.c_void_p), ("name", ctypes.c_char_p), ("address", ctypes.c_void_p)]


def _taken(library: ctypes.CDLL, place: str) -> str:
    """The file that the loader took for a bare name; the name itself where it does not tell."""
    found = _Symbol()
    try:
        loader = ctypes.CDLL(None)
        told = loader.dladdr(ctypes.cast(library.flexray_version, ctypes.c_void_p), ctypes.byref(found))
    except (OSError, AttributeError):
        return place
    return os.path.realpath(os.fsdecode(found.file)) if told and found.file else place


def path() -> str:
    """Where the library was found."""
    _library()
    return _path


def build() -> str:
    """The build ID of the library in hexadecimal digits, which is a digest of the sources that it was compiled from; empty where
    it has none."""
    return build_of(path())


def build_of(place: str) -> str:
    """The same of a library that is not loaded, by its path."""
    try:
        with open(place, "rb") as file:
            data = file.read()
        return _build_id(data)
    except (OSError, struct.error):
        return ""


def _build_id(data: bytes) -> str:
    """The build ID that an ELF file of 64 bits states in its notes."""
    if data[:6] != b"\x7fELF\x02\x01":
        return ""
    start, = struct.unpack_from("<Q", data, 32)
    size, count = struct.unpack_from("<HH", data, 54)
    for at in range(start, start + size * count, size):
        kind, place, length = struct.unpack_from("<L4xQ16xQ", data, at)
        if kind != 4:
            continue
        note, end = place, min(place + length, len(data))
        while note < end:
            name, text, number = struct.unpack_from("<LLL", data, note)
            body = note + 12 + (name + 3) // 4 * 4
            if number == 3 and data[note + 12:note + 16] == b"GNU\0":
                return data[body:body + text].hex()
            note = body + (text + 3) // 4 * 4
    return ""


def version() -> str:
    """The version of the library."""
    number = _library().flexray_version()
    return f"{number // 10000}.{number // 100 % 100}.{number % 100}"


def shown(value: object) -> str:
    """A value in a message, which holds no long text whole."""
    if isinstance(value, int) and abs(value) >= 10 ** 30:
        return f"a whole number of {value.bit_length()} bits"
    try:
        text = repr(value[:60] if isinstance(value, (str, bytes, bytearray, list, tuple)) else value)
    except ValueError:
        # Of so many digits that Python refuses to write them.
        text = f"a {type(value).__name__}"
    return text if len(text) <= 60 else f"{text[:57]}..."


def whole(name: str, value: object) -> int:
    """A number that is whole, numpy's too; True, 1.5 and "7" are none."""
    if not isinstance(value, bool):
        try:
            return operator.index(value)  # type: ignore[arg-type]  # whatever it is, operator.index finds out
        except TypeError:
            pass
    raise TypeError(f"{name}: {shown(value)} is no whole number")


def given_bytes(name: str, data: object, wanted: str = "bytes are wanted") -> bytes:
    """The bytes of a file that is given as such: of what has the interface of buffers, and of nothing else, so that 5 is not
    five zero bytes."""
    if isinstance(data, bytes):
        return data
    try:
        return memoryview(data).tobytes()  # type: ignore[arg-type]  # whatever it is, memoryview finds out
    except TypeError:
        pass
    hint = ", as its read() answers them" if hasattr(data, "read") else ""
    raise TypeError(f"{name}: {shown(data)} is no content of a file: {wanted}{hint}")


def _room(name: str, room: object) -> int:
    """How many bytes a place has. ctypes would take -1 for the greatest length there is, and the library then writes past the
    place."""
    found = whole(name, room)
    if not 0 <= found <= sys.maxsize:
        raise ValueError(f"{name}: {shown(found)} is no length of a place, which is from 0 to {sys.maxsize} bytes")
    return found


def _spelt(words: Sequence[str]) -> bytes:
    if isinstance(words, (str, bytes)) or not all(isinstance(word, str) for word in words):
        raise TypeError(f'words: {shown(words)} is no list of texts, as ["bound", "first"]')
    if any("\n" in word for word in words):
        raise ValueError("words: a word has a line feed, and words are handed over one to a line")
    return "\n".join(words).encode("utf-8", "surrogateescape")


def _call(name: str, words: Sequence[str], files: Sequence[Bytes], room: int | None, line_room: int) -> Answer:
    # What is handed over is looked at before the library is, which trusts lengths.
    spelt = _spelt(words)
    lent: list[Any] = []
    for role, given in zip(("first", "second", "third"), files):
        data = given_bytes(role, given)
        lent += [data, len(data)]
    line_room = _room("line_room", line_room)
    kind = (name, words[0] if words else "")
    out_room = _rooms.get(kind, _ROOM) if room is None else _room("room", room)
    function: Any = getattr(_library(), name)
    while True:
        out, line, told = ctypes.create_string_buffer(max(out_room, 1)), ctypes.create_string_buffer(max(line_room, 1)), _Texts()
        status = function(spelt, len(spelt), *lent, out, out_room, line, line_room, ctypes.byref(told))
        if told.text <= out_room and told.line <= line_room:
            break
        out_room, line_room = max(out_room, told.text), max(line_room, told.line)
        if room is None:
            _rooms[kind] = max(_rooms.get(kind, 0), out_room)
    return Answer(status, ctypes.string_at(out, told.text).decode("ascii"),
                  ctypes.string_at(line, told.line).decode("ascii").rstrip("\n"))


def request(words: Sequence[str], first: Bytes = b"", second: Bytes = b"", third: Bytes = b"", *, room: int | None = None,
            line_room: int = _LINE) -> Answer:
    """What `flexray WORDS` answers where `first`, `second` and `third` among the words name files of these bytes.

    `room` and `line_room` are how many bytes the first places for the text and the line have, from 0; they grow as they have
    to, so no caller needs them. A ValueError comes of one below 0. The call gives up the interpreter's lock, and may be made by
    several threads at once: each has places of its own. It needs half a megabyte of stack.
    """
    return _call("flexray_request", words, [first, second, third], room, line_room)


def series_request(words: Sequence[str], first: Bytes = b"", second: Bytes = b"", third: Bytes = b"", *,
                   room: int | None = None, line_room: int = _LINE) -> Answer:
    """The same of `flexray-series WORDS`."""
    return _call("flexray_series_request", words, [first, second, third], room, line_room)
