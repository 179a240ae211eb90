"""Records of a file as flexray reads them, each with its line: commas, quotes, no header, no comments."""
from dataclasses import dataclass

from ..base.files import read
from ..base.ranges import FILE_BYTES


@dataclass
class Record:
    number: int
    line: int
    text: str
    fields: list[str]


def records(data: bytes) -> list[Record]:
    """The records of a file's bytes, numbered from 1; empty lines are none."""
    if data.startswith(b"\xef\xbb\xbf"):
        data = data[3:]
    found: list[Record] = []
    fields: list[str] = []
    field = bytearray()
    line, begin_line, begin, at = 1, 1, 0, 0
    quoted = was_quoted = touched = False
    while at <= len(data):
        byte = data[at:at + 1]
        ends = byte in (b"\n", b"\r", b"")
        if quoted and byte:
            if byte == b'"' and data[at + 1:at + 2] == b'"':
                field += byte
                at += 1
            elif byte == b'"':
                quoted = False
            else:
                field += byte
        elif ends:
            if touched:
                fields.append(shown(field))
                text = data[begin:at].decode("utf-8", "replace")
                found.append(Record(len(found) + 1, begin_line, text, fields))
            fields, field, touched, was_quoted, quoted = [], bytearray(), False, False, False
            goes_on = byte == b"\r" and data[at + 1:at + 2] == b"\n"
            begin, begin_line = at + 1, line + (1 if byte and not goes_on else 0)
        elif byte == b",":
            fields.append(shown(field))
            field, touched, was_quoted = bytearray(), True, False
        elif byte == b'"' and not field and not was_quoted:
            quoted = was_quoted = touched = True
        else:
            field += byte
            touched = True
        if byte == b"\n" or (byte == b"\r" and data[at + 1:at + 2] != b"\n"):
            line += 1
        at += 1
    return found


def shown(field: bytearray) -> str:
    return bytes(field).decode("utf-8", "replace")


def load(path: str) -> list[Record]:
    return records(read(path, FILE_BYTES))
