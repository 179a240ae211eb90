"""Mutated inputs of flexlab, of each kind that it reads: made from good ones by a seed, read in a process of their own, and judged.

A mutation is either hostile, and then the answer has to be an answer or a refusal by name; or it changes nothing of what the input
says, and then the answer has to be that of the good one. `flexray` and `tshark` are stood in for here: this is of what flexlab reads.
"""
import contextlib
import io
import json
import os
import random
import resource
import shutil
import signal
import struct
import sys
import tempfile
import zlib
from collections.abc import Callable, Iterator
from dataclasses import dataclass
from typing import Any

import bench
import test_asc
import test_blf
from flexlab.captures import packets
from flexlab.cli import words as cli
from flexlab.program import calls

TOML = bench.edited(("double_cycles = 200", "double_cycles = 3")) + test_asc.OBSERVER
CPU_SECONDS, MEMORY = 20.0, 3 << 30
# What a mutated input may end in: flexlab has no fault of its own (8), and no program is called that could fail (6) or be missing (4).
ENDINGS = (0, 1, 2, 3, 5, 7)
NUMBERS = ("0", "-1", "1", "-0", "1e999999999", "-1e-999999999", "9" * 400, "0x" + "f" * 90, "nan", "inf", "-inf", "1e30", "1.5", "0.1e1", "٣",
           "4294967296", "1_0", "1979-05-27", "true", '"x"', "[]", "[[[[]]]]", "{}", "{ uniform = [1, 2] }", '"all"', '"1-"', '"9-1"', "")
TEXTS = ("\0", "\x1b[2J", "\u2028", "é", "\U0001f600", "'", '"', '"""', "\\", "\\u0000", "`", "$(x)", "%s", "=", "[", "]", "[[", "{", "#", "\r", "\n", "\t",
         ",", ";", "\ufeff", "A" * 5000, "-" * 300, "__proto__", "id", "node", "9" * 30)


@dataclass
class Kind:
    """A kind of input: good ones, how the bytes are mutated, such mutations as change nothing, and the words that read a file."""
    good: list[bytes]
    hostile: Callable[[random.Random, bytes], bytes]
    neutral: list[Callable[[random.Random, bytes], bytes]]
    name: str
    words: Callable[[str], list[str]]


# ---- mutations


def of_text(draw: random.Random, data: bytes) -> bytes:
    """A text with one to four things changed, by lines, by fields or by bytes."""
    for _ in range(draw.choice((1, 1, 1, 2, 4))):
        lines = data.split(b"\n")
        at, way = draw.randrange(len(lines)), draw.randrange(10)
        if way == 0:
            del lines[at]
        elif way == 1:
            lines.insert(at, draw.choice(lines))
        elif way == 2:
            other = draw.randrange(len(lines))
            lines[at], lines[other] = lines[other], lines[at]
        elif way in (3, 4, 5):
            mark = draw.choice((b"=", b",", b" ", b";", b'"'))
            parts = lines[at].split(mark)
            parts[draw.randrange(len(parts))] = draw.choice(NUMBERS).encode("utf-8")
            lines[at] = mark.join(parts)
        elif way in (6, 7):
            place = draw.randrange(len(lines[at]) + 1)
            lines[at] = lines[at][:place] + draw.choice(TEXTS).encode("utf-8") + lines[at][place + draw.choice((0, 0, 1, 5)):]
        elif way == 8:
            lines = lines[:at] + lines[at:at + 3] * draw.choice((2, 50)) + lines[at + 3:]
        else:
            return of_bytes(draw, data)
        data = b"\n".join(lines)
    return data


def of_bytes(draw: random.Random, data: bytes) -> bytes:
    """Bytes with one to four places changed: bits, words that may be lengths, pieces twice, away or cut."""
    some = bytearray(data)
    for _ in range(draw.choice((1, 1, 2, 4))):
        at, way = draw.randrange(len(some) + 1), draw.randrange(8)
        if way == 0 and some:
            some[at % len(some)] ^= 1 << draw.randrange(8)
        elif way in (1, 2):
            number = draw.choice((0, 1, 0x7F, 0xFF, 0xFFFF, 0x7FFFFFFF, 0x80000000, 0xFFFFFFFF, 16, 15, 31, 32, draw.getrandbits(32)))
            some[at:at + 4] = struct.pack(draw.choice("<>") + "I", number)
        elif way == 3:
            some[at:at + 2] = struct.pack("<H", draw.choice((0, 1, 0xFFFF, 0x8000, draw.getrandbits(16))))
        elif way == 4:
            del some[at:at + draw.choice((1, 4, 16, 300))]
        elif way == 5:
            some[at:at] = some[max(0, at - draw.choice((1, 16, 300))):at]
        elif way == 6:
            some[at:at] = bytes(draw.getrandbits(8) for _ in range(draw.choice((1, 4, 64))))
        else:
            del some[at:]
    return bytes(some)


def of_objects(draw: random.Random, data: bytes) -> bytes:
    """A BLF file: its bytes changed, or those of what its containers have, which are packed anew."""
    if draw.random() < 0.4:
        return of_bytes(draw, data)
    content = unpacked(data)
    return test_blf.blf_file([of_bytes(draw, content)], draw.choice((0, 2)), draw.choice((50, 3000, 1 << 20)))


def unpacked(data: bytes) -> bytes:
    """What the containers of a file of test_blf have."""
    found, at = b"", 144
    while at + 32 <= len(data):
        size, = struct.unpack_from("<I", data, at + 8)
        packing, = struct.unpack_from("<H", data, at + 16)
        body = data[at + 32:at + size]
        found += zlib.decompress(body) if packing else body
        at += size + size % 4
    return found


def each_line(change: Callable[[random.Random, bytes], bytes], first: int = 0) -> Callable[[random.Random, bytes], bytes]:
    """A change of some lines from this one on."""
    def changed(draw: random.Random, data: bytes) -> bytes:
        lines = data.split(b"\n")
        return b"\n".join(change(draw, line) if at >= first and draw.random() < 0.3 else line for at, line in enumerate(lines))
    return changed


def spelt_otherwise(draw: random.Random, line: bytes) -> bytes:
    """A whole number of a TOML file that stands alone, in another spelling of the same number."""
    key, mark, value = line.partition(b" = ")
    number = value.split(b"#")[0].strip()
    # Nodes and cycles are no numbers: they may be texts too.
    if not mark or not number.isdigit() or number.startswith(b"0") or key.strip() in (
            b"node", b"nodes", b"from", b"to", b"early", b"late", b"on_time", b"cycles", b"reference"):
        return line
    return key + mark + draw.choice((number + b".0", number + b"e0", b"+" + number, hex(int(number)).encode(), number + b".00 # x"))


def with_another_object(draw: random.Random, data: bytes) -> bytes:
    """A BLF file with objects of other kinds between those of its frames, and packed anew."""
    items, content = [], unpacked(data)
    for part in content.split(b"LOBJ")[1:]:
        items.append(b"LOBJ" + part)
        if draw.random() < 0.3:
            items.append(test_blf.item(draw.choice((1, 73, 86)), bytes(draw.randrange(60))))
    return test_blf.blf_file(items, draw.choice((0, 2)), draw.choice((64, 500, 1 << 20)))


# ---- the kinds


def sent() -> list[packets.Packet]:
    """The packets of the short run, by the real program."""
    with tempfile.TemporaryDirectory() as room:
        path = os.path.join(room, "a.toml")
        with open(path, "w", encoding="utf-8") as file:
            file.write(TOML)
        with contextlib.redirect_stdout(io.StringIO()):
            cli.DO["pcap"](cli.parser().parse_args(["pcap", path, "-o", room, "--flexray", bench.FLEXRAY]))
        return packets.read_capture(os.path.join(room, "sent.pcap"))[1]


def pcap_of(made: list[packets.Packet]) -> bytes:
    rows = (struct.pack("<IIII", one.ns // 10**9, one.ns % 10**9, len(one.data), len(one.data)) + one.data for one in made)
    return struct.pack("<IHHiIIII", packets.MAGIC_NS, 2, 4, 0, 0, 65535, packets.LINK_FLEXRAY, 0)[:24] + b"".join(rows)


def pcapng_of(steps: int) -> bytes:
    """The head of a pcapng file: a section, and an interface with the step of its stamps."""
    options = struct.pack("<HHB3xHH", 9, 1, steps, 0, 0)
    return (struct.pack("<IIIHHqI", 0x0A0D0D0A, 28, 0x1A2B3C4D, 1, 0, -1, 28)
            + struct.pack("<IIHHI", 1, 20 + len(options), packets.LINK_FLEXRAY, 0, 0) + options + struct.pack("<I", 20 + len(options))
            + struct.pack("<III", 6, 12, 12))


def table_of(made: list[packets.Packet]) -> bytes:
    rows = (f"{one.ns // 10**9}.{one.ns % 10**9:09};{one.channel};{one.frame.hex(' ')};x" for one in made)
    return ("Zeit [\u00b5s];Kanal;Daten;Text\n" + "\n".join(rows) + "\n").encode("latin-1")


def kinds(made: list[packets.Packet]) -> dict[str, Kind]:
    """All kinds; they are read by flexlab itself but for a pcapng file, of which it reads the steps of the stamps."""
    log = ["-o", "out/log.csv"]
    columns = ["--columns", "time=Zeit [\u00b5s],channel=Kanal,bytes=Daten"]
    asc = test_asc.text_of(test_asc.rows_of(made)).encode()
    items = [test_blf.frame_item(one.ns, 2 if one.channel == "B" else 1, one.frame) for one in made]
    found = {
        "toml": Kind([TOML.encode(), *(example(name) for name in ("examples/bench/bench.toml", "examples/sharp/sharp.toml"))], of_text,
                     [each_line(spelt_otherwise), each_line(lambda draw, line: line + draw.choice((b" ", b"\t", b"\n", b"\n# x = [")) if b'"""'
                                                            not in line and b"[\n" not in line else line),
                      lambda draw, data: data.replace(b"\n", b"\r\n"), lambda draw, data: b"\xef\xbb\xbf" + data],
                     "a.toml", lambda path: ["build", path, "-o", "out"]),
        "table": Kind([table_of(made)], of_text,
                      [lambda draw, data: data.replace(b"\n", b"\r\n"), lambda draw, data: data + b"\n" * draw.randrange(9),
                       lambda draw, data: b"\xef\xbb\xbf" + data.decode("latin-1").encode(),
                       lambda draw, data: data.decode("latin-1").encode("utf-16"),
                       each_line(lambda draw, line: b";".join(b'"' + part + b'"' if draw.random() < 0.5 else part for part in line.split(b";"))
                                 if line else line, 1),
                       lambda draw, data: data.replace(b";", b"\t"), each_line(lambda draw, line: line + b"\xe4;;" if line else line, 1)],
                      "a.csv", lambda path: ["log", path, "good.toml", *columns, *log]),
        "asc": Kind([asc], of_text,
                    [lambda draw, data: data.replace(b"\n", b"\r\n"), each_line(lambda draw, line: line.replace(b" ", b"  ")),
                     each_line(lambda draw, line: line + b"\n// \xe4 a remark")],
                    "a.asc", lambda path: ["log", path, "good.toml", *log]),
        "pcap": Kind([pcap_of(made)], of_bytes, [lambda draw, data: data + bytes(draw.randrange(16))], "a.pcap",
                     lambda path: ["log", path, "good.toml", *log]),
        "pcapng": Kind([pcapng_of(9), pcapng_of(6), pcapng_of(0x9E)], of_bytes,
                       [lambda draw, data: data + bytes(draw.randrange(99))], "a.pcapng", lambda path: ["log", path, "good.toml", *log]),
        "blf": Kind([test_blf.blf_file(items), test_blf.blf_file(items, 0)], of_objects,
                    [with_another_object, lambda draw, data: data + bytes(draw.randrange(99))], "a.blf",
                    lambda path: ["log", path, "good.toml", *log]),
    }
    return found


def example(path: str) -> bytes:
    with open(os.path.join(bench.REPOSITORY, path), "rb") as file:
        return file.read()


# The files of flexray, which `explain` reads: of each role one of the examples, and the words in which it stands.
RECORDS = {"params": "offset/params.csv", "drift": "offset/drift.csv", "script": "faults/arbitrary/script.csv",
           "trace": "offset/check/trace.csv", "nm": "frame/vectors.csv", "power": "reference/cold/power.csv", "log": "observe/log.csv"}
WORDS = {"params": ["bound", 0], "drift": ["run", "p.csv", 0, "s.csv"], "script": ["run", "p.csv", "d.csv", 0], "trace": ["check", "p.csv", 0],
         "nm": ["nm", "4", 0], "power": ["cold", "p.csv", 0], "log": ["observe", "p.csv", 0]}
REASONS = ("Shape", "UnknownName", "NotNumber", "OutOfRange", "UnknownNode", "BadChannel", "Role", "Link", "NotHex", "Repeated")


def explained(draw: random.Random, role: str) -> list[str]:
    """The words of an explanation of some record of a file in this role."""
    line = f"{role}: record {draw.choice((1, 2, 5, 20, 10**9))}: {draw.choice(REASONS)}"
    return ["explain", "--line", line, *("a.csv" if word == 0 else str(word) for word in WORDS[role])]


def random_words(draw: random.Random) -> list[str]:
    """Words of a request, with options of any and values that fit none."""
    requests = ("new", "build", "run", "power", "settle", "precision", "worst", "explain", "study", "capture", "log", "observe", "pcap",
                "design", "", "x")
    options = ("-o", "--out", "--seed", "--draw", "--from", "--cycles", "--require", "--vary", "--values", "--draws", "--seeds", "--doubles",
               "--keep", "--jobs", "--runs", "--seconds", "--double-cycles", "--nm", "--columns", "--time-unit", "--start-us", "--rate-ppm",
               "--flutter-ns", "--standard", "--line", "--most-mib", "--json", "-p", "--part", "--help", "--", "-V", "--margin-ns", "--top", "--cluster")
    values = (*NUMBERS, *TEXTS, "none.toml", "out", "1:2:0", "1:1e9:1e-9", "worst:1", "a=b,c", "time=a,channel=b,bytes=c", "1-", "-", ".", "/dev/null/x")
    found = [draw.choice(requests)]
    for _ in range(draw.randrange(1, 7)):
        found.append(draw.choice(options) if draw.random() < 0.5 else draw.choice(values).replace("\0", ""))
    return found


# ---- one process that reads many


def answer_of(name: str) -> str:
    """What stands in the folder of results."""
    found = {}
    for place, _, files in os.walk("out"):
        for one in sorted(files):
            with open(os.path.join(place, one), "rb") as file:
                found[one] = file.read().decode("latin-1").replace(name, "")
    return json.dumps(found, sort_keys=True)


def called(words: list[str]) -> tuple[int, str, str]:
    """The status of a call, what stands on standard error, and what it printed; what is left of an earlier one is away."""
    shutil.rmtree("out", ignore_errors=True)
    os.mkdir("out")
    out, err = (io.TextIOWrapper(io.BytesIO(), encoding="utf-8") for _ in range(2))
    was = sys.stdout, sys.stderr
    sys.stdout, sys.stderr = out, err
    try:
        status = cli.main(words)
        texts = []
        for one in (err, out):
            one.flush()
            texts.append(one.buffer.getvalue().decode("utf-8", "replace"))  # type: ignore[attr-defined]
        return status, texts[0], texts[1]
    finally:
        sys.stdout, sys.stderr = was


def trials(kind: str, made: list[packets.Packet], seed: str) -> Iterator[tuple[list[str], bytes | None, str | None]]:
    """The words of each call, the bytes of its file, and the answer that it has to give where that is known."""
    draw = random.Random(f"{seed}/{kind}")
    if kind == "words":
        while True:
            yield random_words(draw), None, None
    if kind == "records":
        while True:
            role = draw.choice(list(RECORDS))
            data = example("examples/" + RECORDS[role])
            yield explained(draw, role), of_text(draw, data[:20000]), None
    one = kinds(made)[kind]
    answers = []
    for data in one.good:
        write(one.name, data)
        status, err, _ = called(one.words(one.name))
        if status != 0:
            raise AssertionError(f"a good {kind} file is refused: {err}")
        answers.append(answer_of(one.name))
    while True:
        at = draw.randrange(len(one.good))
        if draw.random() < 0.25:
            yield one.words(one.name), draw.choice(one.neutral)(draw, one.good[at]), answers[at]
        else:
            yield one.words(one.name), one.hostile(draw, one.good[at]), None


def write(name: str, data: bytes) -> None:
    with open(name, "wb") as file:
        file.write(data)


def stand_in(made: list[packets.Packet]) -> None:
    """Programs are stood in for: flexray takes every file, and tshark writes what it has plain, of a pcapng file the same packets."""
    def stream(_: str, words: list[str], most: int) -> tuple[int, bytes, str]:
        path = words[words.index("-r") + 1]
        with open(path, "rb") as file:
            data = file.read(most + 1)
        if path.endswith("ng"):
            return 0, pcap_of(made), ""
        # tshark refuses a file that ends within its head of 24 bytes, as it does one of another kind.
        return (0, data, "") if len(data) >= 24 and data[:4] == struct.pack("<I", packets.MAGIC_NS) else (2, b"", "stood in for")

    def call(_: str, words: list[str], *__: Any, **___: Any) -> tuple[int, str, str]:
        return (0, "", "") if words[0] == "bound" and len(words) < 4 else (6, "", "stood in for")

    calls.stream, calls.call = stream, call
    calls.helper = lambda name: name  # type: ignore[assignment]


KINDS = ("toml", "table", "asc", "pcap", "pcapng", "blf", "records", "words")


def run(kind: str, made: list[packets.Packet], seed: str, count: int, report: Any) -> None:
    """Reads so many mutated inputs, and writes of each what it is before, and how it ended after."""
    resource.setrlimit(resource.RLIMIT_AS, (MEMORY, MEMORY))
    signal.signal(signal.SIGPROF, signal.SIG_DFL)
    stand_in(made)
    write("good.toml", TOML.encode())
    for place, path in (("p.csv", "params"), ("d.csv", "drift"), ("s.csv", "script")):
        write(place, example("examples/" + RECORDS[path]))
    for number, (words, data, wanted) in zip(range(count), trials(kind, made, seed)):
        if data is not None:
            write(words[words.index("a.csv")] if kind == "records" else words[1], data)
        report.write(json.dumps({"number": number, "words": words}) + "\n")
        report.flush()
        signal.setitimer(signal.ITIMER_PROF, CPU_SECONDS)
        status, err, out = called(words)
        signal.setitimer(signal.ITIMER_PROF, 0)
        fault = ""
        # Of words the stand-in of flexray may be asked for an answer, which it has not.
        if status not in (*ENDINGS, *((6,) if kind == "words" else ())) or "Traceback" in err:
            fault = f"status {status}: {err[-600:]}"
        elif status != 0 and not err and not out:
            fault = f"status {status} without a word"
        elif any(not one.isprintable() and one not in "\n\ufffd" for one in err + out):
            fault = f"a control character on the terminal: {(err + out)[-300:]!r}"
        elif wanted is not None and (status, answer_of(words[1])) != (0, wanted):
            fault = f"a change that changes nothing gives another answer, status {status}: {err[-300:]}"
        if fault and data is not None:
            write(f"fault-{number}", data)
        report.write(json.dumps({"ended": status, "fault": fault}) + "\n")


def tried(kind: str, made: list[packets.Packet], seed: str, count: int, keep: str) -> tuple[dict[int, int], list[str]]:
    """How often which status came, and what fell short; a file that made it stands in the folder `keep` then."""
    room = tempfile.mkdtemp(prefix="flexlab-mutations-")
    statuses: dict[int, int] = {}
    faults = []
    try:
        path = os.path.join(room, "report")
        child = os.fork()
        if child == 0:
            code = 1
            try:
                os.chdir(room)
                os.environ.update(FLEXRAY=bench.FLEXRAY, FLEXRAY_SERIES="", FLEXLAB_LIBRARY="no")
                with open(path, "w", encoding="utf-8") as report:
                    run(kind, made, seed, count, report)
                code = 0
            finally:
                os._exit(code)
        _, ended = os.waitpid(child, 0)
        with open(path, encoding="utf-8") as report:
            lines = [json.loads(line) for line in report]
        for begun, done in zip(lines[::2], [*lines[1::2], None]):
            if done is None:
                faults.append(f"{kind} {begun['number']} of seed {seed}: {begun['words']}: it did not end within {CPU_SECONDS:g} s of the "
                              "processor, or a signal ended it")
            else:
                statuses[done["ended"]] = statuses.get(done["ended"], 0) + 1
                if done["fault"]:
                    faults.append(f"{kind} {begun['number']} of seed {seed}: {begun['words']}: {done['fault']}")
        if len(lines) // 2 < count and not faults:
            faults.append(f"{kind} of seed {seed}: it ended after {len(lines) // 2} of {count} with status {ended}")
        if faults and keep:
            shutil.copytree(room, os.path.join(keep, f"{kind}-{seed}"), dirs_exist_ok=True)
    finally:
        shutil.rmtree(room, ignore_errors=True)
    return statuses, faults
