"""What the tests share: the program, flexlab called as a user calls it, and the commented example."""
import contextlib
import io
import os
import shutil
import signal
import subprocess
import sys
import tempfile
import unittest
from collections.abc import Iterator
from pathlib import Path
from typing import NamedTuple

TOOLS = os.path.dirname(os.path.dirname(os.path.realpath(__file__)))
REPOSITORY = os.path.dirname(TOOLS)
FLEXLAB = os.path.join(TOOLS, "flexlab")
sys.path.insert(0, os.path.join(REPOSITORY, "python"))
sys.dont_write_bytecode = True

from flexlab.cli.words import main  # noqa: E402
from flexlab.program import calls as program  # noqa: E402

# What a shell runs in the background hears no ^C, nor does what that runs; the programs that are tried here are told of one.
if signal.getsignal(signal.SIGINT) == signal.SIG_IGN:
    signal.signal(signal.SIGINT, signal.default_int_handler)

FLEXRAY = program.flexray()
SERIES = program.series(FLEXRAY)
with open(os.path.join(REPOSITORY, "python", "flexlab", "toml", "example.toml"), encoding="utf-8") as example:
    EXAMPLE = example.read()


class ExampleCall(NamedTuple):
    """A call of examples/SUBJECT/CALL: its name as SUBJECT/CALL, its folder, from which its words name files, and what the program
    ends with."""
    name: str
    folder: Path
    words: list[str]
    is_series: bool
    status: int
    text: bytes
    line: bytes

    @property
    def files(self) -> list[Path]:
        """Those that the words name, in their order."""
        return [self.folder / word for word in self.words if (self.folder / word).is_file()]


def example_calls() -> Iterator[ExampleCall]:
    for words in sorted(Path(REPOSITORY, "examples").glob("*/*/words")):
        call = words.parent
        status, text, line = ((call / part).read_bytes() if (call / part).exists() else b"" for part in ("status", "printed.txt", "told.txt"))
        yield ExampleCall(f"{call.parent.name}/{call.name}", call, words.read_text("utf-8").splitlines(), (call / "program").exists(),
                          int(status or 0), text, line)


def example_call(name: str) -> ExampleCall:
    return next(call for call in example_calls() if call.name == name)


def needs(name):
    """Leaves a test out where a program is missing; tools/test says which."""
    return unittest.skipUnless(shutil.which(name), f"{name} is not installed")


def needs_series(test):
    """Leaves a test out where flexray-series is not built."""
    return unittest.skipUnless(SERIES, "flexray-series is not built")(test)


def edited(*changes, text=EXAMPLE):
    """The example with (old, new) put in; each old text has to be there once at least."""
    for old, new in changes:
        if old not in text:
            raise AssertionError(f"the example has no {old!r}")
        text = text.replace(old, new, 1)
    return text


def in_process(*words):
    """Status, standard output and standard error of a call of flexlab in this process, where many are made."""
    streams = [io.TextIOWrapper(io.BytesIO(), encoding="utf-8", newline="") for _ in range(2)]
    with contextlib.redirect_stdout(streams[0]), contextlib.redirect_stderr(streams[1]):
        status = main([*words])
    for stream in streams:
        stream.flush()
    return status, *(stream.buffer.getvalue().decode("utf-8", "surrogateescape") for stream in streams)


class Bench(unittest.TestCase):
    """A test with a folder of its own."""

    def setUp(self):
        self.room = tempfile.mkdtemp(prefix="flexlab-test-")
        self.addCleanup(shutil.rmtree, self.room, ignore_errors=True)

    def path(self, *parts):
        return os.path.join(self.room, *parts)

    def write(self, name, text):
        with open(self.path(name), "w", encoding="utf-8", newline="") as file:
            file.write(text)
        return self.path(name)

    def read(self, *parts):
        with open(self.path(*parts), encoding="utf-8") as file:
            return file.read()

    def flexlab(self, *words, status=0, env=None, cwd=None):
        """Standard output and standard error of a call, whose status has to be the one that is expected, or one of those.

        A test that is for flexray-series, or for the library, names it; the others are the same where it is built and where it is
        not.
        """
        env = {**os.environ, "FLEXRAY": FLEXRAY, "FLEXRAY_SERIES": "", "FLEXLAB_LIBRARY": "no", **(env or {})}
        ended = subprocess.run([sys.executable, FLEXLAB, *words], capture_output=True, text=True, check=False, env=env,
                               cwd=cwd or self.room, stdin=subprocess.DEVNULL, timeout=300)
        self.assertIn(ended.returncode, status if isinstance(status, tuple) else (status,), f"{words}: {ended.stdout}{ended.stderr}")
        self.assertNotIn("Traceback", ended.stderr)
        return ended.stdout, ended.stderr

    def shell(self, script):
        """A line of a shell in which `flexlab` is flexlab, as a user has it."""
        folder = self.path("bin")
        os.makedirs(folder, exist_ok=True)
        if not os.path.exists(os.path.join(folder, "flexlab")):
            os.symlink(FLEXLAB, os.path.join(folder, "flexlab"))
        env = {**os.environ, "FLEXRAY": FLEXRAY, "FLEXRAY_SERIES": "", "FLEXLAB_LIBRARY": "no",
               "PATH": folder + os.pathsep + os.environ["PATH"]}
        return subprocess.run(["sh", "-c", script], capture_output=True, text=True, check=False, env=env, cwd=self.room,
                              timeout=300)

    def series_of(self, skew, *last):
        """A flexray-series that answers of the example with this skew of each cycle in ticks, and these last lines. Sync and sharp
        sync are in step with the program's trace, and what else is told of sharp sync is so."""
        rows = "".join(f"{cycle},{'no' if cycle < 2 else 'yes'},{ticks},9,{'no' if cycle < 4 else 'yes'},all,-\n"
                       for cycle, ticks in enumerate(skew))
        sharp = ("flutter,0,,,", "sharp,150237926,beside,,", "sharp covered,yes,,,", "sharp synced,2,on,,",
                 f"sharp greatest,{max(skew[4:])},4,9,", "sharp within,yes,,,", "lost,0,-,-,-")
        self.write("series.txt", "cycle,in_sync,skew,macrotick,sharp,heard,bound\n" + rows + "".join(f"{line}\n" for line in last + sharp))
        path = self.write("series", f"#!/bin/sh\ncat {self.path('series.txt')}\n")
        os.chmod(path, 0o755)
        return {"FLEXRAY_SERIES": path}

    def flexray(self, *words):
        ended = subprocess.run([FLEXRAY, *words], capture_output=True, text=True, check=False, cwd=self.room)
        return ended.returncode, ended.stdout, ended.stderr.strip()

    def one_line(self, text):
        """A page's text without its line breaks."""
        return " ".join(text.split())
