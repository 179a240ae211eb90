"""How flexlab ends: its exit statuses, the exception that carries one with its line, and how outside text stands on a line."""

DONE, NO, USAGE, FILE, MISSING, REFUSED, PROGRAM, UNMET, FAULT, STOPPED = 0, 1, 2, 3, 4, 5, 6, 7, 8, 130

STATUSES = """exit statuses:
  0  done; of `run`: the page was printed, whatever it says, unless something is required of it
  1  the answer is no: `flexray` refused the files, a run of a study failed, a packet of a capture is damaged,
     or it has none; none or several nodes lead a startup, clocks that begin so may not come into sync, no run
     of the cluster is covered (`worst`), there is no design (`design`), nothing can be claimed (`case`), or
     the verdict is none of within (`observe`)
  2  the words are wrong
  3  a file could not be read or written
  4  a program that is needed is missing; the line names the Debian package
  5  a value of the TOML file, or of a file that is imported, is refused; the line has the file's line, the key
     and the range. Or a file is no capture of a FlexRay network
  6  `flexray` failed where it should not have, or its answer does not fit what was asked
  7  what is required of a run, or of a log, is not met; standard error has what and why
  8  a fault of flexlab itself, or no memory is left; the line says what to report. With the variable FLEXLAB_DEBUG
     set it shows where
130  stopped by ^C; no file of a result is half written
"""


LONGEST = 300


def printable(text: str) -> str:
    """A text from outside as a part of a line: control characters are spelt out, so that they neither begin a line nor steer a
    terminal, and of a long text the middle is left out."""
    if len(text) > LONGEST:
        text = f"{text[:LONGEST // 2]}[..]{text[-LONGEST // 4:]}"
    return "".join(one if one.isprintable() or "\udc80" <= one <= "\udcff" else one.encode("unicode_escape").decode("ascii")
                   for one in text)


class Ended(BaseException):
    """Ends flexlab by SIGTERM, behind all that it has to put in order."""


class Stop(Exception):
    """Ends flexlab with a status and a line on standard error."""

    def __init__(self, status: int, line: str) -> None:
        super().__init__(line)
        self.status = status
        self.line = line

    def __reduce__(self) -> tuple[type, tuple[int, str]]:
        """A process hands it on to another one as this."""
        return Stop, (self.status, self.line)


class Refused(Stop):
    """A fault of a file, with its line there where that is known."""

    def __init__(self, path: str, place: int | None, why: str) -> None:
        super().__init__(REFUSED, f"{path}:{place}: {why}" if place else f"{path}: {why}")
        self.place = place
