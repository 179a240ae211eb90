"""How flexlab begins, by whatever it is called: it asks for its Python first, so this is read by older ones too."""
import os
import signal
import sys

LEAST = (3, 11)


def stop(*_: object) -> None:
    """What ^C does until flexlab is there: it ends in the status that it has then too."""
    sys.stderr.write("flexlab: stopped\n")
    sys.stderr.flush()
    os._exit(130)


def main() -> int:
    """Does what the words of the command line ask, and hands back the exit status."""
    # Where ^C is ignored, as behind nohup, it stays so.
    if signal.getsignal(signal.SIGINT) is signal.default_int_handler:
        signal.signal(signal.SIGINT, stop)
    if sys.version_info < LEAST:
        sys.stderr.write("flexlab: it needs Python 3.11 or later, and this is Python %d.%d (%s): call it by a later one, as in "
                         "`python3.11 %s`\n" % (sys.version_info[0], sys.version_info[1], sys.executable, sys.argv[0]))
        return 4
    from .cli.words import main as words
    return words(sys.argv[1:])
