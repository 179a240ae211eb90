"""The version of all that stands in this repository, and of the package: the one line of the file VERSION, which a wheel has beside
the modules of flexlab."""
import os

HERE = os.path.dirname(os.path.realpath(__file__))


def version() -> str:
    packed = os.path.join(HERE, "..", "VERSION")
    with open(packed if os.path.exists(packed) else os.path.join(HERE, "..", "..", "..", "VERSION"), encoding="ascii") as file:
        return file.read().strip()
