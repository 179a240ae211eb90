"""Types and style of the Python packages: mypy and flake8 find nothing, and each exemption has its reason."""
import os
import re
import shutil
import subprocess
import sys
import tempfile
import unittest

from bench import REPOSITORY

PYTHON = os.path.join(REPOSITORY, "python")
PACKAGES = ("flexray", "flexlab")
WIDTH = 140


def sources():
    for package in PACKAGES:
        for folder, _, names in os.walk(os.path.join(PYTHON, package)):
            yield from (os.path.join(folder, name) for name in names if name.endswith(".py"))
    yield os.path.join(PYTHON, "build_wheel.py")


def checked(*words, folder=PYTHON):
    """What a program says of the sources, nothing where it finds nothing."""
    ended = subprocess.run(words, cwd=folder, capture_output=True, text=True, check=False)
    return "" if ended.returncode == 0 else ended.stdout + ended.stderr


@unittest.skipUnless(shutil.which("mypy"), "mypy is not installed: the Debian package is mypy")
class Types(unittest.TestCase):
    def mypy(self, *words, folder=PYTHON):
        with tempfile.TemporaryDirectory() as cache:
            return checked("mypy", "--strict", "--no-error-summary", "--cache-dir", cache, *words, folder=folder)

    def test_both_packages(self):
        self.assertEqual(self.mypy("--python-version", "3.11", *PACKAGES, "build_wheel.py"), "")

    def test_the_package_flexray_by_the_oldest_python_that_it_takes(self):
        self.assertEqual(self.mypy("--python-version", "3.9", "flexray"), "")

    def test_a_function_without_types_is_found(self):
        with tempfile.TemporaryDirectory() as room:
            with open(os.path.join(room, "bare.py"), "w", encoding="utf-8") as file:
                file.write("def bare(value):\n    return value\n")
            self.assertIn("Function is missing a type annotation", self.mypy("bare.py", folder=room))


@unittest.skipUnless(shutil.which("flake8"), "flake8 is not installed: the Debian package is flake8")
class Style(unittest.TestCase):
    def flake8(self, *words, folder=PYTHON):
        return checked("flake8", "--isolated", "--max-line-length", str(WIDTH), *words, folder=folder)

    def test_both_packages(self):
        self.assertEqual(self.flake8(*PACKAGES, "build_wheel.py"), "")

    def test_an_import_that_nothing_uses_is_found(self):
        with tempfile.TemporaryDirectory() as room:
            with open(os.path.join(room, "bare.py"), "w", encoding="utf-8") as file:
                file.write("import os\n")
            self.assertIn("F401", self.flake8("bare.py", folder=room))


class Exemptions(unittest.TestCase):
    def test_each_has_its_reason(self):
        for path in sources():
            with open(path, encoding="utf-8") as file:
                for number, line in enumerate(file, 1):
                    if "type: ignore" in line:
                        self.assertRegex(line, r"# type: ignore\[[\w,-]+\]  # \w+", f"{path}:{number}")

    def test_it_would_be_found(self):
        self.assertIsNone(re.search(r"# type: ignore\[[\w,-]+\]  # \w+", "a = b  # type: ignore"))


if __name__ == "__main__":
    sys.exit(unittest.main())
