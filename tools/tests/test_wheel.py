"""The wheel: both packages, the command flexlab, and what flexlab reads beside itself, also where no library is built."""
import importlib.metadata
import os
import subprocess
import sys
import tempfile
import tomllib
import unittest
import zipfile

from bench import EXAMPLE, REPOSITORY
from flexlab.base.version import version
from flexlab.program.stamp import stamp

PYTHON = os.path.join(REPOSITORY, "python")


class Wheel(unittest.TestCase):
    @classmethod
    def setUpClass(cls):
        room = tempfile.TemporaryDirectory()
        cls.addClassCleanup(room.cleanup)
        cls.room, cls.site = room.name, os.path.join(room.name, "site")
        cls.wheel = cls.built("one")
        with zipfile.ZipFile(cls.wheel) as wheel:
            wheel.extractall(cls.site)

    @classmethod
    def built(cls, name):
        folder = os.path.join(cls.room, name)
        os.makedirs(folder)
        ended = subprocess.run([sys.executable, "-B", os.path.join(PYTHON, "build_wheel.py"), folder], capture_output=True, text=True,
                               check=True, env={**os.environ, "FLEXRAY_LIBRARY": os.path.join(folder, "none")})
        return ended.stdout.strip()

    def flexlab(self, *words):
        """What the command of the wheel prints, called as pip installs it."""
        found, = importlib.metadata.distributions(path=[self.site])
        script, = (one for one in found.entry_points if one.group == "console_scripts")
        self.assertEqual(script.name, "flexlab")
        module, name = script.value.split(":")
        program = f"import sys; sys.argv[0] = 'flexlab'; from {module} import {name}; sys.exit({name}())"
        ended = subprocess.run([sys.executable, "-B", "-c", program, *words], capture_output=True, text=True, check=False, cwd=self.room,
                               env={**os.environ, "PYTHONPATH": self.site})
        self.assertEqual((ended.returncode, ended.stderr), (0, ""))
        return ended.stdout

    def test_the_command(self):
        self.assertEqual(self.flexlab("--version"), f"flexlab {version()}\n")
        self.assertEqual(self.flexlab("new", "-"), EXAMPLE)

    def test_which_sources_it_is_of(self):
        with open(os.path.join(self.site, "flexlab", "stamp"), encoding="ascii") as file:
            self.assertEqual(file.read().strip(), stamp())

    def test_all_modules_are_in_it(self):
        names = {os.path.relpath(os.path.join(folder, name), PYTHON)
                 for package in ("flexlab", "flexray") for folder, _, names in os.walk(os.path.join(PYTHON, package))
                 for name in names if name.endswith((".py", ".toml"))}
        with zipfile.ZipFile(self.wheel) as wheel:
            self.assertEqual(names - set(wheel.namelist()), set())

    def test_the_same_files_give_the_same_bytes(self):
        with open(self.wheel, "rb") as one, open(self.built("two"), "rb") as other:
            self.assertEqual(one.read(), other.read())

    def test_the_project_names_the_same_command(self):
        with open(os.path.join(PYTHON, "pyproject.toml"), "rb") as file:
            told = tomllib.load(file)["project"]
        found, = importlib.metadata.distributions(path=[self.site])
        self.assertEqual(told["scripts"], {one.name: one.value for one in found.entry_points})
        self.assertEqual(told["requires-python"], found.metadata["Requires-Python"])


if __name__ == "__main__":
    sys.exit(unittest.main())
