"""The tour and the README: each command of a block that begins with `$` prints what stands below it."""
import os
import re
import subprocess

from bench import FLEXRAY, REPOSITORY, SERIES, TOOLS, Bench, needs_series


def blocks(text):
    """Each block of code of a page, as its lines."""
    return [found.splitlines() for found in re.findall(r"^```\n(.*?)^```$", text, re.M | re.S)]


def calls(lines):
    """The commands of a block, each with the lines that it prints; a command goes on in lines that begin with `>`."""
    found = []
    for line in lines:
        if line.startswith("$ "):
            found.append((line[2:], []))
        elif line.startswith("> ") and not found[-1][1]:
            found[-1] = (found[-1][0] + "\n" + line[2:], [])
        else:
            found[-1][1].append(line)
    return found


class Pages(Bench):
    def setUp(self):
        super().setUp()
        for name in ("tools", "examples", "docs"):
            os.symlink(os.path.join(REPOSITORY, name), self.path(name))
        # What the launcher answers where all is built.
        for name, program in (("flexray", FLEXRAY), ("flexray-series", SERIES)):
            self.write(name, f'#!/bin/sh\nexec "{program}" "$@"\n')
            os.chmod(self.path(name), 0o755)

    def prints(self, command):
        """The lines on standard output; on standard error flexlab says how far it is."""
        env = {**os.environ, "FLEXRAY": FLEXRAY, "FLEXRAY_SERIES": SERIES or "", "FLEXLAB_LIBRARY": "no", "PYTHONDONTWRITEBYTECODE": "1"}
        ended = subprocess.run(["sh", "-c", command], capture_output=True, text=True, check=False, env=env, cwd=self.room,
                               stdin=subprocess.DEVNULL, timeout=300)
        return [line.rstrip() for line in ended.stdout.splitlines()]

    def shows(self, name):
        """Runs the commands of a page one after the other in one folder; how many there are, and the blocks without one."""
        count, bare = 0, []
        with open(os.path.join(REPOSITORY, name), encoding="utf-8") as file:
            for lines in blocks(file.read()):
                if not lines[0].startswith("$ "):
                    bare.append(lines)
                    continue
                for command, wanted in calls(lines):
                    count += 1
                    with self.subTest(command=command):
                        self.assertEqual(self.prints(command), wanted)
        return count, bare

    @needs_series
    def test_the_tour(self):
        count, bare = self.shows("docs/TOUR.md")
        self.assertEqual(bare, [])
        self.assertGreater(count, 10)

    @needs_series
    def test_the_readme(self):
        self.assertGreater(self.shows("README.md")[0], 2)

    def test_commands_and_what_they_print(self):
        lines, = blocks("a\n```\n$ one |\n> two\nthree\n$ four\n> five\n\n> six\n```\n")
        self.assertEqual(calls(lines), [("one |\ntwo", ["three"]), ("four\nfive", ["", "> six"])])
        self.assertEqual(self.prints("ls tools >/dev/null && echo one; echo two >&2"), ["one"])

    def test_the_launcher_is_called_as_it_is_shown(self):
        for name in ("flexray", "flexray-series", "tools/flexlab"):
            self.assertTrue(os.access(os.path.join(os.path.dirname(TOOLS), name), os.X_OK), name)
