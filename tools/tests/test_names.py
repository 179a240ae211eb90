"""Names of files, folders and keys reach no other language but as data, whatever stands in them."""
import json
import os
import re
import unittest

from bench import Bench, edited, needs

SHORT = edited(("double_cycles = 200", "double_cycles = 8"))
OBSERVER = "[observer]\nresolution_ns = 1\ndrift_ppm = 50\ndelay_from_ns = 0\ndelay_to_ns = 4000\n"
# Names that would run `touch RUN` where a shell, gnuplot or make read them as their own language, and such as stand for markup.
NAMES = ("`touch RUN`", "$(touch RUN)", "a';system('touch RUN');#", 'a";system("touch RUN");#', "@touch", "%s%n", "a b\u00e9_{x}^2~a",
         "<b>&amp;", "|touch RUN", "!touch RUN", "{*a}", "a\\n", "=1+1", "'", "''", "\udcff\udcfe", "'@GPVAL_TERM",
         "\\047@GPVAL_TERM", "\u2192#12", "'\"@GPVAL_TERM")


class Names(Bench):
    def flexlab(self, *words, env=None, **how):
        """A call with a `touch` that leaves RUN where the test looks: gnuplot works in a folder that is gone behind it."""
        os.makedirs(self.path("bin"), exist_ok=True)
        with open(self.path("bin", "touch"), "w", encoding="utf-8") as file:
            file.write(f"#!/bin/sh\n: >'{self.path('RUN')}'\n")
        os.chmod(self.path("bin", "touch"), 0o755)
        return super().flexlab(*words, env={"PATH": self.path("bin") + os.pathsep + os.environ["PATH"], **(env or {})}, **how)

    def no_command_ran(self):
        self.assertEqual([place for place, _, files in os.walk(self.room) if "RUN" in files], [])

    def title(self, *parts):
        return self.read(*parts).replace("&lt;", "<").replace("&gt;", ">").replace("&amp;", "&")

    @needs("gnuplot")
    def test_a_name_is_a_title_and_nothing_else(self):
        """The script of one name is that of another but for the line of the name, in which no sign of gnuplot stands."""
        scripts = set()
        for at, name in enumerate(NAMES):
            with self.subTest(name=name):
                self.write(f"{name}.toml", SHORT)
                self.flexlab("power", "-p", f"{name}.toml", "-o", f"out{at}")
                script = self.read(f"out{at}", "power.gnuplot")
                line, = re.findall(r"^file = .*\n", script, re.M)
                spelt = name.encode("utf-8", "surrogateescape").decode("utf-8", "replace")
                self.assertRegex(line, r'^file = "(?:[\w ._\x80-\U0010ffff-]|\\[01][0-7]{2})*\.toml"\n$')
                scripts.add(script.replace(line, ""))
                self.assertIn(f"Startup of {spelt}.toml", self.title(f"out{at}", "power.svg"))
                self.no_command_ran()
        self.assertEqual(len(scripts), 1)

    @needs("gnuplot")
    def test_pictures_of_each_request(self):
        name = NAMES[0]
        self.write(f"{name}.toml", SHORT)
        self.flexlab("run", "-p", f"{name}.toml")
        self.flexlab("study", f"{name}.toml", "--vary", "node[1].ppm", "--values", "1,2", "--keep", "none", "-o", "study")
        for place in ((f"{name}.lab", "skew"), (f"{name}.lab", "terms"), ("study", "study")):
            self.assertIn(name, self.title(place[0], f"{place[1]}.svg"))
        self.no_command_ran()

    @needs("gnuplot")
    def test_names_of_nodes(self):
        """gnuplot puts in a variable's text for its name behind @ where it takes quotes for closed: what one node is called was so
        a command of another one's text."""
        first, second, *rest = SHORT.split("[[node]]\n")
        for at, (one, other) in enumerate((("'.system('>~/RUN').'", "'@node1"), ("'.system(\">~/RUN\").'", "'@node1"),
                                           ('".system(">~/RUN")."', '"@node1'), ("`>~/RUN`", "'\"@node1"))):
            with self.subTest(one=one, other=other):
                self.write("a.toml", "[[node]]\n".join((first, f"name = {json.dumps(one)}\n{second}",
                                                       f"name = {json.dumps(other)}\n{rest[0]}", *rest[1:])))
                self.flexlab("run", "-p", "a.toml", "-o", f"out{at}", env={"HOME": self.room})
                for name in (one, other):
                    self.assertIn(name, self.title(f"out{at}", "terms.svg"))
                self.no_command_ran()

    @needs("gnuplot")
    @needs("tshark")
    def test_pictures_of_a_capture(self):
        name = NAMES[0]
        self.write("a.toml", SHORT + OBSERVER)
        self.flexlab("pcap", "a.toml", "-o", "sent")
        os.rename(self.path("sent", "sent.pcap"), self.path(f"{name}.pcap"))
        self.flexlab("capture", "-p", f"{name}.pcap", "-o", "taken")
        self.flexlab("observe", "-p", f"{name}.pcap", "a.toml", "-o", "seen", status=(0, 1))
        for place in (("taken", "timing"), ("seen", "observed-skew"), ("seen", "observed-nodes")):
            self.assertIn(name, self.title(place[0], f"{place[1]}.svg"))
        self.no_command_ran()

    @needs("gnuplot")
    def test_a_key_that_is_varied(self):
        key = "`touch RUN`';system('touch RUN');#\\\\"
        self.write("a.toml", SHORT.replace("\n[values]", f'\n[values]\n"{key}" = 1'))
        self.flexlab("study", "a.toml", "--vary", f"values.{key[:-1]}", "--values", "1,2", "--keep", "none", "-o", "study")
        self.assertIn(f"values.{key[:-1]}", self.title("study", "study.svg"))
        self.no_command_ran()

    @needs("gnuplot")
    def test_a_folder_that_begins_like_an_option(self):
        self.write("-a.toml", SHORT)
        self.flexlab("power", "-p", "-o=-x", "--", "-a.toml")
        self.assertIn("Startup of -a.toml", self.read("-x", "power.svg"))
        self.flexlab("run", "-p", "--", "-a.toml")
        self.assertIn("Clock skew of -a.toml", self.read("-a.lab", "skew.svg"))

    def test_a_control_character(self):
        self.write("a\nb.toml", SHORT)
        self.write("a.toml", SHORT)
        for words in (("build", "a\nb.toml"), ("build", "a.toml", "-o", "x\ny"), ("run", "\x1b[2J.toml")):
            err = self.flexlab(*words, status=2)[1]
            self.assertIn("a name with a control character, as a line feed, is not taken: rename it", err)
            self.assertEqual(err.count("\n"), 1)
            self.assertNotIn("\x1b", err)

    def test_what_stands_in_a_file_begins_no_line_and_steers_no_terminal(self):
        for old, new in (('channels = "AB"', 'channels = "\\u001b[2Jx\\nflexlab: all is well"'),
                         ("\n[values]", '\n[values]\n"\\u001b[2J\\nflexlab: all is well" = true'),
                         ("\n[values]", '\n["\\u001b[2J\\nflexlab: all is well"]\n[values]'),
                         ("\n[bench]", '\n[bench]\n"\\u001b[2J\\nflexlab: all is well" = 1')):
            self.write("a.toml", SHORT.replace(old, new, 1))
            err = self.flexlab("build", "a.toml", status=5)[1]
            self.assertNotIn("\x1b", err)
            self.assertNotIn("\nflexlab: all is well", err)
            self.assertIn("\\x1b[2J", err)

    def test_settings_of_the_user_draw_nothing(self):
        """A .gnuplot in the home or the working folder is no part of a picture."""
        self.write(".gnuplot", "system('touch RUN')\n")
        self.write("a.toml", SHORT)
        self.flexlab("power", "-p", "a.toml", env={"HOME": self.room})
        self.no_command_ran()


if __name__ == "__main__":
    unittest.main()
