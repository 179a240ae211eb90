"""The Debian package: installed under another root it runs, also where there is nothing but libc, its pages are shown, its library
is called from C and Python, and nothing is left where its making is killed; a release of all; and bash completes words."""
import glob
import hashlib
import os
import re
import shutil
import signal
import subprocess
import sys
import tempfile
import time
import unittest

from bench import EXAMPLE, FLEXRAY, REPOSITORY, SERIES, TOOLS, Bench, example_call, needs
from flexlab.program import stamp

with open(FLEXRAY, "rb") as program:
    FLEXRAY_BYTES = program.read()
LIBRARY = os.environ.get("FLEXRAY_LIBRARY_FOLDER") or os.path.join(REPOSITORY, "out", "library")
PAGE = os.environ.get("FLEXRAY_PAGE") or os.path.join(REPOSITORY, "out", "page", "flexray.html")


class Package(Bench):
    """Most tests look at one package, which is made once."""

    @classmethod
    def setUpClass(cls):
        cls.kept = tempfile.mkdtemp(prefix="flexlab-test-")
        cls.addClassCleanup(shutil.rmtree, cls.kept, ignore_errors=True)

    def package(self):
        """The package that is made once."""
        found = glob.glob(os.path.join(self.kept, "*.deb"))
        if not found:
            found = [shutil.move(self.build(), self.kept)]
        return found[0]

    def build(self, env=None):
        ended = subprocess.run([os.path.join(TOOLS, "package"), self.room], capture_output=True, text=True, check=False,
                               env={**os.environ, "FLEXRAY": FLEXRAY, "FLEXRAY_SERIES": SERIES or "", **(env or {})})
        self.assertEqual(ended.returncode, 0, ended.stderr)
        return ended.stdout.strip()

    def field(self, package, name):
        return subprocess.run(["dpkg-deb", "-f", package, name], capture_output=True, text=True, check=True).stdout

    def bare(self):
        """A root that has the package, a shell and the libraries of both, and nothing else."""
        root = self.path("bare")
        subprocess.run(["dpkg-deb", "-x", self.package(), root], check=True)
        wanted = {"/bin/sh": os.path.realpath("/bin/sh")}
        programs = [os.path.join(root, "usr/lib/flexray", name) for name in os.listdir(os.path.join(root, "usr/lib/flexray"))]
        for program in (wanted["/bin/sh"], *programs):
            told = subprocess.run(["ldd", program], capture_output=True, text=True, check=True).stdout
            wanted.update((path, path) for path in re.findall(r"(/\S+) \(0x", told))
        for path, whence in wanted.items():
            os.makedirs(root + os.path.dirname(path), exist_ok=True)
            shutil.copy2(os.path.realpath(whence), root + path)
        return root

    def in_root(self, root, *words, limits="", env=None):
        ended = subprocess.run(["sh", "-c", f'{limits} exec chroot "$@"', "sh", root, *words], capture_output=True, text=True, check=False,
                               env={"PATH": "/usr/bin:/bin:/usr/sbin:/sbin", **(env or {})})
        return ended.returncode, ended.stdout, ended.stderr

    def install(self):
        """Installs by dpkg where this is root, else unpacks."""
        root, package = self.path("root"), self.package()
        os.makedirs(os.path.join(root, "var/lib/dpkg/info"))
        os.makedirs(os.path.join(root, "var/lib/dpkg/updates"))
        open(os.path.join(root, "var/lib/dpkg/status"), "w", encoding="ascii").close()
        words = (["dpkg", f"--root={root}", "--force-depends", "-i", package] if os.getuid() == 0
                 else ["dpkg-deb", "-x", package, root])
        subprocess.run(words, check=True, capture_output=True)
        return root

    def installed(self, root, *words):
        env = {name: value for name, value in os.environ.items() if name != "FLEXRAY"}
        env["PATH"] = os.path.join(root, "usr/bin") + ":/usr/bin:/bin"
        ended = subprocess.run(words, capture_output=True, text=True, check=False, cwd=self.room, env=env)
        self.assertEqual(ended.returncode, 0, ended.stderr)
        return ended.stdout

    @needs("dpkg-deb")
    def test_installed_programs_run(self):
        root = self.install()
        self.write("a.toml", EXAMPLE)
        self.assertEqual(self.installed(root, "flexlab", "new", "b.toml"), "b.toml: written; next: flexlab run b.toml\n")
        page = self.one_line(self.installed(root, os.path.join(root, "usr/bin/flexlab"), "run", "a.toml"))
        self.assertIn("and still in sync at the end", page)
        examples = os.path.join(root, "usr/share/doc/flexray/examples")
        printed = self.installed(root, os.path.join(root, "usr/bin/flexray"), "bound",
                                 os.path.join(examples, "reference/params.csv"))
        with open(os.path.join(REPOSITORY, "examples/reference/bound/printed.txt"), encoding="ascii") as file:
            self.assertEqual(printed, file.read())
        for name in ("README.md", "docs/FORMATS.md", "docs/FLEXLAB.md", "docs/GLOSSARY.md", "docs/skew.svg"):
            self.assertTrue(os.path.exists(os.path.join(root, "usr/share/doc/flexray", name)), name)

    @needs("dpkg-deb")
    @needs("cc")
    @needs("pkg-config")
    @unittest.skipUnless(os.path.exists(os.path.join(LIBRARY, "lib", "libflexray.a")), "tools/library has not built the library")
    def test_the_library_is_called(self):
        """The C program and the Python script of the examples run a cluster by what the package has."""
        root = self.install()
        lib, = (os.path.dirname(path) for path in glob.glob(os.path.join(root, "usr/lib/*/libflexray.a")))
        examples = os.path.join(root, "usr/share/doc/flexray/examples")
        env = {**os.environ, "PKG_CONFIG_PATH": os.path.join(lib, "pkgconfig"), "PKG_CONFIG_SYSROOT_DIR": root,
               "LD_LIBRARY_PATH": lib, "PYTHONPATH": os.path.join(root, "usr/lib/python3/dist-packages"), "PYTHONDONTWRITEBYTECODE": "1"}
        env.pop("FLEXRAY_LIBRARY", None)
        flags = subprocess.run(["pkg-config", "--cflags", "--libs", "flexray"], capture_output=True, text=True, check=True, env=env)
        ended = subprocess.run(["cc", os.path.join(examples, "c/run.c"), *flags.stdout.split(), "-o", self.path("run")],
                               capture_output=True, text=True, check=False)
        self.assertEqual(ended.returncode, 0, ended.stderr)
        bench = os.path.join(examples, "bench")
        for words in ([self.path("run"), *(os.path.join(bench, f"{name}.csv") for name in ("params", "drift", "script"))],
                      [sys.executable, os.path.join(examples, "python/run.py")]):
            ended = subprocess.run(words, capture_output=True, text=True, check=False, env=env, cwd=self.room)
            with open(os.path.join(bench, "run", "printed.txt"), encoding="ascii") as file:
                self.assertEqual((ended.stdout, ended.stderr, ended.returncode), (file.read(), "", 0))

    @needs("dpkg-deb")
    @unittest.skipUnless(os.path.exists(PAGE), "tools/page has not built the page")
    def test_the_page_is_in_it(self):
        with open(os.path.join(self.install(), "usr/share/doc/flexray/flexray.html"), "rb") as packed, open(PAGE, "rb") as built:
            self.assertEqual(packed.read(), built.read())

    @needs("dpkg-deb")
    @needs("chroot")
    @unittest.skipUnless(os.getuid() == 0, "another root is for root alone")
    @unittest.skipIf(b"__asan_init" in FLEXRAY_BYTES, "a program with a sanitizer needs /proc")
    def test_it_runs_where_there_is_neither_python_nor_the_toolchain(self):
        root = self.bare()
        examples = "/usr/share/doc/flexray/examples"
        offset = [f"{examples}/offset/{name}.csv" for name in ("params", "drift", "script")]
        with open(os.path.join(REPOSITORY, "examples/offset/run/printed.txt"), encoding="ascii") as file:
            printed = file.read()
        self.assertEqual(self.in_root(root, "/usr/bin/flexray", "run", *offset), (0, printed, ""))
        self.assertEqual(self.in_root(root, "flexray", "run", *offset), (0, printed, ""))
        self.assertEqual(self.in_root(root, "/usr/bin/flexray", "run", offset[0], "/none", "/none"), (3, "", "drift: read fault\n"))
        self.assertEqual(self.in_root(root, "/usr/bin/flexray", "walk"), (2, "", "usage: flexray COMMAND WORDS\n"))
        version = self.in_root(root, "/usr/bin/flexray", "--version")
        with open(os.path.join(REPOSITORY, "VERSION"), encoding="ascii") as file:
            self.assertEqual(version, (0, f"flexray {file.read()}", ""))
        if SERIES:
            status, text, _ = self.in_root(root, "/usr/bin/flexray-series", *offset)
            self.assertEqual((status, text.splitlines()[0]), (0, "cycle,in_sync,skew,macrotick"))
        status, text, told = self.in_root(root, "/usr/bin/flexlab", "new", "/mine.toml")
        self.assertEqual((status, text), (4, ""))
        self.assertIn("there is no /usr/bin/python3: the Debian package is python3", told)

    @needs("dpkg-deb")
    @needs("chroot")
    @unittest.skipUnless(os.getuid() == 0, "another root is for root alone")
    @unittest.skipIf(b"__asan_init" in FLEXRAY_BYTES, "a program with a sanitizer needs more")
    def test_little_stack_is_told(self):
        """Where the stack may not grow as far as a command needs it to, or little may be had at all, that is told by a status."""
        root = self.bare()
        words = ["/usr/bin/flexray", "make", "7", "1"]
        fine = self.in_root(root, *words)
        self.assertEqual(fine[0], 0)
        told = (6, "", "no memory\n")
        for kib in (64, 128, 200, 256, 300, 400, 511):
            self.assertEqual(self.in_root(root, *words, limits=f"ulimit -s {kib};"), told, kib)
        for limits in ("ulimit -s 512;", "ulimit -S -s 128;", "ulimit -s unlimited;"):
            self.assertEqual(self.in_root(root, *words, limits=limits), fine, limits)
        self.assertEqual(self.in_root(root, *words, limits="ulimit -v 4000;"), told)
        seen = {self.in_root(root, *words, limits=f"ulimit -v {kib};")[0] for kib in range(4096, 6144, 128)}
        self.assertLessEqual(seen, {0, 6})

    @needs("dpkg-deb")
    def test_help_is_that_of_the_program(self):
        root = self.path("root")
        subprocess.run(["dpkg-deb", "-x", self.package(), root], check=True)
        for name in ("flexray", *["flexray-series"] * bool(SERIES)):
            told = self.installed(root, os.path.join(root, "usr/bin", name), "--help")
            self.assertTrue(told.startswith(f"usage: {name} "), told)
            self.assertNotIn("tools/", told)
            self.assertNotIn("build", told)
            self.assertIn(f"  {name} {'run ' * (name == 'flexray')}PARAMS DRIFT SCRIPT sharp\n", told)
        self.assertEqual(self.installed(root, os.path.join(root, "usr/bin/flexray"), "--help"), self.installed(root, FLEXRAY, "help"))

    @needs("dpkg-deb")
    def test_it_says_what_is_in_it(self):
        """Without library and page it has neither in its description, no module that could not be called, and tells so."""
        none = {"FLEXRAY_LIBRARY_FOLDER": self.path("none"), "FLEXRAY_PAGE": self.path("none")}
        package = self.build(none)
        told = self.field(package, "Description")
        self.assertNotIn("libflexray", told)
        self.assertNotIn("page of one file", told)
        self.assertNotIn("python3", self.field(package, "Depends"))
        self.assertIn("python3 (>= 3.11)", self.field(package, "Recommends"))
        listed = subprocess.run(["dpkg-deb", "-c", package], capture_output=True, text=True, check=True).stdout
        self.assertNotIn("dist-packages", listed)
        self.assertIn("share/flexray/python/flexray/texts.py", listed)
        self.assertNotIn("libflexray", listed)
        ended = subprocess.run([os.path.join(TOOLS, "package"), self.room], capture_output=True, text=True, check=False,
                               env={**os.environ, "FLEXRAY": FLEXRAY, **none})
        self.assertIn("left out: the C library and the Python module, which tools/library builds", ended.stderr)
        self.assertIn("left out: the page, which tools/page builds", ended.stderr)

    @needs("dpkg-deb")
    @needs("cc")
    def test_a_library_of_other_sources_is_refused(self):
        lib = self.path("library", "lib")
        os.makedirs(lib)
        self.write("a.c", "int flexray_version(void) { return 0; }\n")
        subprocess.run(["cc", "-shared", "-fPIC", "-Wl,--build-id=0x" + "5a" * 20, self.path("a.c"), "-o", f"{lib}/libflexray.so.0"], check=True)
        self.write("library/lib/libflexray.a", "")
        ended = subprocess.run([os.path.join(TOOLS, "package"), self.room], capture_output=True, text=True, check=False,
                               env={**os.environ, "FLEXRAY": FLEXRAY, "FLEXRAY_LIBRARY_FOLDER": self.path("library")})
        self.assertEqual((ended.returncode, ended.stdout), (4, ""))
        self.assertIn("is not of these sources", ended.stderr)

    @needs("dpkg-deb")
    def test_nothing_is_left_where_it_is_killed(self):
        """Killed at any moment there is a whole package or none, and no folder."""
        os.makedirs(self.path("tmp"))
        os.makedirs(self.path("to"))
        env = {**os.environ, "FLEXRAY": "/bin/true", "FLEXRAY_SERIES": "", "FLEXRAY_LIBRARY_FOLDER": self.path("none"),
               "FLEXRAY_PAGE": self.path("none"), "TMPDIR": self.path("tmp")}
        words = [os.path.join(TOOLS, "package"), self.path("to")]
        begun = time.monotonic()
        ended = subprocess.run(words, capture_output=True, text=True, check=True, env=env)
        whole, path = time.monotonic() - begun, ended.stdout.strip()
        with open(path, "rb") as file:
            kept = file.read()
        for part in range(6):
            if os.path.exists(path):
                os.remove(path)
            process = subprocess.Popen(words, stdout=subprocess.DEVNULL, stderr=subprocess.DEVNULL, env=env, start_new_session=True)
            time.sleep(whole * (0.3 + 0.14 * part))
            os.killpg(process.pid, signal.SIGKILL)
            process.wait()
            found = os.listdir(self.path("to"))
            self.assertIn(found, ([], [os.path.basename(path)]))
            if found:
                with open(path, "rb") as file:
                    self.assertEqual(file.read(), kept)
            self.assertEqual(os.listdir(self.path("tmp")), [])

    @needs("dpkg-deb")
    def test_it_depends_on_what_its_libraries_are_of(self):
        """Another package has libraries of the same name, as libc6-i386 has, and is told first where only the name is asked."""
        os.makedirs(self.path("bin"))
        self.write("bin/dpkg", f"""#!/bin/sh
case "$*" in
    "-S "*"*"*) echo "libc6-i386: /lib32/libc.so.6" ;;
esac
exec {shutil.which("dpkg")} "$@"
""")
        os.chmod(self.path("bin/dpkg"), 0o755)
        package = self.build({"PATH": self.path("bin") + ":" + os.environ["PATH"]})
        told = subprocess.run(["dpkg-deb", "-f", package, "Depends"], capture_output=True, text=True, check=True).stdout
        self.assertIn("libc6 (>= ", told)
        self.assertNotIn("i386", told)

    @needs("dpkg-deb")
    @needs("man")
    def test_manual_pages_are_shown(self):
        root = self.install()
        for name in ("flexray", "flexlab"):
            ended = subprocess.run(["man", "-P", "cat", name], capture_output=True, text=True, check=False,
                                   env={**os.environ, "MANPATH": os.path.join(root, "usr/share/man")})
            self.assertEqual(ended.returncode, 0, ended.stderr)
            self.assertIn("EXIT STATUS", ended.stdout)
            self.assertTrue(ended.stdout.startswith(name.upper()))

    @needs("dpkg-deb")
    def test_a_package_is_the_same_twice(self):
        with open(self.package(), "rb") as first, open(self.build(), "rb") as second:
            self.assertEqual(first.read(), second.read())

    def test_wrong_words(self):
        package = os.path.join(TOOLS, "package")
        for words, status in ((["--help"], 0), (["--fast"], 2), (["a", "b"], 2), ([self.path("none")], 3)):
            ended = subprocess.run([package, *words], capture_output=True, text=True, check=False,
                                   env={**os.environ, "FLEXRAY": FLEXRAY})
            self.assertEqual(ended.returncode, status, words)
        ended = subprocess.run([package], capture_output=True, text=True, check=False, cwd=self.room,
                               env={**os.environ, "FLEXRAY": self.path("none")})
        self.assertEqual(ended.returncode, 4)


@needs("git")
@needs("dpkg")
@needs("cc")
class Release(Bench):
    """A release of a repository that is like this one, with stand-ins of what is built but for the program."""

    def setUp(self):
        super().setUp()
        self.top = self.path("repository")
        os.makedirs(self.top)
        for name in ("README.md", "CHANGELOG.md", "CONTRIBUTING.md", "VERSION", "TOOLCHAIN", "HANDLES", ".gitignore", "crates.txt", "flexray", "flexray-series"):
            shutil.copy2(os.path.join(REPOSITORY, name), self.top)
        for name in ("docs", "examples", "include", "page", "python", "tools"):
            shutil.copytree(os.path.join(REPOSITORY, name), os.path.join(self.top, name), symlinks=True,
                            ignore=shutil.ignore_patterns("__pycache__", "tests", "edits", ".lab"))
        for words in (["init", "-q"], ["add", "-A"], ["-c", "user.name=a", "-c", "user.email=a@b", "commit", "-q", "-m", "all"]):
            subprocess.run(["git", *words], cwd=self.top, check=True, env=self.env())
        with open(os.path.join(REPOSITORY, "tools", "programs"), encoding="ascii") as file:
            rows = [line.split("#")[0].split() for line in file]
        for called, name in {(row[0], row[2]) for row in rows if row}:
            program = (SERIES or FLEXRAY) if called == "flexray-series" else FLEXRAY
            os.makedirs(os.path.join(self.top, "crates", name, "out"))
            shutil.copyfile(program, os.path.join(self.top, "crates", name, "out", name))
            os.chmod(os.path.join(self.top, "crates", name, "out", name), 0o755)
        out = os.path.join(self.top, "out")
        for part in ("library/lib/pkgconfig", "library/include", "page"):
            os.makedirs(os.path.join(out, part))
        self.write("a.c", "int flexray_version(void) { return 0; }\n")
        self.shared(stamp.stamp(self.top))
        for name, text in (("library/lib/libflexray.a", "archive"), ("library/include/flexray.h", "/* header */\n"), ("page/flexray.html", "page"),
                           ("library/lib/pkgconfig/flexray.pc", "prefix=${pcfiledir}/../..\nlibdir=${prefix}/lib\n")):
            self.write(os.path.join("repository", "out", name), text)
        subprocess.run([sys.executable, "-B", os.path.join(self.top, "python", "build_wheel.py"), os.path.join(out, "library"),
                        os.path.join(out, "library/lib/libflexray.so.0")], check=True, stdout=subprocess.DEVNULL)

    def env(self):
        return {**{key: value for key, value in os.environ.items() if not key.startswith(("FLEXRAY", "GIT_"))}, "HOME": self.room}

    def shared(self, build):
        subprocess.run(["cc", "-shared", "-fPIC", f"-Wl,--build-id=0x{build}", self.path("a.c"), "-o",
                        os.path.join(self.top, "out/library/lib/libflexray.so.0")], check=True)

    def release(self, *words, status=0):
        ended = subprocess.run([os.path.join(self.top, "tools", "release"), *words], capture_output=True, text=True, check=False, env=self.env(),
                               cwd=self.room)
        self.assertEqual(ended.returncode, status, ended.stdout + ended.stderr)
        self.assertNotIn("Traceback", ended.stderr)
        return ended.stdout + ended.stderr

    def passed(self, commit, left, status=0):
        ended = subprocess.run([os.path.join(self.top, "tools", "release"), "--passed", commit], input=left, capture_output=True, text=True,
                               check=False, env=self.env())
        self.assertEqual(ended.returncode, status, ended.stderr)

    def commit(self):
        return subprocess.run(["git", "rev-parse", "HEAD"], cwd=self.top, capture_output=True, text=True, check=True).stdout.strip()

    def test_it_is_the_same_twice_and_runs_where_it_is_unpacked(self):
        self.release("one")
        self.release("two")
        names = sorted(os.listdir(self.path("one")))
        self.assertEqual(names, sorted(os.listdir(self.path("two"))))
        for name in names:
            with open(self.path("one", name), "rb") as first, open(self.path("two", name), "rb") as second:
                self.assertEqual(first.read(), second.read(), name)
        subprocess.run(["sha256sum", "--quiet", "--strict", "-c", "SHA256SUMS"], cwd=self.path("one"), check=True)
        self.assertEqual(len(self.read("one", "SHA256SUMS").splitlines()), len(names) - 1)
        page = self.read("one", "RELEASE.md")
        self.assertIn(f"**Commit** `{self.commit()}`", page)
        self.assertIn("That the gate passed is not known", page)
        with open(os.path.join(REPOSITORY, "TOOLCHAIN"), encoding="ascii") as file:
            self.assertIn(f"**Toolchain** `{file.read().strip()}`", page)
        tar, = (name for name in names if name.endswith(".tar.gz"))
        os.makedirs(self.path("any where"))
        subprocess.run(["tar", "xf", self.path("one", tar)], cwd=self.path("any where"), check=True)
        top = self.path("any where", tar.removesuffix(".tar.gz"))
        env = {**self.env(), "PATH": os.path.join(top, "bin") + ":" + os.environ["PATH"]}
        for name in ("reference/bound", "offset/run"):
            one = example_call(name)
            ended = subprocess.run(["flexray", *one.words], capture_output=True, text=True, check=False, env=env, cwd=one.folder)
            self.assertEqual((ended.returncode, ended.stdout, ended.stderr), (0, one.text.decode(), ""))
        self.write("a.toml", EXAMPLE)
        os.symlink(os.path.join(top, "bin", "flexlab"), self.path("linked"))
        for flexlab in ("flexlab", self.path("linked")):
            ended = subprocess.run([flexlab, "run", "a.toml"], capture_output=True, text=True, check=False, env={**env, "FLEXRAY_SERIES": ""},
                                   cwd=self.room)
            self.assertEqual((ended.returncode, ended.stderr), (0, ""))
            self.assertIn("and still in sync at the end", self.one_line(ended.stdout))
        for path in ("lib/libflexray.a", "lib/libflexray.so", "include/flexray.h", "share/man/man1/flexray.1.gz", "share/man/man3/libflexray.3.gz",
                     "share/doc/flexray/flexray.html", "share/flexray/python/flexray/library.py", "RELEASE.md"):
            self.assertTrue(os.path.exists(os.path.join(top, path)), path)

    def test_what_is_known_of_the_gate(self):
        """That it passed is said where a file says it of this commit, and of these files, and nowhere else."""
        passed = self.path("repository", "out", "passed.txt")
        self.passed("0" * 40, "", status=1)
        self.assertFalse(os.path.exists(passed))
        self.passed(self.commit(), "")
        lines = self.read("repository", "out", "passed.txt").splitlines(keepends=True)
        tried = [line for line in lines if line.startswith("tried ")]
        self.assertEqual([line.split()[2] for line in tried], ["flexray", "flexray-series", "libflexray.so.0", "libflexray.a", "flexray.html"])
        self.write("repository/out/passed.txt", "".join(lines[:1]) + "kit a kit\n" + "".join(tried))
        self.release("whole")
        self.assertIn("`.ci/run` passed on this commit, by `a kit`. What it tried are these very files", self.read("whole", "RELEASE.md"))
        self.assertIn("It left nothing out.", self.read("whole", "RELEASE.md"))
        other = self.write("other.txt", f"commit {self.commit()}\n" + "".join(tried[1:]) + "left out the page in a browser\n")
        self.release("--gate", other, "part")
        page = self.read("part", "RELEASE.md")
        self.assertIn("not tried by it byte for byte: `flexray`.", page)
        self.assertIn("It left out:\n\n- the page in a browser", page)
        self.write("other.txt", "commit " + "5a" * 20 + "\n")
        self.assertIn("it speaks of 5a5a", self.release("--gate", other, "none", status=1))
        self.assertFalse(os.path.exists(self.path("none")))
        shutil.copy(other, passed)
        self.release("stale")
        self.assertIn("That the gate passed on this commit is not known", self.read("stale", "RELEASE.md"))
        self.release("--gate", self.path("nothing"), "none", status=3)
        self.passed(self.commit(), "the page in a browser\n\n3 tests of test_page\n")
        self.release("left")
        self.assertIn("It left out:\n\n- the page in a browser\n- 3 tests of test_page\n", self.read("left", "RELEASE.md"))

    def test_what_is_not_of_a_commit_is_refused(self):
        self.write("repository/docs/more.md", "more\n")
        self.assertIn("not as committed: docs/more.md", self.release("none", status=1))
        os.remove(self.path("repository/docs/more.md"))
        self.shared("5a" * 20)
        self.assertIn("not built of this commit: C library", self.release("none", status=4))
        self.shared(stamp.stamp(self.top))
        os.remove(self.path("repository/out/page/flexray.html"))
        # What is missing is built by the launcher, which wants the toolchain.
        env = {**self.env(), "PATH": "/usr/bin:/bin"}
        ended = subprocess.run([sys.executable, os.path.join(self.top, "tools", "release"), "--build", "none"], capture_output=True, text=True,
                               check=False, env=env, cwd=self.room)
        if not shutil.which("rt", path=env["PATH"]):
            self.assertEqual((ended.returncode, ended.stdout), (1, ""), ended.stderr)
            self.assertIn("./flexray --build ended with status", ended.stderr)
        self.assertIn("not built of this commit: page", self.release("none", status=4))
        self.assertEqual([name for name in os.listdir(self.room) if "none" in name], [])

    def test_wrong_words(self):
        for words, status in ((["--help"], 0), (["--version"], 0), ([], 2), (["a", "b"], 2), (["--fast", "a"], 2), (["--gate"], 2),
                              ([self.path("repository")], 3), ([self.path("none", "deep")], 3)):
            self.release(*words, status=status)

    def test_nothing_is_left_where_it_is_killed(self):
        process = subprocess.Popen([os.path.join(self.top, "tools", "release"), "out"], cwd=self.room, env=self.env(), start_new_session=True,
                                   stdout=subprocess.DEVNULL, stderr=subprocess.DEVNULL)
        for _ in range(600):
            rooms = [name for name in os.listdir(self.room) if name.startswith(".out.")]
            if rooms or process.poll() is not None:
                break
            time.sleep(0.05)
        os.killpg(process.pid, signal.SIGKILL)
        process.wait()
        self.assertEqual(len(rooms), 1)
        self.assertFalse(os.path.exists(self.path("out")))
        self.release("out")
        self.assertEqual([name for name in os.listdir(self.room) if "out" in name], ["out"])


class Completion(Bench):
    def complete(self, name, *words):
        script = (f". {TOOLS}/completion/{name}\nCOMP_WORDS=({' '.join(repr(word) for word in words)})\n"
                  f"COMP_CWORD={len(words) - 1}\n_{name}\nprintf '%s\\n' \"${{COMPREPLY[@]}}\"\n")
        ended = subprocess.run(["bash", "-c", script], capture_output=True, text=True, check=False, cwd=self.room)
        return ended.stdout.split()

    def test_requests_options_and_files(self):
        self.write("mine.toml", "")
        self.assertEqual(self.complete("flexlab", "flexlab", "st"), ["study"])
        self.assertEqual(self.complete("flexlab", "flexlab", "study", "--va"), ["--vary", "--values"])
        self.assertEqual(self.complete("flexlab", "flexlab", "run", "mi"), ["mine.toml"])
        self.assertEqual(self.complete("flexlab", "flexlab", "explain", "t"), ["trace"])

    def test_every_request_and_option_is_completed(self):
        requests = self.requests()
        self.assertLessEqual({"run", "study", "import", "export", "design", "case", "observe"}, set(requests))
        self.assertEqual(set(self.complete("flexlab", "flexlab", "")) - set(requests) - {"-h", "--help", "-V", "--version"}, set())
        for request in requests:
            self.assertIn(request, self.complete("flexlab", "flexlab", ""))
            missing = self.options(request) - set(self.complete("flexlab", "flexlab", request, "--"))
            self.assertFalse(missing, request)

    def test_every_request_and_option_is_in_the_manual_page(self):
        with open(os.path.join(REPOSITORY, "docs", "flexlab.1"), encoding="utf-8") as file:
            page = file.read().replace("\\-", "-")
        for request in self.requests():
            self.assertRegex(page, rf'(?m)^\.BI? "?flexlab {request}\b', request)
            missing = [option for option in self.options(request) if not re.search(rf"{option}(?![\w-])", page)]
            self.assertFalse(missing, request)

    def requests(self):
        """All requests of flexlab, as its help has them."""
        return re.search(r"\{([\w,]+)\}", self.flexlab("--help")[0])[1].split(",")

    def options(self, request):
        """The long options of a request, as its help has them."""
        text = self.flexlab(request, "--help")[0].split("exit statuses")[0]
        return set(re.findall(r"(?m)^  (?:-\w(?: [\w.-]+)?, )?(--[a-z][a-z-]*)", text))


if __name__ == "__main__":
    unittest.main()
