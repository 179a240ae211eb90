"""The C library: callers in C over every example, small places, no memory, threads, the stack; and that header, pkg-config file
and shared object fit each other. What tools/library wrote into out/library is tried; FLEXRAY_LIBRARY_FOLDER names another folder."""
import os
import re
import shutil
import signal
import subprocess
import time
import tomllib
import unittest
import zipfile

from bench import REPOSITORY, TOOLS, Bench, example_call, example_calls
from flexlab.program import stamp
from flexray import library

FOLDER = os.environ.get("FLEXRAY_LIBRARY_FOLDER") or os.path.join(REPOSITORY, "out", "library")
ARCHIVE = os.path.join(REPOSITORY, "crates", "flexray_c", "out", "libflexray_c.a")
ARCHIVE = os.path.join(FOLDER, "lib", "libflexray.a")
HEADER = os.path.join(FOLDER, "include", "flexray.h")
SHARED = os.path.join(FOLDER, "lib", "libflexray.so")
CALLER = os.path.join(TOOLS, "tests", "c", "caller.c")
EXAMPLES = os.path.join(REPOSITORY, "examples")
STRICT = ["-Wall", "-Wextra", "-Wpedantic", "-Werror"]
MOST_STACK = 640 * 1024


def version():
    with open(os.path.join(REPOSITORY, "VERSION"), encoding="utf-8") as file:
        return file.read().strip()


def read(path, default=b""):
    if not os.path.exists(path):
        return default
    with open(path, "rb") as file:
        return file.read()


def spelt(call):
    """The words of a call of examples/, that of its program before them where it is the second one."""
    return ["flexray-series", *call.words] if call.is_series else call.words


def built(*words):
    """Calls a compiler."""
    return subprocess.run(words, capture_output=True, text=True, check=False)


def sanitizes(compiler):
    """Whether this compiler links what looks for addresses and undefined behaviour."""
    if not shutil.which(compiler):
        return False
    ended = subprocess.run([compiler, "-fsanitize=address,undefined", "-x", "c", "-", "-o", "/dev/null"], input="int main(void) { return 0; }",
                           capture_output=True, text=True, check=False)
    return ended.returncode == 0


def own_calls():
    """What the caller includes: for each request of the table its call, with the files, the channel and the numbers among its words."""
    with open(os.path.join(TOOLS, "commands.toml"), "rb") as file:
        table = tomllib.load(file)
    for request in table["request"]:
        forms, given, files = request["words"].split(), [], iter(("FIRST", "SECOND", "THIRD"))
        tests = [f"is_series == {int('program' in request)}", f"count == {len(forms)}"]
        for place, form in enumerate(forms):
            word = f"given[{place}]"
            if form == "A|B":
                given.append(f"CHANNEL({word})")
            elif form not in table["words"]:
                tests.append(f'!strcmp({word}, "{form}")')
            elif table["words"][form]["is"] == "number":
                tests.append(f"IS_NUMBER({word})")
                given.append(f"number({word})")
            else:
                given.append(next(files))
        if "call" in request:
            yield f"    if ({' && '.join(tests)}) return {request['call']}({', '.join([*given, 'PLACES'])});\n"


@unittest.skipUnless(shutil.which("cc"), "there is no C compiler cc")
@unittest.skipUnless(os.path.exists(ARCHIVE), "tools/library has not built the library")
class Library(Bench):
    def setUp(self):
        super().setUp()
        self.write("calls.h", "".join(own_calls()))

    def compile(self, *words, compiler="cc"):
        """A caller that is compiled with these words."""
        caller = self.path("caller")
        ended = built(compiler, "-std=c11", "-O1", "-g", *STRICT, f"-I{os.path.dirname(HEADER)}", f"-I{self.room}", CALLER, ARCHIVE,
                      "-pthread", *words, "-o", caller)
        self.assertEqual(ended.returncode, 0, ended.stderr)
        return caller

    def call(self, caller, how, words=(), folder=None, **env):
        return subprocess.run([caller, how, *words], capture_output=True, check=False, cwd=folder, timeout=600, env={**os.environ, **env})

    def fine(self, ended):
        self.assertEqual((ended.returncode, ended.stderr), (0, b""))
        return ended.stdout.decode()

    def every_example(self, caller, how):
        count = 0
        for one in example_calls():
            ended = self.call(caller, how, spelt(one), one.folder)
            self.assertEqual((ended.returncode, ended.stdout, ended.stderr), (one.status, one.text, one.line), one.name)
            count += 1
        self.assertGreater(count, 30)

    def test_every_example_by_its_words(self):
        self.every_example(self.compile(), "request")

    def test_every_example_by_its_own_call(self):
        self.every_example(self.compile(), "typed")

    def test_every_example_by_the_shared_object(self):
        caller = self.path("caller")
        ended = built("cc", "-std=c11", *STRICT, f"-I{os.path.dirname(HEADER)}", f"-I{self.room}", CALLER, f"-L{os.path.dirname(ARCHIVE)}",
                      f"-Wl,-rpath,{os.path.dirname(ARCHIVE)}", "-Wl,-Bdynamic", "-lflexray", "-pthread", "-o", caller)
        self.assertEqual(ended.returncode, 0, ended.stderr)
        self.every_example(caller, "typed")

    def test_sanitized(self):
        compiler = next((one for one in ("cc", "clang") if sanitizes(one)), None)
        if compiler is None:
            self.skipTest("no compiler has the sanitizers of addresses and of undefined behaviour")
        caller = self.compile("-fsanitize=address,undefined", "-fno-sanitize-recover=all", compiler=compiler)
        for one in example_calls():
            ended = self.call(caller, "typed", spelt(one), one.folder, ASAN_OPTIONS="detect_leaks=0")
            self.assertEqual((ended.returncode, ended.stdout, ended.stderr), (one.status, one.text, one.line), one.name)
        for name in ("offset/run", "offset/breach", "frame/capture"):
            one = example_call(name)
            self.assertEqual(self.fine(self.call(caller, "places", spelt(one), one.folder, ASAN_OPTIONS="detect_leaks=0")), "37 rooms\n")
        self.fine(self.call(caller, "bad", ASAN_OPTIONS="detect_leaks=0"))

    def test_nothing_of_a_call_stays(self):
        """Every block that a call takes is freed, also where memory ran out: found by the sanitizer of leaks."""
        if not sanitizes("cc"):
            self.skipTest("cc has no sanitizers")
        self.write("leak.c", """#include <flexray.h>
int main(void) {
    static uint8_t out[100000], err[100];
    flexray_texts texts;
    return flexray_make(7, 3, out, sizeof out, err, sizeof err, &texts) != FLEXRAY_DONE || texts.out_length == 0;
}
""")
        ended = built("cc", *STRICT, "-fsanitize=address", f"-I{os.path.dirname(HEADER)}", self.path("leak.c"), ARCHIVE, "-o", self.path("leak"))
        self.assertEqual(ended.returncode, 0, ended.stderr)
        ended = built(self.path("leak"))
        if "LeakSanitizer has encountered a fatal error" in ended.stderr:
            self.skipTest("the sanitizer of leaks does not run here")
        self.assertEqual((ended.returncode, ended.stdout + ended.stderr), (0, ""))

    def test_places_of_every_room(self):
        caller = self.compile()
        for one in example_calls():
            if one.name not in ("make/long", "sharp/walk", "worst/bench", "bench/run"):
                self.assertEqual(self.fine(self.call(caller, "places", spelt(one), one.folder)), "37 rooms\n", one.name)

    def test_eight_threads(self):
        caller = self.compile()
        for name in ("offset/run", "offset/breach", "frame/capture", "sharp/series"):
            one = example_call(name)
            self.assertEqual(self.fine(self.call(caller, "threads", spelt(one), one.folder)), "8 threads\n", name)

    def test_stack(self):
        caller = self.compile()
        for one in example_calls():
            used = int(self.fine(self.call(caller, "stack", spelt(one), one.folder)))
            self.assertLess(used, MOST_STACK // 2, f"{one.name}: half of what the header says stays free")

    def test_no_memory(self):
        """As many blocks as a call needs, and every number below: 6, with no text, and at most a line."""
        caller = self.compile("-DCOUNTS_BLOCKS", "-Wl,--wrap=malloc", "-Wl,--wrap=realloc")
        for name in ("offset/run", "frame/frame", "offset/breach", "frame/capture", "frame/nm", "reference/cold", "reference/settle",
                     "offset/series", "sharp/series", "reference/upgrade", "make/short", "offset/check", "joins/trace", "observe/observe"):
            one = example_call(name)
            blocks = int(self.fine(self.call(caller, "memory", spelt(one), one.folder)))
            self.assertGreater(blocks, 5, name)

    def test_bad_words_bytes_and_places(self):
        usage = "usage: flexray COMMAND WORDS"
        told = self.fine(self.call(self.compile(), "bad")).splitlines()
        self.assertEqual(told[:8], [
            f"2 0 {usage}", f"2 0 {usage}", f"2 0 {usage}",  # no words, and an empty one
            told[3], f"2 0 {usage}",  # a line feed at the end is not needed, and a second one is a word
            "3 0 params: read fault",  # no file is called so
            f"2 0 {usage}",  # no UTF-8
            "3 0 params: read fault",
        ])
        self.assertRegex(told[3], "^5 0 params: ")
        for line, start in zip(told[8:13], ("5 0 params: ", "5 0 params: ", "1 0 ", "1 0 frame: ", f"2 0 {usage}"), strict=True):
            self.assertTrue(line.startswith(start) or line.startswith("0 "), line)
        self.assertTrue(told[13].startswith("2 0 "), told[13])
        self.assertEqual(told[14], "7 0 params: too long")
        self.assertRegex(told[15], "^5 0 params: ")
        self.assertEqual(told[16:], [f"2 {len(usage) + 1}", f"2 {len(usage) + 1}", "1 7", "11 8", "7 0", "8 0", "6 0", "9 0", "10 0", "0 8",
                                     "2047 0 63 1 1 0"])

    def test_a_recording_in_pieces(self):
        one = example_call("frame/capture")
        found = re.findall(r"^at (\d+) id (\d+)", one.text.decode(), re.M)
        end = re.search(r"^frames 2 bytes (\d+)$", one.text.decode(), re.M).group(1)
        bytes_given = one.files[0].stat().st_size
        told = self.fine(self.call(self.compile(), "pieces", [str(one.files[0])], one.folder))
        wanted = " ".join(f"{place}/{number}" for place, number in found)
        self.assertEqual(told, "".join(f"{size}: {wanted} then 1 at {end} of {bytes_given}\n" for size in (1, 7, 100, 4096)))

    def test_version(self):
        major, minor, patch = map(int, version().split("."))
        told = int(self.fine(self.call(self.compile(), "version")))
        self.assertEqual(told, 10000 * major + 100 * minor + patch)
        self.assertTrue(os.path.exists(os.path.join(FOLDER, "lib", f"libflexray.so.{major}")))

    def test_the_program_of_the_examples(self):
        ended = built("cc", *STRICT, f"-I{os.path.dirname(HEADER)}", os.path.join(EXAMPLES, "c", "run.c"), ARCHIVE, "-o", self.path("run"))
        self.assertEqual(ended.returncode, 0, ended.stderr)
        for one in example_calls():
            if one.words[0] == "run" and len(one.words) == 4:
                ended = self.call(self.path("run"), one.words[1], one.words[2:], one.folder)
                self.assertEqual((ended.returncode, ended.stdout, ended.stderr), (one.status, one.text, one.line), one.name)
        ended = self.call(self.path("run"), "none.csv", ["drift.csv", "script.csv"], os.path.join(EXAMPLES, "offset"))
        self.assertEqual((ended.returncode, ended.stdout, ended.stderr), (3, b"", b"none.csv: No such file or directory\n"))

    def test_header_in_each_language(self):
        self.write("empty.c", "#include <flexray.h>\nint main(void) { return 0; }\n")
        for words in (["cc", "-std=c11"], ["c++", "-x", "c++", "-std=c++11"], ["clang", "-std=c11"], ["clang++", "-x", "c++", "-std=c++17"]):
            if shutil.which(words[0]):
                ended = built(*words, *STRICT, "-Wconversion", f"-I{os.path.dirname(HEADER)}", "-c", self.path("empty.c"), "-o", self.path("empty.o"))
                self.assertEqual(ended.returncode, 0, ended.stderr)
        self.assertEqual(read(HEADER), read(os.path.join(REPOSITORY, "include", "flexray.h")))

    @unittest.skipUnless(shutil.which("nm"), "there is no nm")
    def test_names_are_those_of_the_header(self):
        declared = set(re.findall(r"^uint32_t (flexray_\w+)\(", read(HEADER).decode(), re.M))
        major = version().split(".")[0]
        told = built("nm", "-D", "--defined-only", os.path.join(FOLDER, "lib", f"libflexray.so.{major}")).stdout
        self.assertEqual({line.split()[-1] for line in told.splitlines()}, declared)
        self.assertIn("flexray_run", declared)

    @unittest.skipUnless(shutil.which("readelf"), "there is no readelf")
    def test_the_shared_object_is_closed_once_it_is_loaded(self):
        """All names are bound at the load and the table of them is read-only then, no stack is executable, nothing else is searched;
        and its build ID is the digest of the sources."""
        def told(*words):
            return subprocess.run(["readelf", "-W", *words, SHARED], capture_output=True, text=True, check=True).stdout
        self.assertRegex(told("-d"), r"(?m)BIND_NOW")
        self.assertNotRegex(told("-d"), "RPATH|RUNPATH|TEXTREL")
        self.assertIn("GNU_RELRO", told("-l"))
        self.assertRegex(told("-l"), r"GNU_STACK.* RW ")
        self.assertIn(f"Build ID: {stamp.stamp(REPOSITORY)}", told("-n"))
        self.assertEqual(library.build_of(SHARED), stamp.stamp(REPOSITORY))

    @unittest.skipUnless(shutil.which("rt"), "tools/library needs the toolchain, though it proves nothing here")
    @unittest.skipUnless(FOLDER == os.path.join(REPOSITORY, "out", "library"), "another library is tested than that of the repository")
    @unittest.skipUnless(os.path.isfile(ARCHIVE), "the crate of the library is not compiled here, and proving it takes minutes")
    def test_each_file_appears_whole(self):
        """Killed at any moment, each file that is there is whole, and the next call leaves nothing else."""
        words = [os.path.join(TOOLS, "library"), "--kept", self.path("to")]
        begun = time.monotonic()
        subprocess.run(words, capture_output=True, check=True)
        whole = time.monotonic() - begun
        kept = {path: read(path) for path in self.files()}
        self.assertIn(self.path("to", "lib", "libflexray.a"), kept)
        for part in range(4):
            shutil.rmtree(self.path("to"), ignore_errors=True)
            process = subprocess.Popen(words, stdout=subprocess.DEVNULL, stderr=subprocess.DEVNULL, start_new_session=True)
            time.sleep(whole * (0.55 + 0.15 * part))
            os.killpg(process.pid, signal.SIGKILL)
            process.wait()
            for path in self.files():
                self.assertEqual(read(path), kept[path], path)
        subprocess.run(words, capture_output=True, check=True)
        self.assertEqual({path: read(path) for path in self.files(".")}, kept)

    def files(self, hidden=".making"):
        """The files of a library that is made, but for those of its room."""
        return [os.path.join(at, name) for at, _, names in os.walk(self.path("to")) for name in names
                if hidden == "." or f"/{hidden}" not in at]

    @unittest.skipUnless(shutil.which("pkg-config"), "there is no pkg-config")
    def test_pkg_config(self):
        env = {**os.environ, "PKG_CONFIG_PATH": os.path.join(FOLDER, "lib", "pkgconfig")}
        for words, wanted in ((["--modversion"], version()), (["--cflags", "--libs"], "-lflexray"), (["--static", "--libs"], "-lflexray -lc")):
            told = subprocess.run(["pkg-config", *words, "flexray"], capture_output=True, text=True, check=False, env=env)
            self.assertEqual(told.returncode, 0, told.stderr)
            self.assertIn(wanted, told.stdout)

    def test_wheel(self):
        """The wheel beside the library has that library, and the modules of the package."""
        number = version()
        with zipfile.ZipFile(os.path.join(FOLDER, f"flexray-{number}-py3-none-linux_x86_64.whl")) as wheel:
            names = set(wheel.namelist())
            self.assertEqual(wheel.read("flexray/libflexray.so." + number.split(".")[0]),
                             read(os.path.join(FOLDER, "lib", "libflexray.so")))
        modules = {f"flexray/{name}" for name in os.listdir(os.path.join(REPOSITORY, "python", "flexray")) if name.endswith(".py")}
        self.assertLessEqual(modules | {"flexray/py.typed"}, names)


class Tool(Bench):
    def test_words(self):
        library = os.path.join(TOOLS, "library")
        for words, status in ((["--help"], 0), (["--version"], 0), (["--fast"], 2), (["a", "b"], 2)):
            self.assertEqual(built(library, *words).returncode, status, words)
        ended = subprocess.run([shutil.which("python3"), library, self.room], capture_output=True, text=True, check=False, env={"PATH": "/nowhere"})
        self.assertEqual(ended.returncode, 4, ended.stderr)


if __name__ == "__main__":
    unittest.main()
