"""Where the stack cannot grow a program ends before any text: with little room it has written all or nothing."""
import resource
import subprocess
import unittest

from bench import FLEXRAY, REPOSITORY, SERIES, needs_series


def limited(limit: int, bytes_: int):
    """What a process does before it calls the program: it takes a limit."""
    def take() -> None:
        resource.setrlimit(limit, (bytes_, bytes_))
    return take


class LittleRoom(unittest.TestCase):
    def ends_whole(self, program: str, folder: str, words: list[str], limit: int, sizes: range) -> set[int]:
        """The statuses of the calls with these limits, in KiB; none of them leaves a part of the text."""
        at = f"{REPOSITORY}/examples/{folder}"
        whole = subprocess.run([program, *words], cwd=at, capture_output=True, check=True).stdout
        seen = set()
        for kib in sizes:
            ended = subprocess.run([program, *words], cwd=at, capture_output=True, check=False, preexec_fn=limited(limit, kib * 1024))
            self.assertEqual(ended.stdout, whole if ended.returncode == 0 else b"", f"{words[0]} with {kib} KiB: {ended.returncode}")
            seen.add(ended.returncode)
        return seen

    def test_little_stack_begins_no_text(self) -> None:
        for folder, word in (("observe", "observe"), ("offset", "run")):
            files = ["params.csv", "log.csv"] if word == "observe" else ["params.csv", "drift.csv", "script.csv"]
            seen = self.ends_whole(FLEXRAY, folder, [word, *files], resource.RLIMIT_STACK, range(160, 640, 16))
            self.assertIn(0, seen, word)

    def test_little_address_space_begins_no_text(self) -> None:
        seen = self.ends_whole(FLEXRAY, "observe", ["observe", "params.csv", "log.csv"], resource.RLIMIT_AS, range(2600, 5200, 50))
        self.assertIn(0, seen)
        self.assertIn(6, seen)

    @needs_series
    def test_so_it_is_of_the_series(self) -> None:
        seen = self.ends_whole(str(SERIES), "offset", ["params.csv", "rates/drift.csv", "script.csv"], resource.RLIMIT_STACK, range(160, 640, 16))
        self.assertIn(0, seen)


if __name__ == "__main__":
    unittest.main()
