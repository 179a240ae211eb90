"""The precision three ways: the standard's formulas, what is proved, what was simulated."""
import unittest

from bench import EXAMPLE, Bench, edited


class Standard(Bench):
    def page(self, text, *words):
        self.write("a.toml", text)
        return self.flexlab("precision", *words, "a.toml")[0]

    def test_the_formulas_and_the_numbers_of_the_page(self):
        page = self.page(EXAMPLE)
        # Damping 5, the longest microtick 1000200 ticks of 25 ns, a greatest delay of half a microtick.
        self.assertRegex(page, r"\nthe standard, best case +1\.063 +42\.5 ")
        self.assertRegex(page, r"\nthe standard, worst case +3\.476 +139\.0 ")
        self.assertRegex(page, r"\nthe classical bound +7\.902 +316\.1 +none +[\d.]+ %")
        self.assertIn("\nstarts, later", page)
        run = self.one_line(self.flexlab("run", "a.toml")[0])
        skew = next(line.split()[3] for line in page.splitlines() if line.startswith("simulated, classical sync"))
        self.assertIn(f"skew in sync {skew} us at most", run)
        self.assertEqual(self.read("a.lab", "precision.txt"), page)
        self.assertRegex(self.page(EXAMPLE, "--standard", "34"), r"\nthe standard, worst case +3\.376 +135\.0 ")

    def test_the_delay_counts_with_its_compensation(self):
        page = self.page(edited(("pDelayCompensation = 0", "pDelayCompensation = 8"), ("microticks = 0.3", "microticks = 8.3"),
                                ("ns = 12", "ns = 212")))
        self.assertIn("frames travel 0.213 us at most", self.one_line(page))
        self.assertRegex(page, r"\nthe standard, worst case +3\.876 +155\.0 ")

    def test_where_nothing_is_proved(self):
        page = self.page(edited(("pClusterDriftDamping = 5", "pClusterDriftDamping = 2")))
        self.assertRegex(page, r"\nthe classical bound +\S+ +\S+ +C1 ")
        self.assertIn("nothing of this cluster is proved by the classical bound, since C1 fails", self.one_line(page))
        page = self.page(edited(("microticks = 0.3", "microticks = 0.7")))
        self.assertIn("nothing of this run is proved by the classical bound, since it has a gap (delay 1 2 A 0 700000)",
                      self.one_line(page))


if __name__ == "__main__":
    unittest.main()
