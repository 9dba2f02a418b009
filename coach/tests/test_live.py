"""The live thinner played on recordings: what comes out, when, and what is told of bad input."""
import unittest

from support import WORKOUT, Case, coach

# along the x axis, and at (20, 0) away from it
BEND = "".join(f"1 {t} {x} {y} 0\n" for t, (x, y) in enumerate([(0, 0), (10, 0), (20, 0), (20, 10), (20, 20), (20, 30)]))


class Live(Case):
    def ends(self, *words):
        code, out, error = coach("live", *words)
        self.assertEqual(code, 0, error)
        lines = out.splitlines()
        return [line.split() for line in lines[1:-1]], lines[-1]

    def test_bend(self):
        rows, last = self.ends(self.put("bend.txt", BEND), 1)
        # the corner is the third position; it came out with the fourth, and the last one with the close
        self.assertEqual([row[:5] for row in rows], [["1", "1", "3", "2.00", "3.00"], ["1", "2", "6", "5.00", "5.00"]])
        self.assertIn("6 positions in 1 lap, 2 straights drawn", last)
        self.assertIn("1.00 s after", last)

    def test_coarse_is_drawn_by_the_close(self):
        rows, _ = self.ends(self.put("bend.txt", BEND), 1000)
        self.assertEqual([row[2] for row in rows], ["6"])

    def test_finer_in_mid_run(self):
        place = self.put("bend.txt", BEND)
        rows, _ = self.ends(place, 1000, "--change", "4.5:1")
        # the corner comes out late, when the display is turned finer, which is after the fifth position
        self.assertEqual([row[:5] for row in rows], [["1", "1", "3", "2.00", "4.00"], ["1", "2", "6", "5.00", "5.00"]])
        self.assertEqual(rows[0][-1], "2")
        coarser = self.ends(place, 1, "--change", "4.5:1000")[0]
        self.assertEqual([row[2] for row in coarser], ["3", "6"])

    def test_bad_changes_are_told(self):
        place = self.put("bend.txt", BEND)
        self.told(3, "no lap is run at 99 s", "live", place, 1, "--change", "99:2")
        self.told(16, "the tolerance must be", "live", place, 1, "--change", "4:0")
        self.told(2, "invalid change value", "live", place, 1, "--change", "4")

    def test_sample(self):
        rows, _ = self.ends(WORKOUT, 1)
        for row in rows:
            # an end comes out with the next position, or with the close
            self.assertIn(row[-1], ("0", "1"), row)
        for before, after in zip(rows, rows[1:]):
            if before[0] == after[0]:
                self.assertTrue(0 < int(after[2]) - int(before[2]) <= 64)

    def test_refusals_are_told(self):
        place = self.put("bend.txt", BEND)
        self.told(16, "the tolerance must be from 0.001 to 1,000 m", "live", place, 0)
        self.told(15, "1,000,000 m", "live", self.put("far.txt", "1 0 0 0 0\n1 1 2000000 0 0\n"), 1)
        self.told(4, "", "live", place, 1, "--to", place)
        self.told(2, "", "live", place)


if __name__ == "__main__":
    unittest.main()
