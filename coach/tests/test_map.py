"""Maps to print: the fewest straights of a lap, and what is told of bad input."""
import unittest

from support import WORKOUT, Case, coach

# the recursive cut at 0.75 has three straights, the fewest are two
SHORTER = "".join(f"1 {t} {x} {y} 0\n" for t, (x, y) in enumerate([(0, 1), (3, 1), (1, 1), (3, 0)]))
MANY = "".join(f"1 {t} {t} 0 0\n" for t in range(257))


class Map(Case):
    def drawn(self, *words):
        code, out, error = coach("map", *words)
        self.assertEqual(code, 0, error)
        return out, error

    def test_budgets(self):
        place = self.put("shorter.txt", SHORTER)
        for budget, told in ((0, "3 straights; the fewest are 1 to 3; 0 pairs tested"),
                             (4, "3 straights; the fewest are 2 to 3; 4 pairs tested"),
                             (5, "2 straights, the fewest; 5 pairs tested"),
                             (2 ** 64 - 1, "2 straights, the fewest; 5 pairs tested")):
            out, error = self.drawn(place, 1, 0.75, "-", "--budget", budget)
            self.assertIn(told, error)
            self.assertIn(told, out)
            self.assertEqual(out.count("<circle"), 1 + int(told[0]))

    def test_sample(self):
        self.assertIn("straights, the fewest; ", self.drawn(WORKOUT, 1, 1, "-")[1])

    def test_bad_input_is_told(self):
        place = self.put("shorter.txt", SHORTER)
        self.told(17, "there is no lap", "map", place, 2, 1, "-")
        self.told(16, "the tolerance must be", "map", place, 1, 0, "-")
        self.told(12, "2 to 256 positions; this one has 257", "map", self.put("many.txt", MANY), 1, 1, "-")
        self.told(2, "invalid pairs value", "map", place, 1, 1, "-", "--budget", "-1")


if __name__ == "__main__":
    unittest.main()
