"""Drawn pieces: lengths, distances and headings against what many small steps give."""
import math
import random
import unittest

from support import WORKOUT, Case, coach
from advice import noise
from fitting import fitted_pieces
from geometry import Stroke, farthest
from make_workout import Receiver
from study import workout_of
from workout import read_workout


def strokes(count, chance):
    for _ in range(count):
        x, y, u, v = (chance.uniform(-50, 50) for _ in range(4))
        yield Stroke((x, y, 0.0), (u, v, 1.0))
        radius, first, turn = chance.uniform(1, 80), chance.uniform(0, 7), chance.uniform(0.05, 6.2)
        clockwise = chance.random() < 0.5
        last = first - turn if clockwise else first + turn
        start, end = ((x + radius * math.cos(a), y + radius * math.sin(a), 0.0) for a in (first, last))
        yield Stroke(start, end, (x - start[0], y - start[1]), clockwise)


class Strokes(unittest.TestCase):
    def test_against_small_steps(self):
        chance = random.Random(1)
        for stroke in strokes(60, chance):
            way = [stroke.at(i / 2000) for i in range(2001)]
            self.assertAlmostEqual(math.dist(way[-1][:2], stroke.end[:2]), 0, delta=1e-6)
            length = sum(math.dist(a[:2], b[:2]) for a, b in zip(way, way[1:]))
            self.assertAlmostEqual(stroke.length, length, delta=1e-3)
            for at_end, (a, b) in ((False, way[:2]), (True, way[-2:])):
                seen = math.atan2(b[1] - a[1], b[0] - a[0])
                self.assertAlmostEqual(math.remainder(stroke.heading(at_end) - seen, 2 * math.pi), 0, delta=0.01)
            for _ in range(10):
                place = chance.uniform(-90, 90), chance.uniform(-90, 90), 0.0
                nearest = min(math.dist(place[:2], p[:2]) for p in way)
                self.assertAlmostEqual(stroke.distance(place), nearest, delta=0.2)
                self.assertLessEqual(stroke.distance(place), nearest + 1e-9)

    def test_chords_stay_near(self):
        for stroke in strokes(60, random.Random(2)):
            places = [stroke.start, *stroke.points(0.05)]
            for a, b in zip(places, places[1:]):
                middle = tuple((p + q) / 2 for p, q in zip(a, b))
                self.assertLess(stroke.distance(middle), 0.0501)

    def test_no_length(self):
        still = Stroke((1.0, 2.0, 0.0), (1.0, 2.0, 0.0))
        self.assertEqual((still.length, still.distance((4.0, 6.0, 0.0))), (0.0, 5.0))


class Farthest(Case):
    def test_fit_says_the_true_distance(self):
        """The line that fit prints, against every position and every piece by small steps; it is above the tolerance."""
        code, out, _ = coach("make", WORKOUT, self.folder / "r")
        code, out, _ = coach("fit", 1, self.folder / "r", self.folder / "f")
        self.assertEqual(code, 0)
        workout = read_workout(WORKOUT.read_bytes(), "w")
        far = []
        for lap, pieces in zip(workout.laps, fitted_pieces(workout, 1.0, "w")):
            way = [p.stroke.at(i / 200) for p in pieces for i in range(201)]
            far.append(max(min(math.dist(q.place[:2], p[:2]) for p in way) for q in lap))
        self.assertIn(f"the farthest position is {max(far):.2f} m", out)
        self.assertGreater(max(far), 1.0)
        self.assertIn("480 positions in 6 laps, 54 pieces: 30 straights and 24 bends", out)

    def test_the_far_turn_of_a_shuttle(self):
        places = [(0.0, 0.0, 0.0), (100.0, 0.0, 0.0), (50.0, 0.0, 0.0)]
        self.assertEqual(farthest(places, [Stroke(places[0], places[2])]), (50.0, 1))

    def test_the_fit_of_a_shuttle_keeps_its_far_turn(self):
        workout = self.put("w.txt", "1 0 0 0 0\n1 20 100 0 0\n1 30 50 0 0\n")
        coach("make", workout, self.folder / "r")
        code, out, _ = coach("fit", 0.5, self.folder / "r", self.folder / "f")
        self.assertEqual(code, 0)
        self.assertIn("3 positions in 1 lap, 2 pieces: 2 straights and 0 bends; the farthest position is 0.00 m", out)


class Noise(unittest.TestCase):
    def test_the_error_from_one_position_to_the_next_is_found(self):
        """A drift's third difference is the second difference of its steps: 6 of their squares, beside 20 of white ones."""
        for white, drift in ((0.1, 0.5), (0.25, 1.2), (0.5, 2.0)):
            receiver = Receiver(white, drift)
            step = drift * math.sqrt(1 - math.exp(-2 / receiver.memory))
            found = [noise(workout_of(seed, receiver, ())[0].laps) for seed in range(5)]
            self.assertAlmostEqual(sum(found) / 5 / math.hypot(white, step * math.sqrt(6 / 20)), 1.0, delta=0.1)


if __name__ == "__main__":
    unittest.main()
