"""Bends and straights as a person sees them, on courses where a person has no doubt."""
import math
import unittest

import support  # for the path to the modules
from bends import Limits, names, parts_of
from fitting import fitted_pieces
from geometry import Stroke
from pieces import Piece
from workout import Position, Workout


def walk(*steps, every=5.0):
    """Positions along straights (metres, 0) and bends (metres, degrees to the left), about so far apart."""
    x = y = heading = 0.0
    places = [(x, y, 0.0)]
    for length, turn in steps:
        count = max(1, round(length / every))
        for _ in range(count):
            bit = math.radians(turn) / count
            heading += bit / 2
            x, y = x + length / count * math.cos(heading), y + length / count * math.sin(heading)
            heading += bit / 2
            places.append((x, y, 0.0))
    return [Position(float(i), place) for i, place in enumerate(places)]


def arc(start, length, turn, heading=0.0):
    """A bend to the left, from a place and a heading in degrees."""
    radius, first = length / math.radians(turn), math.radians(heading)
    offset = -radius * math.sin(first), radius * math.cos(first)
    last = first + math.radians(turn)
    end = start[0] + offset[0] + radius * math.sin(last), start[1] + offset[1] - radius * math.cos(last), 0.0
    return Stroke(start, end, offset)


def line(start, length, heading):
    """A straight, from a place and a heading in degrees."""
    angle = math.radians(heading)
    return Stroke(start, (start[0] + length * math.cos(angle), start[1] + length * math.sin(angle), 0.0))


def seen(lap, tolerance=1.0, limits=Limits()):
    return parts_of(fitted_pieces(Workout([lap]), tolerance, "walk")[0], tolerance, limits)


def kinds(parts):
    return "".join({0: "-", 1: "l", -1: "r"}[part.way] for part in parts)


class Courses(unittest.TestCase):
    def test_a_track(self):
        parts = seen(walk((115, 180), (85, 0), (115, 180), (85, 0)))
        self.assertEqual(names(parts), ["bend 1", "straight 1", "bend 2", "straight 2"])
        for part, length in zip(parts, (115, 85, 115, 85)):
            self.assertAlmostEqual(part.length, length, delta=15)

    def test_both_ways(self):
        self.assertEqual(kinds(seen(walk((80, 0), (60, 90), (80, 0), (60, -90), (80, 0)))), "-l-r-")

    def test_a_square_is_four_straights(self):
        lap = walk((50, 0), (0.01, 90), (50, 0), (0.01, 90), (50, 0), (0.01, 90), (50, 0))
        self.assertEqual(kinds(seen(lap)), "----")

    def test_out_and_back_is_two_straights(self):
        lap = [Position(float(i), (5.0 * (i if i <= 20 else 40 - i), 0.3 * i, 0.0)) for i in range(41)]
        self.assertEqual(kinds(seen(lap)), "--")

    def test_a_flat_arc_is_a_straight(self):
        self.assertEqual(kinds(seen(walk((300, 30)))), "-")
        self.assertEqual(kinds(seen(walk((300, 90)), limits=Limits(flat=250))), "l")
        self.assertEqual(kinds(seen(walk((300, 90)))), "-")

    def test_a_short_straight_within_a_bend(self):
        self.assertEqual(kinds(seen(walk((80, 0), (58, 90), (15, 0), (58, 90), (80, 0)))), "-l-")
        apart = Limits(short=10.0)
        self.assertEqual(kinds(seen(walk((80, 0), (58, 90), (60, 0), (58, 90), (80, 0)), limits=apart)), "-l-l-")

    def test_a_short_straight_joins_before_a_short_bend(self):
        """A bend of 18 m, a chord of 22 m and a bend of 55 m are one bend: the first is not taken for a part of the straight."""
        strokes = [Stroke((0.0, 0.0, 0.0), (80.0, 0.0, 0.0)), arc((80.0, 0.0, 0.0), 18, 40)]
        strokes.append(line(strokes[-1].end, 22, 40))
        strokes.append(arc(strokes[-1].end, 55, 90, 40))
        strokes.append(line(strokes[-1].end, 80, 130))
        pieces = [Piece(stroke, i, i + 1) for i, stroke in enumerate(strokes)]
        parts = parts_of(pieces, 1.5)
        self.assertEqual(kinds(parts), "-l-")
        self.assertAlmostEqual(parts[1].length, 18 + 22 + 55, delta=0.01)

    def test_one_piece_and_none(self):
        self.assertEqual(kinds(seen([Position(0.0, (0.0, 0.0, 0.0)), Position(1.0, (5.0, 0.0, 0.0))])), "-")
        self.assertEqual(seen([Position(0.0, (0.0, 0.0, 0.0))]), [])

    def test_every_piece_is_in_one_part(self):
        lap = walk((115, 180), (85, 0), (40, -60), (20, 0), (40, 60), (85, 0))
        pieces = fitted_pieces(Workout([lap]), 0.5, "walk")[0]
        self.assertEqual([piece for part in parts_of(pieces, 0.5) for piece in part.pieces], pieces)


if __name__ == "__main__":
    unittest.main()
