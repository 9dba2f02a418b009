"""The exercise's sample: what a student reads of it agrees with what was run, within the stated error."""
import unittest

from support import COACH, WORKOUT
from make_workout import SEED, THROWN, repetitions
from study import readings, slower
from workout import Choices, read_workout

TOLERANCES = (0.5, 0.75, 1.0, 1.5, 2.0, 3.0, 4.0)


class Sample(unittest.TestCase):
    def setUp(self):
        self.recorded = read_workout(WORKOUT.read_bytes(), "workout")
        self.true = [true for _, true, _ in repetitions(SEED)]

    def corrected(self):
        data = (COACH / f"lap{THROWN[0]}.txt").read_bytes()
        workout = read_workout(WORKOUT.read_bytes(), "workout")
        workout.laps[THROWN[0] - 1] = read_workout(data, "lap", Choices(alone=True)).laps[0]
        return workout

    def test_paces_and_second_bends(self):
        """Each pace within its error, whole laps too, and the second bend told slower where it was, and nowhere else."""
        for tolerance in TOLERANCES:
            for lap, pairs in enumerate(readings(self.corrected(), self.true, tolerance), 1):
                self.assertIsNotNone(pairs, (tolerance, lap))
                for row, true in pairs:
                    self.assertLess(abs(row.pace - true), row.pace_error, (tolerance, lap, row.part))
                self.assertEqual(slower([row for row, _ in pairs]), lap in (2, 4, 5), (tolerance, lap))

    def test_the_spoilt_lap_shows(self):
        laps = list(readings(self.recorded, self.true, 1.0))
        row, true = laps[THROWN[0] - 1][2]
        self.assertGreater(true - row.pace, row.pace_error)


if __name__ == "__main__":
    unittest.main()
