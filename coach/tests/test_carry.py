"""Laps that carry on: without a Move, from the last position of the lap before them."""
import unittest

from support import Case, coach

from lapfile import LINE, MOVE, bodies_of

# two laps along a road and back; lap 2 starts where lap 1 ended, and has no position there of its own
ROAD = "1 0 0 0 0\n1 1 10 0 0\n1 2 20 0 0\n2 3 30 0 0\n2 4 30 10 0\n3 5 30 20 0\n3 6 20 20 0\n"


class CarryOn(Case):
    def made(self, text, *options):
        """The commands of the lap file that is made of a workout."""
        workout, laps = self.put("workout.txt", text), self.folder / "recorded.laps"
        code, _, error = coach("make", workout, laps, "--force", *options)
        self.assertEqual(code, 0, error)
        return bodies_of(laps.read_bytes(), "recorded")

    def written(self, *words):
        code, out, error = coach(*words)
        self.assertEqual(code, 0, error)
        return out

    def test_laps_behind_the_first_have_no_move(self):
        laps = self.made(ROAD, "--carry-on")
        self.assertEqual([[command[0] for command in lap] for lap in laps], [[MOVE, LINE, LINE], [LINE, LINE], [LINE, LINE]])
        self.assertEqual([lap[0][0] for lap in self.made(ROAD)], [MOVE, MOVE, MOVE])

    def test_the_same_place_is_not_written_twice(self):
        twice = ROAD.replace("2 3 30 0 0\n", "2 2.5 20 0 0\n2 3 30 0 0\n")
        self.assertEqual(self.made(twice, "--carry-on"), self.made(ROAD, "--carry-on"))

    def test_a_lap_is_listed_from_the_last_ones_end(self):
        workout = self.put("workout.txt", ROAD)
        rows = self.written("list", workout, "0.5", "--carry-on", "--as", "csv").splitlines()
        lengths = [row.split(",")[5] for row in rows[1:] if row.split(",")[1] == "whole"]
        self.assertEqual([float(length) for length in lengths], [20.0, 20.0, 20.0])

    def test_the_workouts_text_remembers_it(self):
        workout, kept = self.put("workout.txt", ROAD), self.folder / "kept.txt"
        self.written("read", workout, kept, "--carry-on")
        laps = self.folder / "recorded.laps"
        self.written("make", kept, laps)
        self.assertEqual(bodies_of(laps.read_bytes(), "recorded"), self.made(ROAD, "--carry-on"))

    def test_a_replaced_lap_moves_the_next_ones_start(self):
        workout, new = self.put("workout.txt", ROAD), self.put("new.txt", "1 0 0 0 0\n1 1 10 1 0\n1 2 20 5 0\n")
        recorded, fitted = self.folder / "recorded.laps", self.folder / "fitted.laps"
        self.written("make", workout, recorded, "--carry-on")
        self.written("fit", "0.5", recorded, fitted)
        corrected, refitted = self.folder / "corrected.txt", self.folder / "refitted.laps"
        self.written("replace", "1", new, "0.5", workout, fitted, corrected, refitted, "--carry-on")
        fresh, again = self.folder / "fresh.laps", self.folder / "again.laps"
        self.written("make", corrected, fresh)
        self.written("fit", "0.5", fresh, again)
        self.assertEqual(refitted.read_bytes(), again.read_bytes())
        self.assertNotEqual(refitted.read_bytes(), fitted.read_bytes())

    def test_pictures_and_older_screens(self):
        workout = self.put("workout.txt", ROAD)
        recorded, fitted, lines = (self.folder / name for name in ("recorded.laps", "fitted.laps", "lines.laps"))
        self.written("make", workout, recorded, "--carry-on")
        self.written("fit", "0.5", recorded, fitted)
        self.written("lines", "0.5", fitted, lines, "--picture", self.folder / "lines.svg")
        self.assertEqual([lap[0][0] for lap in bodies_of(lines.read_bytes(), "lines")], [MOVE, LINE, LINE])
        self.written("draw", workout, "0.5", self.folder / "laps.svg", "--carry-on")

    def test_a_first_lap_without_a_move_is_refused(self):
        self.made(ROAD, "--carry-on")
        whole = (self.folder / "recorded.laps").read_bytes()
        bare = self.put("bare.laps", whole[:8 + 24] + bytes([LINE]) + whole[8 + 24 + 1:])
        self.told(14, "the first lap does not start with a Move", "fit", "0.5", bare, self.folder / "out.laps")


if __name__ == "__main__":
    unittest.main()
