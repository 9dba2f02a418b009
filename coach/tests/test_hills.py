"""Hill fits: heights are read from any recording, fitted, listed and drawn; the flat fit stays as it is."""
import csv
import io
import json
import re
import unittest
import xml.dom.minidom

from support import COACH, WORKOUT, Case, coach

from geometry import Stroke
from heights import recorded_points
from lapfile import ARC, LINE, MOVE, bodies_of
from pieces import pieces_of

FELL = COACH / "fell.txt"
# over a top on one straight: the flat fit has no use for it
TOP = "1 0 0 0 100\n1 9 50 0 130\n1 18 100 0 100\n"


class Hills(Case):
    def written(self, *words):
        code, out, error = coach(*words)
        self.assertEqual(code, 0, error)
        return out

    def fitted(self, text, tolerance, *options):
        """The commands of the fit of a workout, and what was said of it."""
        recorded, fitted = self.folder / "recorded.laps", self.folder / "fitted.laps"
        self.written("make", self.put("workout.txt", text), recorded, "--force")
        said = self.written("fit", tolerance, recorded, fitted, "--force", *options)
        return bodies_of(fitted.read_bytes(), "fitted"), said

    def heights(self, text, *options):
        return [command[3] for command in self.fitted(text, 0.5, *options)[0][0]]

    def test_a_top_stays(self):
        self.assertEqual(self.heights(TOP), [100.0, 100.0])
        self.assertEqual(self.heights(TOP, "--hills"), [100.0, 130.0, 100.0])
        self.assertIn("2 straights and 0 bends", self.fitted(TOP, 0.5, "--hills")[1])

    def test_no_bend_is_made(self):
        flat, hills = (self.fitted(WORKOUT.read_text(), 1, *options)[0] for options in ((), ("--hills",)))
        self.assertIn(ARC, [command[0] for lap in flat for command in lap])
        self.assertEqual({command[0] for lap in hills for command in lap}, {MOVE, LINE})

    def test_up_and_down_the_same_path(self):
        text = "1 0 0 0 0\n1 60 80 0 60\n1 90 40 0 30\n"
        self.assertEqual(self.heights(text, "--hills"), [0.0, 60.0, 30.0])
        rows = list(csv.DictReader(io.StringIO(self.written("list", self.put("w.txt", text), 0.5, "--hills", "--as", "csv"))))
        self.assertEqual([(row["up_m"], row["down_m"]) for row in rows], [("60.0", "0.0"), ("0.0", "30.0"), ("60.0", "30.0")])

    def test_how_far_positions_are_off(self):
        """On the fell the fit keeps to its tolerance in space; the flat fit leaves heights out."""
        said = self.fitted(FELL.read_text(), 2, "--hills")[1]
        far = float(re.search(r"is ([\d.]+) m from the fitted course, heights counted", said).group(1))
        self.assertLessEqual(far, 2.0)

    def test_a_file_of_the_other_fit_is_told(self):
        self.fitted(TOP, 0.5)
        self.told(3, "is not the hill fit of", "list", self.folder / "workout.txt", 0.5, "--fit", self.folder / "fitted.laps", "--hills")

    def test_heights_come_from_gpx(self):
        points = "".join(f'<trkpt lat="{60.1866 + 0.0005 * i}" lon="24.927"><ele>{h}</ele><time>2026-05-01T10:0{i}:00Z</time></trkpt>'
                         for i, h in enumerate((12, 40, 12)))
        gpx = self.put("w.gpx", f"<gpx><trk><trkseg>{points}</trkseg></trk></gpx>")
        whole = json.loads(self.written("list", gpx, 0.5, "--hills", "--as", "json"))["rows"][-1]
        self.assertEqual((whole["up_m"], whole["down_m"]), (28.0, 28.0))
        features = json.loads(self.written("list", gpx, 0.5, "--hills", "--as", "geojson"))["features"]
        self.assertEqual([place[2] for f in features for place in f["geometry"]["coordinates"]], [12.0, 40.0, 40.0, 12.0])

    def test_flat_lists_have_no_heights(self):
        for shape in ("text", "csv", "json"):
            self.assertNotIn("up", self.written("list", FELL, 2, "--as", shape))

    def test_the_picture_shows_heights(self):
        for name in ("p.svg", "p.html"):
            place = self.folder / name
            self.written("draw", FELL, 2, place, "--hills")
            text = place.read_text()
            self.assertIn("height along the lap", text)
            pieces = json.loads(self.written("list", FELL, 2, "--hills", "--as", "json"))["rows"]
            self.assertEqual(text.count('class="part kept"'), len(pieces))  # a point more than pieces, a row more for the whole
        picture = xml.dom.minidom.parse(str(self.folder / "p.svg"))
        for mark in picture.getElementsByTagName("circle"):
            self.assertTrue(0 <= float(mark.getAttribute("cx")) <= 1140)
        self.written("draw", FELL, 2, self.folder / "flat.svg")
        self.assertNotIn("height along", (self.folder / "flat.svg").read_text())

    def test_odd_laps(self):
        for i, text in enumerate(("1 0 0 0 7\n", "1 0 0 0 0\n1 9 0 0 50\n", "1 0 0 0 5\n1 9 90 0 5\n")):
            self.written("draw", self.put("w.txt", text), 1, self.folder / f"{i}.svg", "--hills", "--columns", "lap,time,x,y,z")

    def test_a_corrected_lap_has_its_profile_too(self):
        old, new = self.put("old.txt", TOP), self.put("new.txt", TOP.replace("130", "125"))
        self.written("draw", new, 0.5, self.folder / "both.svg", "--old", old, "--hills")
        self.assertEqual((self.folder / "both.svg").read_text().count('class="part kept"'), 6)


class Places(unittest.TestCase):
    def test_distance_in_space(self):
        wall, ramp = Stroke((0.0, 0.0, 0.0), (0.0, 0.0, 10.0)), Stroke((0.0, 0.0, 0.0), (30.0, 0.0, 40.0))
        self.assertEqual(wall.distance_in_space((3.0, 4.0, 5.0)), 5.0)
        self.assertEqual(wall.distance_in_space((0.0, 0.0, 12.0)), 2.0)
        self.assertAlmostEqual(ramp.distance_in_space((15.0, 0.0, 20.0)), 0.0)
        self.assertAlmostEqual(ramp.distance_in_space((19.0, 0.0, 17.0)), 5.0)

    def test_positions_stand_along_the_lap(self):
        class At:
            def __init__(self, *place):
                self.place = place

        lap = [At(0.0, 0.0, 1.0), At(10.0, 1.0, 2.0), At(20.0, 0.0, 3.0), At(20.0, 5.0, 4.0)]
        commands = [(MOVE, 0.0, 0.0, 1.0), (LINE, 20.0, 0.0, 3.0, *[0.0] * 6), (LINE, 20.0, 5.0, 4.0, *[0.0] * 6)]
        pieces = pieces_of([lap], [commands])[0]
        self.assertEqual(recorded_points(lap, pieces), [(0.0, 1.0), (10.0, 2.0), (20.0, 3.0), (25.0, 4.0)])


if __name__ == "__main__":
    unittest.main()
