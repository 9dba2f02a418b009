"""What comes out: lists as CSV, JSON and GeoJSON, lap files as GPX, strides, advice, pictures, and the habits of the tool."""
import ast
import csv
import io
import json
import os
import pty
import re
import subprocess
import sys
import unittest
import xml.dom.minidom
from unittest import mock

from support import COACH, WORKOUT, Case, coach
from cli import COMMANDS
from earth import Plane
from listing import COLUMNS
from strides import read_counts
from trouble import Trouble
from workout import read_workout

HERE = "--origin=60.1866,24.9270"


class Lists(Case):
    def rows(self, command):
        text = coach(command, WORKOUT, 1, "--as", "csv")[1]
        return list(csv.DictReader(io.StringIO(text)))

    def test_shapes_agree(self):
        for command in ("list", "bends"):
            rows = self.rows(command)
            found = json.loads(coach(command, WORKOUT, 1, "--as", "json")[1])
            self.assertEqual(found["tolerance_m"], 1.0)
            self.assertEqual([[str(row[c]) if row[c] is not None else "" for c in COLUMNS] for row in found["rows"]],
                             [[row[c] for c in COLUMNS] for row in rows])
            features = json.loads(coach(command, WORKOUT, 1, "--as", "geojson", HERE)[1])["features"]
            self.assertEqual(len(features), sum(row["part"] != "whole" for row in rows))
            text = coach(command, WORKOUT, 1)[1].split("\n\n")[0].splitlines()
            self.assertEqual(len(text), len(rows) + 1)
        self.told(3, "no place on the earth", "list", WORKOUT, 1, "--as", "geojson")

    def test_geojson_lies_where_it_should(self):
        found = json.loads(coach("bends", WORKOUT, 1, "--as", "geojson", HERE)[1])
        plane = Plane(60.1866, 24.9270)
        for feature in found["features"]:
            places = [plane.metres(lat, lon) for lon, lat in feature["geometry"]["coordinates"]]
            length = sum(((a - c) ** 2 + (b - d) ** 2) ** 0.5 for (a, b), (c, d) in zip(places, places[1:]))
            self.assertAlmostEqual(length, feature["properties"]["length_m"], delta=0.2)

    def test_parts_add_up(self):
        for command in ("list", "bends"):
            rows = self.rows(command)
            for lap in {row["lap"] for row in rows}:
                *parts, whole = [row for row in rows if row["lap"] == lap]
                for column in ("length_m", "time_s"):
                    self.assertAlmostEqual(sum(float(p[column]) for p in parts), float(whole[column]), delta=0.02)

    def test_gpx_and_back(self):
        names = [self.folder / n for n in ("w.txt", "r.laps", "f.laps", "r.gpx", "f.gpx", "back.txt")]
        names[0].write_text("# origin 60.1866 24.927 12.0\n# start 2026-05-01T10:00:00Z\n" + WORKOUT.read_text())
        coach("make", names[0], names[1])
        coach("fit", 1, names[1], names[2])
        self.assertEqual(coach("gpx", names[1], names[3], "--workout", names[0])[0], 0)
        self.assertEqual(coach("read", names[3], names[5])[0], 0)
        first, back = (read_workout(n.read_bytes(), "w") for n in (names[0], names[5]))
        at = first.laps[0][0].place  # about which `read` lays it out: north turns by some millimetres in a lap
        for lap, again in zip(first.laps, back.laps):
            self.assertEqual([round(p.time, 2) for p in lap], [round(p.time, 2) for p in again])
            for p, q in zip(lap, again):
                self.assertAlmostEqual(p.place[0] - at[0], q.place[0], delta=0.01)
                self.assertAlmostEqual(p.place[1] - at[1], q.place[1], delta=0.01)
        self.assertEqual(coach("gpx", names[2], names[4], HERE)[0], 0)
        self.assertEqual(len(xml.dom.minidom.parse(str(names[4])).getElementsByTagName("trkseg")), 6)
        self.told(3, "no place on the earth", "gpx", names[2], "-")
        self.told(3, "recorded position", "gpx", names[2], "-", "--workout", self.shifted(names[0]))

    def shifted(self, name):
        """The same workout, each position but the first of a lap elsewhere."""
        lines = name.read_text().splitlines()
        moved = [line if i < 4 else re.sub(r" (\S+) 0$", r" 9\1 0", line) for i, line in enumerate(lines)]
        return self.put("shifted.txt", "\n".join(moved).replace(" 9-", " -9"))


class Strides(Case):
    def test_counts(self):
        found = read_counts("lap;part;count\n1;bend1;63\n# remark\n1, Straight 1, 46\n2 whole 220\n".encode("utf-16"), "c")
        self.assertEqual(found, [(1, "bend 1", 63), (1, "straight 1", 46), (2, "whole", 220)])
        for data, words in ((b"", "has no count"), (b"1 bend1 x\n", "line 1: is no count"), (b"1 bend1 0\n", "line 1: no strides")):
            with self.assertRaisesRegex(Trouble, words):
                read_counts(data, "c")

    def test_marks(self):
        counts = self.put("c.txt", (COACH / "strides.txt").read_text().replace("5 straight1 ", "5 straight1 1") + "6 bend3 9\n")
        out = coach("strides", WORKOUT, 1, counts)[1]
        marked = [line.split()[:3] + [line.split()[-1]] for line in out.splitlines() if line.endswith(("fit?", "count?"))]
        self.assertEqual(marked, [["1", "bend", "2", "fit?"], ["2", "straight", "1", "fit?"], ["3", "bend", "2", "fit?"],
                                  ["5", "straight", "1", "count?"], ["5", "whole", mock.ANY, "count?"], ["6", "bend", "3", "count?"]], out)

    def test_the_sheet(self):
        code, out, _ = coach("sheet")
        lines = out.splitlines()
        self.assertEqual(sum(line[:3].strip().isdigit() for line in lines), 40)
        self.assertLess(len(lines), 60)
        self.assertLessEqual(max(map(len, lines)), 84)


class Advice(Case):
    def test_it_names_a_tolerance_and_why(self):
        out = coach("advise", WORKOUT)[1]
        self.assertIn("I would take 1 m", out)
        self.assertEqual(len(out.splitlines()), 12)
        self.assertIn("try 1 m and more", coach("advise", WORKOUT, "--tolerances", "0.1,0.2")[1])
        self.assertIn("no advice", coach("advise", self.put("s.txt", "1 0 0 0 0\n1 1 5 0 0\n"))[1])


class Pictures(Case):
    """Each piece, cut and position is drawn, at any size of course; nothing comes from elsewhere."""

    def drawn(self, data, tolerance, name="p.svg", *words):
        place = self.folder / name
        code, _, error = coach("draw", self.put("in.txt", data), tolerance, place, *words)
        self.assertEqual(code, 0, error)
        return place

    def marks(self, place):
        picture = xml.dom.minidom.parse(str(place))
        return [e.getAttribute("class").split()[0] for tag in ("path", "circle", "g") for e in picture.getElementsByTagName(tag)]

    def test_whole(self):
        data = WORKOUT.read_bytes()
        marks, rows = self.marks(self.drawn(data, 1)), json.loads(coach("list", WORKOUT, 1, "--as", "json")[1])["rows"]
        pieces, laps, key = sum(row["part"] != "whole" for row in rows), 6, 1
        parts = len(json.loads(coach("bends", WORKOUT, 1, "--as", "json")[1])["rows"]) - laps
        metres = 5
        self.assertEqual(marks.count("position"), sum(map(len, read_workout(data, "w").laps)) + key)
        self.assertEqual(marks.count("cut"), pieces - laps + key + metres)
        self.assertEqual(marks.count("border"), parts - laps + key)
        self.assertEqual((marks.count("start"), marks.count("arrow")), (laps + key, laps + key))
        self.assertEqual((marks.count("part"), marks.count("field")), (parts, parts))

    def test_any_size(self):
        for scale in (0.05, 1, 15, 900):
            lines = [line.split() for line in WORKOUT.read_text().splitlines()[1:200]]
            data = "\n".join(f"{a} {b} {float(x) * scale} {float(y) * scale} 0" for a, b, x, y, _ in lines)
            text = self.drawn(data, scale, f"p{scale}.svg").read_text()
            size = re.search(r'width="(\d+)" height="(\d+)"', text)
            self.assertTrue(1000 < int(size.group(1)) < 1300 and 200 < int(size.group(2)) < 1200)
            self.assertIn('role="img" aria-labelledby="title desc"', text)
            for x in re.findall(r'cx="([-\d.]+)"', text):
                self.assertTrue(0 <= float(x) <= 380)

    def test_the_page(self):
        text = self.drawn(WORKOUT.read_bytes(), 1, "p.html").read_text()
        self.assertEqual(re.findall(r"(?:src|href|url)\s*[=(]", text), [])
        self.assertEqual(re.findall(r"https?://[^\"' ]+", text), [])
        self.assertIn("give or take", text)
        for kind in ("lap", "part", "field", "position"):
            self.assertRegex(text, f'class="{kind}[" ]')

    def test_odd_laps(self):
        self.drawn("1 0 0 0 0\n", 1, "one.svg")
        self.drawn("1 0 5 5 0\n1 1 5 5 0\n", 1, "still.svg", "--columns", "lap,time,x,y,z")
        self.drawn("1 0 5 5 0\n1 1 50 5 0\n2 5 1 1 0\n", 1, "mixed.html")


class Habits(Case):
    def test_help(self):
        for command in ("", *COMMANDS):
            code, out, error = coach(*filter(None, [command]), "--help")
            self.assertEqual((code, error), (0, ""), command)
            self.assertIn("exit status:", out)
        self.assertEqual(coach()[0], 2)
        self.assertEqual(coach("fit", "one", "a", "b")[0], 2)

    def test_python_3_8_can_read_it(self):
        for name in [*COACH.glob("*.py"), *COACH.glob("tests/*.py")]:
            ast.parse(name.read_text(), feature_version=(3, 8))
        self.assertIn("needs Python 3.8 or later", (COACH / "coach.py").read_text())

    def test_not_built(self):
        away = self.folder / "coach"
        away.mkdir()
        for name in COACH.glob("*.py"):
            (away / name.name).write_text(name.read_text())
        done = subprocess.run([sys.executable, str(away / "coach.py"), "bends", str(WORKOUT), "1"], capture_output=True, check=False)
        self.assertEqual(done.returncode, 5)
        self.assertIn(b"run coach/build first", done.stderr)

    def test_progress_on_a_terminal(self):
        """Items that take 3 s: a line on a terminal, none elsewhere."""
        code = "import sys, time; sys.path.insert(0, sys.argv[1]); from progress import watched\n" \
               "for _ in watched(range(6), 6, 'work'): time.sleep(0.55)"
        ours, theirs = pty.openpty()
        subprocess.run([sys.executable, "-c", code, str(COACH)], stderr=theirs, check=True)
        os.close(theirs)
        said = os.read(ours, 1000).decode()
        os.close(ours)
        self.assertRegex(said, r"work: \d+ %")
        self.assertIn("work: done", said)

    def test_every_function_is_short(self):
        for name in COACH.glob("*.py"):
            for node in ast.walk(ast.parse(name.read_text())):
                if isinstance(node, ast.FunctionDef):
                    self.assertLess(node.end_lineno - node.lineno, 40, f"{name.name}: {node.name}")


if __name__ == "__main__":
    unittest.main()
