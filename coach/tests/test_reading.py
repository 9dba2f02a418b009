"""What a watch gives is read, and nonsense is stopped with a sentence."""
import math
import random
import unittest

from support import COACH, WORKOUT, Case, coach
from times import iso, seconds
from trouble import Trouble
from workout import Choices, read_workout, workout_text

ROWS = [(1, 0.0, 1.5, -2.25, 3.0), (1, 1.5, 6.5, -2.0, 3.0), (2, 60.0, 1.25, -2.5, 4.0), (2, 61.0, 7.0, 0.0, 4.0)]
GPX = """<?xml version="1.0" encoding="{encoding}"?>
<gpx version="1.1" creator="w" xmlns="http://www.topografix.com/GPX/1/1" xmlns:g="http://www.garmin.com/xmlschemas/TrackPointExtension/v1">
<metadata><time>2020-01-01T00:00:00Z</time></metadata><wpt lat="1" lon="1"/>
<trk><name>Bahn für Übung</name><trkseg/><trkseg>
<trkpt lat="60.0" lon="24.9"><ele>12.5</ele><time>2026-05-01T10:00:00Z</time><extensions><g:hr>150</g:hr></extensions></trkpt>
<trkpt lat="60.0001" lon="24.9"><ele>13.5</ele><time>2026-05-01T10:00:01.500Z</time></trkpt>
</trkseg></trk><trk><trkseg>
<trkpt lat="60.0" lon="24.9001"><time>2026-05-01T12:01:00+02:00</time></trkpt>
<trkpt lat="60.0" lon="24.9002"><time>2026-05-01T10:01:01Z</time></trkpt>
</trkseg></trk></gpx>
"""


def table(separator, mark=".", header=True, z=True, clock=str):
    lines = [separator.join(["Lap", "Time (s)", "x [m]", "y [m]"] + ["Höhe"] * z)] if header else []
    for lap, time, *place in ROWS:
        words = [str(lap), clock(time)] + [str(value) for value in place[:2 + z]]
        if mark == ",":
            words = [word.replace(".", ",") for word in words]
        lines.append(separator.join(f'"{w}"' if separator == mark == "," else w for w in words))
    return "\n".join(lines) + "\n"


def flat(workout):
    return [(lap, p.time, *p.place) for lap, own in enumerate(workout.laps, 1) for p in own]


class Tables(unittest.TestCase):
    def test_every_shape(self):
        clocks = {
            "seconds": str,
            "mm:ss": lambda t: f"{int(t // 60)}:{t % 60:04.1f}",
            "iso": lambda t: iso(1777629600 + t),
            "unix": lambda t: str(1777629600 + t),
            "milliseconds": lambda t: str(int(1777629600000 + 1000 * t)),
        }
        tried = 0
        for separator in (",", ";", "\t", " "):
            for mark in ".,":
                for header in (True, False):
                    for z in (True, False):
                        for name, clock in clocks.items():
                            head = header and separator != " "
                            text = table(separator, mark, head, z, clock)
                            for encoding in ("utf-8", "utf-8-sig", "utf-16", "utf-16-le", "latin-1"):
                                found = flat(read_workout(text.encode(encoding), "t"))
                                wanted = [row if z else (*row[:4], 0.0) for row in ROWS]
                                self.assertEqual(found, wanted, (separator, mark, header, z, name, encoding))
                                tried += 1
        self.assertEqual(tried, 4 * 2 * 2 * 2 * 5 * 5)

    def test_line_ends_quotes_and_remarks(self):
        text = "# made up\r\n\r\nsep=;\r\n" + table(";", header=False).replace("\n", "\r\n")
        self.assertEqual(flat(read_workout(text.encode(), "t")), ROWS)

    def test_columns_by_choice(self):
        text = "0.0;7;1.5;-2.25;9\n1.0;7;2.5;-2.0;9\n"
        found = read_workout(text.encode(), "t", Choices(columns=["time", None, "x", "y", None]))
        self.assertEqual(flat(found), [(1, 0.0, 1.5, -2.25, 0.0), (1, 1.0, 2.5, -2.0, 0.0)])

    def test_degrees_by_header(self):
        text = "time,latitude,longitude\n0,60.0,24.9\n1,60.001,24.9\n"
        found = read_workout(text.encode(), "t")
        self.assertAlmostEqual(found.laps[0][1].place[1], 111.412, delta=0.01)
        self.assertEqual(found.origin, (60.0, 24.9, 0.0))

    def test_height_left_out(self):
        found = read_workout(b"lap,time,x,y,z\n1,0,0,0,5\n1,1,5,0,\n", "t")
        self.assertEqual(found.laps[0][1].place, (5.0, 0.0, 5.0))

    def test_its_own_text(self):
        for data in (WORKOUT.read_bytes(), GPX.format(encoding="UTF-8").encode()):
            first = read_workout(data, "t")
            again = read_workout(workout_text(first).encode(), "t")
            self.assertEqual((again.laps, again.origin, again.start), (first.laps, first.origin, first.start))


class Times(unittest.TestCase):
    def test_one_moment_written_in_many_ways(self):
        for word in ("2026-05-01T10:00:00Z", "2026-05-01T12:00:00+02:00", "20260501T100000Z", "2026-05-01 06:00:00-0400",
                     "2026-05-01T10:00:00", "2026-05-01T10:00:00,000Z", "1777629600", "1777629600000", "2026-05-01T15:30:00+05:30"):
            self.assertEqual(seconds(word), (1777629600.0, True), word)
        for word in ("1:01:01.5", "61:01.5", "61:01,5", "3661.5", "3661,5"):
            self.assertEqual(seconds(word), (3661.5, False), word)
        for word in ("", "x", "1:2:3:4", "2026-13-01T00:00:00Z", "2026-02-30T00:00:00Z", "1.234,5", "nan", "12:75", "1_0"):
            with self.assertRaises(ValueError, msg=word):
                seconds(word)


class Gpx(unittest.TestCase):
    def test_tracks_and_segments_are_laps(self):
        for encoding in ("UTF-8", "UTF-16", "ISO-8859-1"):
            found = read_workout(GPX.format(encoding=encoding).encode(encoding), "t")
            self.assertEqual([[p.time for p in lap] for lap in found.laps], [[0.0, 1.5], [60.0, 61.0]])
            self.assertEqual(found.origin, (60.0, 24.9, 12.5))
            self.assertEqual(found.start, 1777629600.0)
            (x, y, z), (u, v, w) = found.laps[0][1].place, found.laps[1][1].place
            self.assertTrue(math.isclose(y, 11.141, abs_tol=0.002) and x == 0 and z == 1.0)
            self.assertTrue(math.isclose(u, 11.161, abs_tol=0.01) and abs(v) < 0.001 and w == 0)

    def test_trouble(self):
        whole = GPX.format(encoding="UTF-8")
        for changed, words in (
            (whole[:400], "is no whole GPX file"),
            (whole.replace("<time>2026-05-01T10:00:01.500Z</time>", ""), "line 6: the position has no time"),
            (whole.replace('lat="60.0001"', 'lat="north"'), "line 6: its latitude"),
            (whole.replace('lat="60.0001"', 'lat="95"'), "line 6: latitude 95"),
            (whole.replace('lat="60.0001"', 'lat="61"'), "line 6: is 111 km from the first position"),
            (whole.replace("trkpt", "rtept"), "has no track with a position"),
            ("<TrainingCenterDatabase/>", "line 1: is no GPX but TrainingCenterDatabase; Debian's gpsbabel"),
            ("\x0e\x10\x00\x00\x00\x00\x00\x00.FIT\x00", "is a .fit file; Debian's gpsbabel"),
            (whole.replace("?>\n", '?>\n<!DOCTYPE gpx [<!ENTITY a "b">]>\n', 1), "declares an entity"),
        ):
            with self.assertRaisesRegex(Trouble, words):
                read_workout(changed.encode(), "t")


class Laps(unittest.TestCase):
    def laps(self, text, **choices):
        return [[p.time for p in lap] for lap in read_workout(text.encode(), "t", Choices(**choices)).laps]

    def test_by_times(self):
        text = "\n".join(f"{t} {5 * t} 0" for t in range(100))
        self.assertEqual([len(lap) for lap in self.laps(text, laps_at=["10", "0:40"])], [30, 60])
        self.assertEqual(self.laps(text, laps_at=["10..12", "0:20..0:21.5"]), [[10, 11, 12], [20, 21]])
        text = "\n".join(f"{iso(1777629600 + t)} {5 * t} 0" for t in range(100))
        self.assertEqual(self.laps(text, laps_at=["2026-05-01T10:00:03Z..2026-05-01T10:00:04Z", "20..21"]), [[3, 4], [20, 21]])
        for words, told in ((["x"], "is no time"), (["20", "10"], "go back"), (["500..600"], "no position lies"), (["1..2..3"], "FROM")):
            with self.assertRaisesRegex(Trouble, told):
                self.laps(text, laps_at=words)

    def test_a_missing_lap(self):
        text = "1 0 0 0\n1 1 5 0\n3 9 0 0\n3 10 5 0\n"
        with self.assertRaisesRegex(Trouble, "line 3: lap 3, where lap 1 or 2 was expected; --renumber"):
            self.laps(text)
        self.assertEqual(self.laps(text, renumber=True), [[0, 1], [9, 10]])

    def test_laps_may_share_a_moment(self):
        self.assertEqual(self.laps("1 0 0 0\n1 1 5 0\n2 1 5 0\n2 2 9 0\n"), [[0, 1], [1, 2]])


class Damaged(unittest.TestCase):
    """Whatever is damaged in a recording, it is read, or stopped with a sentence."""

    def test_damage(self):
        chance, read = random.Random(5), 0
        whole = [GPX.format(encoding="UTF-8").encode(), table(",").encode(), table(";", ",").encode("utf-16"), table(" ", header=False).encode()]
        bits = [b"nan", b"1e999", b"", b"\0", b'"', b"<", b"\xff", b"9" * 400, b"..", b"\r", b"# start x", b"\xc2\xb2", b"-0"]
        for _ in range(3000):
            data, at = bytearray(chance.choice(whole)), chance.randrange(40, 200)
            data[at:at + chance.randrange(3)] = chance.choice(bits)
            try:
                read += len(read_workout(bytes(data), "t").laps) > 0
            except Trouble as trouble:
                self.assertRegex(str(trouble), "^(refused, number [25]: )?t(, line \\d+)?: ")
        self.assertTrue(300 < read < 2700, read)


class Nonsense(Case):
    def test_files(self):
        recorded = self.folder / "r.laps"
        coach("make", WORKOUT, recorded)
        cut = self.put("cut.laps", recorded.read_bytes()[:100])
        kind = bytearray(recorded.read_bytes())
        kind[56] = 9
        kind = self.put("kind.laps", bytes(kind))
        out = self.folder / "out"
        for status, words, data in (
            (3, "line 3: 'x' is no number", "1 0 0 0 0\n# a remark\n1 1 x 0 0\n"),
            (3, "line 3: 'x' is no number", "1,0,0,0,0\n# a remark\n1,1,x,0,0\n"),
            (3, "line 2: has 4 fields", "1 0 0 0 0\n1 1 0 0\n"),
            (3, "line 1: no columns time, x, y", "1 2\n"),
            (3, "line 1: two columns are a time", "time,date,x,y\n0,0,0,0\n"),
            (3, "line 2: lap 3", "1 0 0 0 0\n3 1 0 0 0\n"),
            (3, "line 2: 'one' is no number of a lap", "lap,time,x,y\none,1,5,0\n"),
            (15, "line 2: a position is not a number", "1 0 0 0 0\n1 1 nan 0 0\n"),
            (15, "line 2: a position", "1 0 0 0 0\n1 1 1000001 0 0\n"),
            (12, "line 801", "".join(f"1 {i} {5 * i} 0 0\n" for i in range(801))),
            (12, "line 65", "".join(f"{i} {i} {5 * i} 0 0\n" for i in range(1, 66))),
            (3, "has no position", ""),
            (3, "has no position", "# nothing\n"),
            (3, "has no position", "lap,time,x,y\n"),
            (3, "line 2: has the same time", "1 5 0 0 0\n1 5 1 0 0\n"),
            (3, "line 2: its time, 4 s, is before", "1 5 0 0 0\n1 4 1 0 0\n"),
            (3, "line 2: its time, 4 s, is before", "1 5 0 0 0\n2 4 1 0 0\n"),
            (3, "line 2: '60' is another kind of time", "1 2026-05-01T10:00:00Z 0 0 0\n1 60 1 0 0\n"),
            (3, "line 2: 'soon' is no time", "1 0 0 0 0\n1 soon 1 0 0\n"),
            (3, "are these degrees?", "1 0 24.90000 60.19000\n1 1 24.90005 60.19002\n1 2 24.90010 60.19004\n"),
        ):
            self.told(status, words, "make", self.put("in.txt", data), out)
        self.told(13, "cut.laps, lap 1: no lap file", "text", cut)
        self.told(13, "no lap file", "fit", 1, cut, out)
        self.told(14, "kind.laps, lap 1, command 1", "fit", 1, kind, out)
        self.told(14, "kind.laps, lap 1, command 1", "text", kind)
        self.told(11, "shorter than 8 bytes", "fit", 1, "/dev/null", out)
        self.told(16, "number 6", "bends", WORKOUT, "nan")
        self.told(3, "No such file", "bends", self.folder / "none.txt", 1)
        self.assertFalse(out.exists())

    def test_metres_that_hardly_move_can_be_stated(self):
        still = self.put("still.txt", "1 0 1 1 0\n1 1 1 1 0\n")
        self.told(3, "are these degrees?", "make", still, "-")
        self.assertEqual(coach("make", still, self.folder / "out", "--columns", "lap,time,x,y,z")[0], 0)

    def test_fits_of_something_else(self):
        names = [self.folder / name for name in ("r.laps", "f.laps", "g.laps", "new.txt", "new.laps")]
        coach("make", WORKOUT, names[0])
        coach("fit", 1, names[0], names[1])
        coach("fit", 2, names[0], names[2])
        other = "f.laps: is not the fit of"
        self.assertEqual(coach("bends", WORKOUT, 1, "--fit", names[1])[0], 0)
        self.told(3, other, "bends", WORKOUT, 2, "--fit", names[1])
        self.told(3, other, "list", WORKOUT, 2, "--fit", names[1])
        self.told(3, "lap 1 differs", "draw", WORKOUT, 1, self.folder / "p.svg", "--fit", names[2])
        self.told(3, "it has 6 laps and the workout 1", "bends", COACH / "lap3.txt", 1, "--fit", names[1], "--renumber")
        self.told(3, "g.laps: is not the fit", "replace", 3, COACH / "lap3.txt", 1, WORKOUT, names[2], *names[3:])
        self.told(3, other, "replace", 3, COACH / "lap3.txt", 2, WORKOUT, names[1], *names[3:])
        self.told(3, "after lap 3 starts", "replace", 2, COACH / "lap3.txt", 1, WORKOUT, names[1], *names[3:])
        self.told(17, "no lap of that number", "replace", 7, COACH / "lap3.txt", 1, WORKOUT, names[1], *names[3:])
        self.assertFalse(names[3].exists() or names[4].exists())

    def test_a_lap_laid_out_elsewhere(self):
        gpx = self.put("t.gpx", GPX.format(encoding="UTF-8"))
        names = [self.folder / name for name in ("t.txt", "r.laps", "f.laps", "new.txt", "new.laps")]
        for words in (("read", gpx, names[0]), ("make", names[0], names[1]), ("fit", 1, names[1], names[2])):
            self.assertEqual(coach(*words)[0], 0)
        head = GPX.format(encoding="UTF-8").split("<trkseg>")
        second = self.put("second.gpx", head[0] + "<trkseg>" + head[2])
        self.assertEqual(coach("replace", 2, second, 1, names[0], names[2], *names[3:])[0], 0)
        self.assertEqual(names[3].read_bytes(), names[0].read_bytes())
        self.told(3, "without a place on the earth", "replace", 3, second, 1, WORKOUT, self.fit_of_sample(), self.folder / "a",
                  self.folder / "b")

    def fit_of_sample(self):
        coach("make", WORKOUT, self.folder / "s.laps")
        coach("fit", 1, self.folder / "s.laps", self.folder / "sf.laps")
        return self.folder / "sf.laps"


if __name__ == "__main__":
    unittest.main()
