"""A fitted file for older screens: every Arc as Lines, written and drawn."""
import math
import struct
import unittest
import xml.dom.minidom

from support import WORKOUT, Case, coach
from lapfile import ARC, LINE, commands_of


def lap_file(*commands):
    """A lap file of one lap."""
    body = b"".join(struct.pack("<B9d", kind, *numbers, *[0.0] * (9 - len(numbers))) for kind, *numbers in commands)
    return b"LAPS" + struct.pack("<III", 1, 16, len(commands)) + body


QUARTER = ((0, 5, 0, 0), (ARC, 0, 5, 10, -5, 0, 0, 0, 0, 1), (LINE, 0, 9, 10))


class Older(Case):
    def fitted(self):
        recorded, fitted = self.folder / "recorded.laps", self.folder / "fitted.laps"
        coach("make", WORKOUT, recorded)
        coach("fit", 1, recorded, fitted)
        return fitted

    def test_no_arc_is_left(self):
        fitted, lines = self.fitted(), self.folder / "lines.laps"
        code, out, error = coach("lines", 1, fitted, lines, "--picture", self.folder / "lines.svg")
        self.assertEqual((code, error), (0, ""))
        before, after = (commands_of(file.read_bytes(), "file") for file in (fitted, lines))
        self.assertTrue(any(command[0] == ARC for lap in before for command in lap))
        self.assertFalse(any(command[0] == ARC for lap in after for command in lap))
        for lap, drawn in zip(before, after):
            ends = [command[1:4] for command in drawn]
            places = [ends.index(command[1:4]) for command in lap]
            self.assertEqual(places, sorted(places))
            self.assertEqual(ends[-1], lap[-1][1:4])
        self.assertIn("leave them by 0.", out)
        xml.dom.minidom.parse(str(self.folder / "lines.svg"))

    def test_lines_keep_near_the_arc(self):
        lines = self.folder / "lines.laps"
        for tolerance, count in ((8, 1), (4, 2), (0.1, 8)):
            self.assertEqual(coach("lines", tolerance, self.put("arc.laps", lap_file(*QUARTER)), lines, "--force")[0], 0)
            (lap,) = commands_of(lines.read_bytes(), "file")
            self.assertEqual(len(lap), 2 + count)
            ends = [command[1:3] for command in lap[:-1]]
            for a, b in zip(ends, ends[1:]):
                self.assertLess(5 - math.hypot((a[0] + b[0]) / 2, (a[1] + b[1]) / 2), tolerance / 4)

    def test_what_is_not_drawn(self):
        lines = self.folder / "lines.laps"
        arc = self.put("arc.laps", lap_file(*QUARTER))
        self.told(16, "the tolerance must be", "lines", 0, arc, lines)
        self.told(21, "cannot be drawn by Lines", "lines", 1, self.put("off.laps", lap_file((0, 5, 0, 0), (ARC, 0, 9, 0, -5, 0, 0, 0, 0, 1))), lines)
        wide = lap_file((0, 1e6, 0, 0), (ARC, 0, 1e6, 0, -1e6, 0, 0, 0, 0, 1))
        self.told(3, "a greater tolerance gives fewer", "lines", 0.001, self.put("wide.laps", wide), lines)
        self.told(13, "no lap file", "lines", 1, self.put("none.laps", b"LAPS\1\0\0\0"), lines)
        self.told(4, "is also an input", "lines", 1, arc, arc, "--force")
        self.assertFalse(lines.exists())
        self.assertEqual(coach("lines", 1, arc, lines)[0], 0)
        self.told(4, "--force", "lines", 1, arc, lines)

    def test_a_file_of_no_laps(self):
        lines = self.folder / "lines.laps"
        self.assertEqual(coach("lines", 1, self.put("none.laps", b"LAPS\0\0\0\0"), lines, "--picture", self.folder / "none.svg")[0], 0)
        self.assertEqual(lines.read_bytes(), b"LAPS\0\0\0\0")


if __name__ == "__main__":
    unittest.main()
