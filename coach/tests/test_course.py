"""Courses of SVG path data: what is taken out of a file, where a text breaks the rules, and what is written."""
import random
import struct
import subprocess
import xml.dom.minidom

from support import COACH, TOOL, Case, coach
from lapfile import bodies_of
from pathdata import Walk, path_data
from trouble import Trouble

TRACK = ("M 0 0 L 84.39 0 C 104.541 0 120.89 16.349 120.89 36.5 C 120.89 56.651 104.541 73 84.39 73 "
         "L 0 73 C -20.151 73 -36.5 56.651 -36.5 36.5 C -36.5 16.349 -20.151 0 0 0")


def proved(text):
    """What the proved reader says of a text: 0, or the number of a refusal."""
    return subprocess.run([str(TOOL), "read", "-", "-"], input=text, capture_output=True, check=False).returncode


class Taken(Case):
    """The text of a file."""

    def test_plain_text(self):
        self.assertEqual(path_data(b"M 1 2", "x"), b"M 1 2")
        self.assertEqual(path_data(b"M 1 2\n", "x"), b"M 1 2")
        self.assertEqual(path_data(b"M 1 2\r\n", "x"), b"M 1 2")
        self.assertEqual(path_data(b"M 1 2\n\n", "x"), b"M 1 2\n")
        self.assertEqual(path_data(b"", "x"), b"")

    def test_first_path_of_a_picture(self):
        file = b"""<?xml version="1.0"?>\n<svg xmlns="http://www.w3.org/2000/svg"><g><rect/>
            <path style="fill:none" d="M 1 2 L 3 4"/><path d="M 9 9"/></g></svg>"""
        self.assertEqual(path_data(file, "x"), b"M 1 2 L 3 4")

    def test_pictures_without_one(self):
        for file, words in ((b"<svg/>", "has no path"), (b"<svg><path/></svg>", "no path data"), (b"<svg>", "is no SVG"),
                            (b'<!DOCTYPE s [<!ENTITY a "b">]><svg><path d="M 1 2"/></svg>', "declares an entity")):
            with self.assertRaises(Trouble) as trouble:
                path_data(file, "club.svg")
            self.assertIn("club.svg", str(trouble.exception))
            self.assertIn(words, str(trouble.exception))


class Broken(Case):
    """At which byte a text breaks the rules, and what was expected there."""

    def test_each_rule(self):
        for text, byte, expected in (
                ("L 1 2", 1, "M"), (" M 1 2", 1, "M"), ("m 1 2", 1, "M"), ("M1 2", 2, "a single space"), ("M 1", 4, "a single space"),
                ("M  1 2", 3, "a minus or a digit"), ("M - 1", 4, "a digit"), ("M .5 2", 3, "a minus or a digit"),
                ("M 1,2", 4, "a space"), ("M 12345678 2", 10, "at most seven digits"), ("M 1. 2", 5, "a decimal"),
                ("M 1.2345 2", 8, "at most three decimals"), ("M 1 2 ", 7, "M, L or C"), ("M 1 2 Z", 7, "M, L or C"),
                ("M 1 2 3 4", 7, "M, L or C"), ("M 1 2\nL 3 4", 6, "a space"), ("M 1 2 C 1 2 3 4", 16, "number 5 of C")):
            at, told = Walk(text.encode()).broken
            self.assertEqual(at + 1, byte, text)
            self.assertIn(expected, told, text)

    def test_agrees_with_the_proved_reader(self):
        draw = random.Random(11)
        for _ in range(400):
            text = bytearray(draw.choice(("M 0 0", "M -1.5 20 L 3.25 -0", "M 1 2 C 1 2 3 4 5 6.789 M 9 9", TRACK[:40])).encode())
            for _ in range(draw.randrange(3)):
                at = draw.randrange(len(text))
                text[at:at + 1] = draw.choice((b"", text[at:at + 1] * 2, bytes([draw.choice(b" 019.-MLCmz,+e\n\xff")])))
            number = proved(bytes(text))
            self.assertEqual(number == 14, Walk(bytes(text)).broken is not None, text)

    def test_told_in_words(self):
        for text, words in (("M 10,80", "byte 5 of the path data"), ("M 10,80", "commas are not read"),
                            ("m 10 80", "relative commands are not read"), ("M 1 2 Z", "only M, L and C are read"),
                            ("M 1 2 L 1", "the text ends there"), ("M 1e3 2", "exponents are not read")):
            self.told(24, words, "course", self.put("a.txt", text), 2, self.folder / "a.svg")
        self.told(15, "byte 5 of the path data", "course", self.put("a.txt", "M 0 1000000.001"), 2, self.folder / "a.svg")
        self.told(12, "too many", "course", self.put("a.txt", " ".join(["M 0 0"] * 65)), 2, self.folder / "a.svg")
        self.assertEqual(self.names(), ["a.txt"])


    def test_as_drawing_programs_write(self):
        """Paths of drawing programs are refused, and each message says what to change."""
        for data, words in (('m 10,80 c 30,-40 60,-40 90,0 z', "relative"), ("M10 80 L 100 80", "a single space"),
                            ("M 10 80 Q 52.5 10, 95 80 T 180 80", "only M, L and C"), ("M 0,0 H 100 V 50", "commas"),
                            ("M 0.123456 1 L 2 3 Z", "at most three decimals"), ("M 10 80 L -1.2e3 4", "exponents")):
            self.told(24, words, "course", self.put("club.svg", f'<svg><path d="{data}"/></svg>'), 2, self.folder / "a.svg")


class Drawn(Case):
    def test_the_sample(self):
        code, out, error = coach("course", COACH / "course.svg", 2, self.folder / "a.svg")
        self.assertEqual((code, error), (0, ""))
        self.assertIn("13 commands in 2 laps", out)

    def test_files(self):
        course, picture = self.put("track.txt", TRACK + "\n"), self.folder / "track.svg"
        recorded, fitted = self.folder / "track.laps", self.folder / "fitted.laps"
        code, out, error = coach("course", course, 2, picture, "--recorded", recorded, "--fitted", fitted)
        self.assertEqual(code, 0, error)
        self.assertIn("7 commands in 1 lap", out)
        (commands,) = bodies_of(recorded.read_bytes(), "x")
        self.assertEqual(commands[2], (3, 120.89, 36.5, 0.0, 104.541, 0.0, 0.0, 120.89, 16.349, 0.0))
        self.assertEqual(bodies_of(fitted.read_bytes(), "x")[0][0][:4], (0, 0.0, 0.0, 0.0))
        paths = xml.dom.minidom.parse(str(picture)).getElementsByTagName("path")
        self.assertIn("given", [path.getAttribute("class") for path in paths])
        self.told(4, "is there already", "course", course, 2, picture)
        self.told(4, "is also an input", "course", course, 2, course, "--force")

    def test_the_picture_lies_as_it_was_drawn(self):
        """In SVG y grows downwards, and so it does in the picture: a course below its start is below it there."""
        code, out, error = coach("course", self.put("a.txt", "M 0 0 L 100 0 L 100 50"), 1, "-")
        self.assertEqual(code, 0, error)
        path = next(line for line in out.splitlines() if 'class="given"' in line)
        start, _, end = [list(map(float, part.split()[1:])) for part in path.split('d="')[1].split('"')[0].replace(" L", "|L").split("|")]
        self.assertGreater(end[1], start[1])

    def test_nothing_and_one_place(self):
        for text, words in (("", "0 commands in 0 laps"), ("M 1 2", "1 command in 1 lap")):
            code, _, error = coach("course", self.put("a.txt", text), 1, "-")
            self.assertEqual(code, 0, error)
            self.assertIn(words, error)
        self.assertEqual(proved(b""), 0)

    def test_numbers_are_thousandths(self):
        recorded = self.folder / "a.laps"
        coach("course", self.put("a.txt", "M -0 0.1 L -0.007 1000000"), 1, "-", "--recorded", recorded)
        (commands,) = bodies_of(recorded.read_bytes(), "x")
        self.assertEqual([struct.pack("<2d", *c[1:3]) for c in commands], [struct.pack("<2d", 0.0, 0.1), struct.pack("<2d", -0.007, 1e6)])
