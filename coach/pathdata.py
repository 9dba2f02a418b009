"""SVG path data: a course's text out of a file, and where a text breaks document 02's rules.

The proved reader alone decides what is read. This module finds the text, and says of a text that was refused at which byte it
breaks the rules and what was expected there. Bytes are counted from 1."""
from xml.parsers import expat

from trouble import Trouble

DIGITS, DECIMALS, FARTHEST = 7, 3, 1_000_000_000   # of a number; the most thousandths of one
NUMBERS = {"M": 2, "L": 2, "C": 6}

# What drawing programs write and this reader does not take: how to write it instead.
HINTS = {
    ",": "commas are not read: write single spaces",
    "\n": "line ends are not read: write single spaces",
    "\t": "tabs are not read: write single spaces",
    "+": "a plus sign is not read: leave it out",
    "e": "exponents are not read: write the number out",
    "E": "exponents are not read: write the number out",
    **{letter: "relative commands are not read: have the drawing program write absolute ones" for letter in "mlcazhvsqt"},
    **{letter: "only M, L and C are read: have the drawing program write straights and curves as these" for letter in "AZHVSQT"},
}


class First:
    """Finds the path data of the first path in an SVG file."""

    def __init__(self, name):
        self.name, self.data, self.paths = name, None, 0
        self.parser = expat.ParserCreate(namespace_separator=" ")
        self.parser.StartElementHandler = self.start
        self.parser.EntityDeclHandler = self.entity

    def where(self):
        return f"{self.name}, line {self.parser.CurrentLineNumber}"

    def entity(self, *_):
        raise Trouble(f"{self.where()}: declares an entity, which no course needs")

    def start(self, tag, attributes):
        if tag.split(" ")[-1] == "path":
            self.paths += 1
            if self.paths == 1:
                if "d" not in attributes:
                    raise Trouble(f"{self.where()}: the first path has no path data (d)")
                self.data = attributes["d"]


def path_data(data, name):
    """The text of a course: the first path's of an SVG file, or the file's own, but for a line end behind it."""
    if data.lstrip(b"\xef\xbb\xbf \t\r\n")[:1] != b"<":
        return data[:-2] if data.endswith(b"\r\n") else data[:-1] if data.endswith(b"\n") else data
    first = First(name)
    try:
        first.parser.Parse(data, True)
    except expat.ExpatError as error:
        raise Trouble(f"{name}, line {error.lineno}: is no SVG: {expat.ErrorString(error.code)}") from error
    if first.data is None:
        raise Trouble(f"{name}: has no path")
    return first.data.encode()


class Walk:
    """Goes along a text by the grammar. `broken` holds the place of the first byte that breaks it, from 0, and what was expected
    there; `numbers` the place and the thousandths of each number before it."""

    def __init__(self, text):
        self.text, self.at, self.broken, self.numbers = text.decode("latin-1"), 0, None, []
        if self.text:
            self.command("M, since a course starts with one")
        while self.broken is None and self.at < len(self.text):
            if self.take(" ", "a space or the end of the text, since the command is whole"):
                self.command("M, L or C")

    def take(self, allowed, expected):
        """Steps over one of the allowed characters; answers it, or notes what was expected."""
        found = self.text[self.at:self.at + 1]
        if found and found in allowed:
            self.at += 1
            return found
        self.broken = self.at, expected
        return ""

    def command(self, expected):
        letter = self.take("M" if self.at == 0 else "MLC", expected)
        for place in range(NUMBERS.get(letter, 0)):
            if self.broken is None and self.take(" ", f"a single space before number {place + 1} of {letter}"):
                self.number()

    def digits(self, most, expected):
        """As many digits as there are, at most so many; at least one."""
        start = self.at
        while self.at - start < most and self.text[self.at:self.at + 1] in set("0123456789"):
            self.at += 1
        if self.at == start:
            self.broken = start, expected
        return self.text[start:self.at]

    def number(self):
        start, sign = self.at, 1
        if self.text[self.at:self.at + 1] == "-":
            self.at, sign = self.at + 1, -1
        whole = self.digits(DIGITS, "a digit" if sign < 0 else "a minus or a digit")
        decimals, most = "", "a space or the end of the text"
        if self.broken is None and len(whole) == DIGITS:
            most = "a point, a space or the end of the text, since a number has at most seven digits"
        if self.broken is None and self.text[self.at:self.at + 1] == ".":
            self.at += 1
            decimals = self.digits(DECIMALS, "a decimal behind the point")
            most = "a space or the end of the text" + (", since a number has at most three decimals" if len(decimals) == DECIMALS else "")
        if self.broken is None and self.text[self.at:self.at + 1] not in ("", " "):
            self.broken = self.at, most
        if self.broken is None:
            self.numbers.append((start, sign * int(whole + decimals.ljust(DECIMALS, "0"))))


def shown(text, at):
    """The byte at a place, for people."""
    found = text.decode("latin-1")[at:at + 1]
    if not found:
        return "the text ends there"
    return f"it is {found!r}" if " " <= found <= "~" else f"it is {ord(found):#04x}"


def place_of(text, number, name):
    """Where a text meets a refusal, and what to say of it."""
    walk = Walk(text)
    if number == 5:
        far = next((at for at, value in walk.numbers if abs(value) > FARTHEST), None)
        return (name,) if far is None else (f"{name}, byte {far + 1} of the path data",)
    if number != 14 or walk.broken is None:
        return (name,)
    at, expected = walk.broken
    hint = HINTS.get(text.decode("latin-1")[at:at + 1], "")
    return f"{name}, byte {at + 1} of the path data", f": expected there: {expected}; {shown(text, at)}" + (f"; {hint}" if hint else "")
