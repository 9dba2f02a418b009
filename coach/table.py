"""Tables of positions as text: any usual encoding, separator and decimal mark, with a header or without."""
import csv
import re

from gpx import Fix
from times import number, seconds
from trouble import Trouble

NAMES = {
    "lap": "lap laps lapnumber lapindex rep repetition interval segment runde",
    "time": "time timestamp seconds sec secs s t utc datetime date elapsed elapsedtime zeit",
    "x": "x east easting",
    "y": "y north northing",
    "z": "z ele elevation alt altitude height hoehe höhe",
    "lat": "lat latitude positionlat breite",
    "lon": "lon lng long longitude positionlong länge laenge",
}
COLUMNS = {word: column for column, words in NAMES.items() for word in words.split()}
PLAIN = {3: "time x y", 4: "lap time x y", 5: "lap time x y z"}
SEPARATORS = ("\t", ";", ",", None)
REMARK, SPREADSHEET = "#", "sep="  # a spreadsheet's first line names its separator, which shows anyhow
LOOK_AHEAD = 20


def decoded(data):
    """The text of bytes: UTF-16 or UTF-8 by their marks or their looks, else Latin-1."""
    for mark, encoding in ((b"\xff\xfe", "utf-16"), (b"\xfe\xff", "utf-16"), (b"\xef\xbb\xbf", "utf-8-sig")):
        if data.startswith(mark):
            return data.decode(encoding, errors="replace")
    if data[1:2] == b"\0" or data[:1] == b"\0":
        return data.decode("utf-16-le" if data[1:2] == b"\0" else "utf-16-be", errors="replace")
    try:
        return data.decode("utf-8")
    except UnicodeDecodeError:
        return data.decode("latin-1")


def lines_of(data):
    """The lines of bytes, counted as an editor counts them."""
    return re.split(r"\r\n|\r|\n", decoded(data))


def fields(line, separator):
    if separator is None:
        return line.split()
    return [field.strip() for field in next(csv.reader([line], delimiter=separator))]


def is_value(word):
    """Whether a word is a number or a time."""
    try:
        seconds(word)
    except ValueError:
        return False
    return True


def separator_of(lines):
    """The separator by which the most lines are three or more values, then the most words; so one slip does not hide it."""
    def values(separator):
        rows = [[is_value(word) or not word for word in fields(line, separator)] for line in lines]
        rows = [row for row in rows if len(row) >= 3]
        return sum(map(all, rows)), sum(map(sum, rows)), len(rows)

    return max(SEPARATORS, key=values)


def header_of(row):
    """The columns that a header names, by their names without units; none where the row has a value in it."""
    if any(map(is_value, row)):
        return None
    plain = [re.sub(r"\(.*?\)|\[.*?\]|[\W_]|\d", "", word.lower()) for word in row]
    return [COLUMNS.get(word) for word in plain]


def checked(columns, where):
    """Columns, each once, with a time and a place."""
    known = [column for column in columns if column]
    twice = next((column for column in known if known.count(column) > 1), None)
    if twice:
        raise Trouble(f"{where}: two columns are a {twice}; --columns says which is which")
    if "time" not in known or not ({"x", "y"} <= set(known) or {"lat", "lon"} <= set(known)):
        raise Trouble(f"{where}: no columns time, x, y or time, lat, lon; --columns names them, as in --columns lap,time,lat,lon")
    return columns


class Table:
    """The rows of a text, each with its place in the file; `remarks` has the words of lines that start with #."""

    def __init__(self, data, name, columns=None):
        lines = [(f"{name}, line {i}", line) for i, line in enumerate(lines_of(data), 1) if line.strip()]
        self.remarks = [(where, line.lstrip(REMARK).split()) for where, line in lines if line.startswith(REMARK)]
        self.lines = [(where, line) for where, line in lines if not line.lower().startswith((REMARK, SPREADSHEET))]
        if not self.lines:
            raise Trouble(f"{name}: has no position")
        self.separator = separator_of([line for _, line in self.lines[:LOOK_AHEAD]])
        where, first = self.lines[0]
        row = fields(first, self.separator)
        header = header_of(row)
        if header:
            del self.lines[0]
        plain = PLAIN.get(len(row), "").split()
        self.stated = bool(columns)
        self.columns = checked(columns or header or plain, where)
        if not self.lines:
            raise Trouble(f"{name}: has no position")

    @property
    def in_degrees(self):
        return "lat" in self.columns

    def fixes(self):
        z = None
        for where, line in self.lines:
            row = fields(line, self.separator)
            if len(row) != len(self.columns):
                names = " ".join(column or "-" for column in self.columns)
                raise Trouble(f"{where}: has {len(row)} fields; a position is: {names}")
            values = {column: word for column, word in zip(self.columns, row) if column}
            fix = fix_of(values, where, z)
            z = fix.z
            yield fix


def fix_of(values, where, last_z):
    """A fix; where the height is left out, it is the last one's."""
    lap = values.get("lap")
    if lap is not None and not re.fullmatch("[0-9]{1,9}", lap):
        raise Trouble(f"{where}: '{lap}' is no number of a lap")
    places = []
    for column in ("lon", "lat") if "lat" in values else ("x", "y"):
        try:
            places.append(number(values[column]))
        except ValueError as error:
            raise Trouble(f"{where}: '{values[column]}' is no number of the column {column}") from error
    try:
        z = number(values["z"]) if values.get("z") else last_z
    except ValueError as error:
        raise Trouble(f"{where}: '{values['z']}' is no number of the column z") from error
    return Fix(where, None if lap is None else int(lap), values["time"], *places, z)
