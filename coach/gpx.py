"""GPX 1.1: the tracks of a file as fixes, segment by segment; laps written as tracks.

Python's own expat reads it, since it tells the line of each point; Debian's python3-gpxpy does not. Files of other makes
(a .fit, a .tcx) are best turned to GPX by Debian's gpsbabel."""
from xml.parsers import expat
from xml.sax.saxutils import escape

from times import iso
from trouble import Trouble


OTHERS = "Debian's gpsbabel turns many kinds of recordings into GPX"


class Fix:
    """A recorded position as it stands in the file: where, its lap if any, its time as written, and three numbers."""
    __slots__ = ("where", "lap", "time", "x", "y", "z")

    def __init__(self, where, lap, time, x, y, z):
        self.where, self.lap, self.time, self.x, self.y, self.z = where, lap, time, x, y, z


class Reader:
    """Collects the points of each segment that has any; x is the longitude, y the latitude, z the elevation or None."""

    def __init__(self, name):
        self.name, self.fixes, self.segment, self.fresh, self.point, self.words = name, [], 0, True, None, None
        self.rooted = False
        self.parser = expat.ParserCreate(namespace_separator=" ")
        self.parser.StartElementHandler = self.start
        self.parser.EndElementHandler = self.end
        self.parser.CharacterDataHandler = self.text
        self.parser.EntityDeclHandler = self.entity

    def where(self):
        return f"{self.name}, line {self.parser.CurrentLineNumber}"

    def entity(self, *_):
        raise Trouble(f"{self.where()}: declares an entity, which no recording needs")

    def start(self, tag, attributes):
        tag = tag.split(" ")[-1]
        if not self.rooted and tag != "gpx":
            raise Trouble(f"{self.where()}: is no GPX but {tag}; {OTHERS}")
        self.rooted = True
        if tag == "trkseg":
            self.fresh = True
        elif tag == "trkpt":
            self.segment, self.fresh = self.segment + self.fresh, False
            self.point = {"where": self.where(), **attributes}
        elif self.point is not None and tag in ("time", "ele"):
            self.words = []

    def text(self, words):
        if self.words is not None:
            self.words.append(words)

    def end(self, tag):
        tag = tag.split(" ")[-1]
        if self.words is not None and tag in ("time", "ele"):
            self.point.setdefault(tag, "".join(self.words).strip())
            self.words = None
        elif tag == "trkpt":
            self.fixes.append(self.fix(self.point))
            self.point = None

    def fix(self, point):
        where = point["where"]
        if not point.get("time"):
            raise Trouble(f"{where}: the position has no time")
        try:
            height = float(point["ele"]) if point.get("ele") else None
            return Fix(where, self.segment, point["time"], float(point["lon"]), float(point["lat"]), height)
        except (KeyError, ValueError) as error:
            raise Trouble(f"{where}: its latitude, longitude or elevation is missing or no number") from error


def read_gpx(data, name):
    reader = Reader(name)
    try:
        reader.parser.Parse(data, True)
    except expat.ExpatError as error:
        raise Trouble(f"{name}, line {error.lineno}: is no whole GPX file: {expat.ErrorString(error.code)}") from error
    except (LookupError, ValueError) as error:
        raise Trouble(f"{name}, line 1: is in no encoding that can be read: {error}") from error
    if not reader.fixes:
        raise Trouble(f"{name}: has no track with a position")
    return reader.fixes


def gpx_text(tracks, title):
    """Tracks of (latitude, longitude, height, Unix time or None), each a segment."""
    lines = [
        '<?xml version="1.0" encoding="UTF-8"?>',
        '<gpx version="1.1" creator="Pizhgarol" xmlns="http://www.topografix.com/GPX/1/1">',
        f" <trk><name>{escape(title)}</name>",
    ]
    for track in tracks:
        lines.append("  <trkseg>")
        for latitude, longitude, height, time in track:
            stamp = "" if time is None else f"<time>{iso(time)}</time>"
            lines.append(f'   <trkpt lat="{latitude:.9f}" lon="{longitude:.9f}"><ele>{height:.2f}</ele>{stamp}</trkpt>')
        lines.append("  </trkseg>")
    return "\n".join(lines + [" </trk>", "</gpx>", ""])
