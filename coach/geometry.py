"""Drawn pieces: a straight or an arc in the plane, its length, how it turns, and how far a position lies from it."""
import math
from dataclasses import dataclass

from lapfile import ARC


@dataclass(frozen=True)
class Stroke:
    """A Line or an Arc as it is drawn: its ends, and for an arc the centre's offset from the start and its direction."""
    start: tuple
    end: tuple
    offset: tuple = None
    clockwise: bool = False

    @property
    def is_arc(self):
        return self.offset is not None

    @property
    def centre(self):
        return self.start[0] + self.offset[0], self.start[1] + self.offset[1]

    @property
    def radius(self):
        return math.hypot(*self.offset)

    @property
    def angle(self):
        """How far an arc turns, from 0 to a whole turn; 0 for a straight."""
        return self.angle_to(self.end) if self.is_arc else 0.0

    def angle_to(self, place):
        """The angle from the start to a place, seen from the centre, in the arc's direction."""
        first, last = (math.atan2(p[1] - self.centre[1], p[0] - self.centre[0]) for p in (self.start, place))
        return (first - last if self.clockwise else last - first) % (2 * math.pi)

    @property
    def turn(self):
        """The angle with its sign: to the left above zero."""
        return -self.angle if self.clockwise else self.angle

    @property
    def length(self):
        return self.radius * self.angle if self.is_arc else math.dist(self.start[:2], self.end[:2])

    def heading(self, at_end):
        """The direction in which it is run, at its start or at its end."""
        if not self.is_arc:
            return math.atan2(self.end[1] - self.start[1], self.end[0] - self.start[0])
        place = self.end if at_end else self.start
        spoke = math.atan2(place[1] - self.centre[1], place[0] - self.centre[0])
        return spoke + (-math.pi / 2 if self.clockwise else math.pi / 2)

    def distance(self, place):
        """From a place to the nearest point of the stroke, in the plane."""
        if self.is_arc:
            if self.angle_to(place) <= self.angle:
                return abs(math.dist(place[:2], self.centre) - self.radius)
            return min(math.dist(place[:2], end[:2]) for end in (self.start, self.end))
        ax, ay = self.start[0], self.start[1]
        dx, dy = self.end[0] - ax, self.end[1] - ay
        square = dx * dx + dy * dy
        along = ((place[0] - ax) * dx + (place[1] - ay) * dy) / square if square else 0.0
        along = min(1.0, max(0.0, along))
        return math.dist(place[:2], (ax + along * dx, ay + along * dy))

    def share(self, place):
        """How far along it the point is that is nearest to a place in the plane, from 0 to 1."""
        if self.is_arc:
            inside = self.angle and self.angle_to(place) <= self.angle
            if inside:
                return self.angle_to(place) / self.angle
            return float(math.dist(place[:2], self.end[:2]) < math.dist(place[:2], self.start[:2]))
        return nearest(self.start[:2], self.end[:2], place)

    def distance_in_space(self, place):
        """From a place to the nearest point of a straight, in x, y and z; to that point of an arc that is nearest in the plane."""
        along = self.share(place) if self.is_arc else nearest(self.start, self.end, place)
        return math.dist(place, self.at(along))

    def points(self, sagitta):
        """Places along it, the end last, close enough that chords leave an arc by less than the sagitta."""
        steps = 1
        if self.is_arc and self.radius > sagitta:
            steps = max(1, math.ceil(self.angle / (2 * math.acos(1 - sagitta / self.radius))))
        for i in range(1, steps):
            yield self.at(i / steps)
        yield self.end

    def at(self, share):
        """The place after a share of its length, from 0 to 1."""
        z = self.start[2] + share * (self.end[2] - self.start[2])
        if not self.is_arc:
            return tuple(a + share * (b - a) for a, b in zip(self.start[:2], self.end[:2])) + (z,)
        turned = share * self.turn
        x, y = self.start[0] - self.centre[0], self.start[1] - self.centre[1]
        cosine, sine = math.cos(turned), math.sin(turned)
        return self.centre[0] + x * cosine - y * sine, self.centre[1] + x * sine + y * cosine, z


def nearest(start, end, place):
    """How far along the way between two places the point is that is nearest to a third, from 0 to 1."""
    way = [b - a for a, b in zip(start, end)]
    square = sum(w * w for w in way)
    along = sum((p - a) * w for p, a, w in zip(place, start, way)) / square if square else 0.0
    return min(1.0, max(0.0, along))


def strokes_of(commands):
    """The drawn pieces of a fitted lap, which has no Bezier: its Move gives the first start."""
    strokes, start = [], tuple(commands[0][1:4])
    for kind, *numbers in commands[1:]:
        end = tuple(numbers[:3])
        arc = (tuple(numbers[3:5]), numbers[8] < 0) if kind == ARC else (None, False)
        strokes.append(Stroke(start, end, *arc))
        start = end
    return strokes


def away(place, strokes, in_space=False):
    """The distance of a place from the strokes, in the plane or in space."""
    return min((stroke.distance_in_space(place) if in_space else stroke.distance(place) for stroke in strokes), default=0.0)


def farthest(places, strokes, in_space=False):
    """The greatest distance of a place from the strokes, and the index of the first place that has it."""
    if not strokes:
        return 0.0, 0
    gaps = [away(place, strokes, in_space) for place in places]
    return max(gaps), gaps.index(max(gaps))
