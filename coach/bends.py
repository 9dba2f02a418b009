"""Bends and straights as a person sees them: the pieces of a fitted lap, joined.

A piece's turn is the angle that it turns by itself and half of the corner at either end; its radius of turning is its length
over that. A piece that turns on a radius above a limit is straight, an Arc too; so is a Line so long that a bend of that
turn would leave it by several tolerances, as the side of a square. Neighbours of one kind join, two straights unless they
point different ways. A straight too short to be told from a bend joins the bend in which it lies; then whatever is still too
short joins what is beside it; and a bend that hardly turns is straight."""
import math
from dataclasses import dataclass

STRAIGHT = 0


@dataclass(frozen=True)
class Limits:
    """flat: the greatest radius of a bend, in metres. turn: the least turn of a bend, and the least angle between two
    straights that stay two, in degrees. misfit: by how many tolerances a bend may leave a Line that is part of it, and how
    long a piece must be to have a direction. short: the shortest part, in metres; where it is not given, the chord that a
    bend on the radius `flat` leaves by the tolerance, since below that the fit tells no bend from a straight."""
    flat: float = 100.0
    turn: float = 30.0
    misfit: float = 3.0
    short: float = None

    def shortest(self, tolerance):
        return math.sqrt(8 * self.flat * tolerance) if self.short is None else self.short


@dataclass(frozen=True)
class Part:
    """A bend (1 to the left, -1 to the right) or a straight (0): neighbouring pieces, and how far they turn in all."""
    way: int
    pieces: tuple
    turn: float

    @property
    def length(self):
        return sum(piece.stroke.length for piece in self.pieces)

    @property
    def heading(self):
        """The direction from its start to its end."""
        (x, y), (u, v) = self.pieces[0].stroke.start[:2], self.pieces[-1].stroke.end[:2]
        return math.atan2(v - y, u - x)

    def with_next(self, other, way):
        return Part(way, self.pieces + other.pieces, self.turn + other.turn)


def between(first, second):
    """The angle from one direction to another, from a half turn right to a half turn left."""
    return math.remainder(second - first, 2 * math.pi)


def turns(pieces, least):
    """How far each piece turns, with half of its corners. A piece shorter than the least has no direction, so no corner."""
    corners = [0.0]
    for one, other in zip(pieces, pieces[1:]):
        told = min(one.stroke.length, other.stroke.length) >= least
        corners.append(between(one.stroke.heading(True), other.stroke.heading(False)) if told else 0.0)
    return [p.stroke.turn + (a + b) / 2 for p, a, b in zip(pieces, corners, corners[1:] + [0.0])]


def way_of(stroke, turn, tolerance, limits):
    """Whether a piece is part of a bend, and to which side."""
    flat = abs(turn) * limits.flat <= stroke.length
    side = not stroke.is_arc and stroke.length * abs(turn) / 8 > limits.misfit * tolerance
    return STRAIGHT if flat or side else (1 if turn > 0 else -1)


def joined(parts, limits):
    """Neighbours of one kind as one part; two straights only where they point the same way."""
    whole = []
    for part in parts:
        if whole and whole[-1].way == part.way and (part.way or aligned(whole[-1], part, limits)):
            whole[-1] = whole[-1].with_next(part, part.way)
        else:
            whole.append(part)
    return whole


def aligned(one, other, limits):
    return abs(between(one.heading, other.heading)) < math.radians(limits.turn)


def within_bend(parts, i):
    """Whether a part is a straight between two bends that turn the same way."""
    inner = 0 < i < len(parts) - 1 and parts[i].way == STRAIGHT
    return inner and parts[i - 1].way == parts[i + 1].way != STRAIGHT


def absorbed(parts, i):
    """The parts with the i-th given to a neighbour: the only one, a straight before a bend, else the longer one. A straight
    between bends that turn different ways stays: None."""
    beside = [j for j in (i - 1, i + 1) if 0 <= j < len(parts)]
    ways = {parts[j].way for j in beside}
    if len(ways) == 2 and parts[i].way == STRAIGHT and STRAIGHT not in ways:
        return None
    to = max(beside, key=lambda j: (len(ways) == 2 and parts[j].way == STRAIGHT, parts[j].length))
    first, second = min(i, to), max(i, to)
    return parts[:first] + [parts[first].with_next(parts[second], parts[to].way)] + parts[second + 1:]


def parts_of(pieces, tolerance, limits=Limits()):
    """A lap's bends and straights."""
    shortest = limits.shortest(tolerance)
    turned = zip(pieces, turns(pieces, limits.misfit * tolerance))
    parts = joined([Part(way_of(p.stroke, turn, tolerance, limits), (p,), turn) for p, turn in turned], limits)
    while len(parts) > 1:
        short = [i for i, part in enumerate(parts) if part.length < shortest and absorbed(parts, i)]
        if not short:
            break
        parts = joined(absorbed(parts, min(short, key=lambda i: (not within_bend(parts, i), parts[i].length))), limits)
    least = math.radians(limits.turn)
    return joined([Part(STRAIGHT, p.pieces, p.turn) if abs(p.turn) < least else p for p in parts], limits)


def names(parts):
    """bend 1, straight 1, bend 2 .. along a lap."""
    counts, found = {}, []
    for part in parts:
        kind = "bend" if part.way else "straight"
        counts[kind] = counts.get(kind, 0) + 1
        found.append(f"{kind} {counts[kind]}")
    return found
