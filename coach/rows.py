"""Rows to read off: each piece, bend, straight or whole lap, with its length, time and pace and how well these are known."""
import math
from dataclasses import dataclass

from bends import names, parts_of

WHOLE = "whole"


@dataclass(frozen=True)
class Row:
    """A part of a lap: its strokes, the times of its two cuts, and the time between two positions there. A cut is a recorded
    position, and may be one position early or late: that is the reading error. What a part gains at a cut its neighbour
    loses, time and length; the two ends of a whole lap have no neighbour, and each of them counts."""
    lap: int
    part: str
    strokes: tuple
    from_time: float
    to_time: float
    step: float
    radius: float = None

    @property
    def length(self):
        return sum(stroke.length for stroke in self.strokes)

    @property
    def up(self):
        """The metres that its pieces climb."""
        return sum(max(0.0, stroke.end[2] - stroke.start[2]) for stroke in self.strokes)

    @property
    def down(self):
        return sum(max(0.0, stroke.start[2] - stroke.end[2]) for stroke in self.strokes)

    @property
    def time(self):
        return self.to_time - self.from_time

    @property
    def pace(self):
        """Seconds a kilometre; None on less than a centimetre."""
        return 1000 * self.time / self.length if self.length >= 0.01 else None

    @property
    def step_length(self):
        """How far one goes in the time between two positions, at this row's pace."""
        return self.step * self.length / self.time if self.time else 0.0

    @property
    def pace_error(self):
        """One position's time and one position's length, for a whole lap one at either end, as shares of the row's, and both
        together in the pace."""
        if self.pace is None or not self.time:
            return None
        ends = 2 if self.part == WHOLE else 1
        return self.pace * math.hypot(self.step / self.time, ends * self.step_length / self.length)


def longest_step(positions, *cuts):
    """The longest time between neighbouring positions at the cuts."""
    pairs = [(i, i + 1) for cut in cuts for i in (cut - 1, cut) if 0 <= i < len(positions) - 1]
    return max((positions[j].time - positions[i].time for i, j in pairs), default=0.0)


def row(lap, part, positions, pieces, radius=None):
    first, last = pieces[0].first, pieces[-1].last
    strokes = tuple(piece.stroke for piece in pieces)
    step = longest_step(positions, first, last)
    return Row(lap, part, strokes, positions[first].time, positions[last].time, step, radius)


def piece_rows(laps, fitted):
    """A row for each piece of each lap as it was fitted, and one for the whole lap."""
    for lap, (positions, pieces) in enumerate(zip(laps, fitted), 1):
        for piece in pieces:
            bend = piece.stroke.is_arc
            yield row(lap, "bend" if bend else "straight", positions, [piece], piece.stroke.radius if bend else None)
        if pieces:
            yield row(lap, WHOLE, positions, pieces)


def part_rows(laps, fitted, tolerance, limits):
    """A row for each bend and straight as a person sees them, and one for the whole lap."""
    for lap, (positions, pieces) in enumerate(zip(laps, fitted), 1):
        if not pieces:
            continue
        parts = parts_of(pieces, tolerance, limits)
        for name, part in zip(names(parts), parts):
            radius = part.length / abs(part.turn) if part.way else None
            yield row(lap, name, positions, part.pieces, radius)
        yield row(lap, WHOLE, positions, pieces)
