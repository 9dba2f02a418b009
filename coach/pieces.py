"""The pieces of fitted laps beside the recorded times: a piece starts and ends at recorded positions."""
from dataclasses import dataclass

from geometry import Stroke, strokes_of
from trouble import Refused, Trouble


@dataclass(frozen=True)
class Piece:
    """A fitted straight or bend, and the indices of the recorded positions at its two cuts."""
    stroke: Stroke
    first: int
    last: int


def pieces_of(laps, fitted):
    """Each lap's pieces. The next position along the lap that is equal to a piece's end is its cut; the last piece ends
    with the lap."""
    if len(laps) != len(fitted):
        raise Refused(3, f"{len(laps)} recorded laps and {len(fitted)} fitted ones")
    return [list(lap_pieces(*lap)) for lap in zip(laps, fitted, range(1, len(laps) + 1))]


def lap_pieces(positions, commands, number):
    at, strokes = 0, strokes_of(commands)
    if tuple(commands[0][1:4]) != positions[0].place:
        raise Trouble(f"lap {number} does not start at its first recorded position: this is not the fit of this workout")
    for i, stroke in enumerate(strokes):
        first = len(positions) - 1 if stroke is strokes[-1] else at + 1
        to = next((j for j in range(first, len(positions)) if positions[j].place == stroke.end), None)
        if to is None:
            raise Trouble(f"lap {number}: piece {i + 1} ends at no recorded position: this is not the fit of this workout")
        yield Piece(stroke, at, to)
        at = to
