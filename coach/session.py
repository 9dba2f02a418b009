"""Look first, then store: the ticket of a look, and the edit number of a fitted file, which stands in a text beside it.

A ticket holds what the proved asking gave, its numbers and the part that it fitted, and the positions that were looked at. It is stored
by the proved commit, which refuses one that is old; the edit number goes up with each commit, by 1, from 0."""
import json
import math
import re
import struct
from dataclasses import dataclass

from trouble import Trouble
from workout import Position

ENDING = ".session"
COMMAND = 73


@dataclass(frozen=True)
class Ticket:
    """The lap, the tolerance, the edit number, and the commands of the lap and of the next where that is fitted again; the part, which has
    these commands; and the positions of the lap."""
    lap: int
    tolerance: float
    edit: int
    count: int
    next: int
    part: bytes
    positions: list

    @property
    def numbers(self):
        return self.lap, self.tolerance, self.edit, self.count, self.next

    @property
    def last(self):
        """The last lap that it changes."""
        return self.lap + (self.next > 0)

    def shown_in(self, laps):
        """The commands of each lap of a fitted file, with the part's in their places."""
        found = [struct.unpack_from("<B9d", self.part, at) for at in range(0, len(self.part), COMMAND)]
        own, following = found[:self.count], found[self.count:]
        return laps[:self.lap - 1] + [own] + ([following] if following else []) + laps[self.last:]


def ticket_text(ticket):
    places = [[position.time, *position.place] for position in ticket.positions]
    fields = dict(zip(("lap", "tolerance", "edit", "count", "next"), ticket.numbers))
    lines = [f'"{name}": {json.dumps(value)}' for name, value in {**fields, "part": ticket.part.hex(), "positions": places}.items()]
    return ("{" + ",\n ".join(lines) + "}\n").encode()


def read_ticket(data, name):
    """A ticket as `look` wrote it. What a commit can refuse by number is left to it."""
    try:
        found = json.loads(data)
        wholes = [found[field] for field in ("lap", "edit", "count", "next")]
        places = [tuple(map(float, place)) for place in found["positions"]]
        tolerance, part = float(found["tolerance"]), bytes.fromhex(found["part"])
    except (ValueError, KeyError, TypeError) as error:
        raise Trouble(f"{name}: is no ticket of a look, or is damaged") from error
    right = all(type(whole) is int and 0 <= whole < 2 ** 64 for whole in wholes) and places
    if not right or not all(len(place) == 4 and all(map(math.isfinite, place)) for place in places):
        raise Trouble(f"{name}: is no ticket of a look, or is damaged")
    lap, edit, count, following = wholes
    return Ticket(lap, tolerance, edit, count, following, part, [Position(time, tuple(place)) for time, *place in places])


def session_of(fitted):
    """Where a fitted file's edit number stands."""
    return fitted + ENDING


def session_text(edits):
    return f"edits {edits}\n".encode()


def edits_of(files, fitted):
    """The edit number of a fitted file, 0 where nothing was stored in it yet."""
    data = files.read_if_there(session_of(fitted))
    if data is None:
        return 0
    found = re.fullmatch(rb"edits (\d{1,9})\s*", data)
    if not found:
        raise Trouble(f"{session_of(fitted)}: does not hold the edit number of {fitted}, such as 'edits 1'")
    return int(found.group(1))
