"""Workouts: recorded positions in metres, lap by lap, from any recording; and as text."""
import math
from dataclasses import dataclass, field

from earth import FARTHEST as FARTHEST_ON_EARTH
from earth import Plane
from gpx import OTHERS, read_gpx
from lapfile import FARTHEST, MOST_COMMANDS, MOST_LAPS
from progress import watched
from table import Table
from times import iso, seconds
from trouble import Refused, Trouble

OWN = "# lap time x y z"  # how the workout's own text starts
CARRIES_ON = "laps carry on"  # a remark of it
SLOWEST = 0.01  # metres a second: whoever moves less has recorded degrees, where 0.01 is a kilometre
TOO_MANY = "; --laps-at FROM..TO,.. takes the repetitions alone"


@dataclass(frozen=True)
class Position:
    time: float
    place: tuple


@dataclass
class Workout:
    """Recorded laps of positions; where on the earth (0, 0) is, and the Unix time of second 0, where these are known; and
    whether each lap carries on from where the last one ended."""
    recorded: list
    origin: tuple = None
    start: float = None
    carries_on: bool = False

    @property
    def laps(self):
        """The laps with the position from which each starts, which is the last lap's last one where they carry on."""
        if not self.carries_on:
            return self.recorded
        return self.recorded[:1] + [starting_at(before[-1], lap) for before, lap in zip(self.recorded, self.recorded[1:])]


def starting_at(last, lap):
    """A lap from the place of the last position on. A receiver may give that place once more, as the lap's first."""
    return lap if len(lap) > 1 and lap[0].place == last.place else [last, *lap]


@dataclass
class Choices:
    """What a reader of a recording may be told: the columns of a table, when laps start and end, whether to count laps
    anew, whether laps carry on, whether it must be a single lap of any number, and the workout it belongs to."""
    columns: list = None
    laps_at: list = field(default_factory=list)
    renumber: bool = False
    carry_on: bool = False
    alone: bool = False
    part_of: Workout = None


def read_workout(data, name, choices=Choices()):
    """The workout of a recording: GPX, or a table such as the workout's own text."""
    if data[8:12] == b".FIT":
        raise Trouble(f"{name}: is a .fit file; {OTHERS}")
    if data.lstrip(b"\xef\xbb\xbf\xff\xfe \t\r\n\0").startswith(b"<"):
        fixes, table = read_gpx(data, name), None
    else:
        table = Table(data, name, choices.columns)
        fixes = list(watched(table.fixes(), len(table.lines), f"reading {name}"))
    times, start = clock_of(fixes, remark(table, "start"), choices.part_of)
    if table is None or table.in_degrees:
        plane = plane_of(fixes[0], choices.part_of)
        places, origin = laid_out(fixes, plane), plane.origin
    else:
        places, origin = in_metres(fixes), remark(table, "origin")
        same_origin(origin, choices.part_of, name)
    positions = [Position(*pair) for pair in zip(times, places)]
    laps = laps_of(fixes, positions, start, choices)
    if table and not table.in_degrees and not table.stated and origin is None:
        stop_degrees(laps, name)
    return Workout(laps, origin, start, choices.carry_on or carries_on(table))


def carries_on(table):
    """Whether the workout's own text says that its laps carry on."""
    return bool(table) and any(words == CARRIES_ON.split() for _, words in table.remarks)


def remark(table, word):
    """The numbers behind a remark of the workout's own text, such as '# origin 60.17 24.94 12'; None without it."""
    for where, words in table.remarks if table else ():
        if words[:1] == [word]:
            try:
                values = tuple(seconds(w)[0] if word == "start" else float(w) for w in words[1:])
            except ValueError as error:
                raise Trouble(f"{where}: '{' '.join(words)}' has something else than numbers") from error
            if len(values) != (1 if word == "start" else 3):
                raise Trouble(f"{where}: '{' '.join(words)}' has too many numbers, or too few")
            return values[0] if word == "start" else values
    return None


def clock_of(fixes, stated, part_of):
    """The times in seconds, and the Unix time of second 0. Absolute times count from the first position, or as the workout
    does that this recording is a part of."""
    read = []
    for fix in fixes:
        try:
            read.append(seconds(fix.time))
        except ValueError as error:
            raise Trouble(f"{fix.where}: '{fix.time}' is no time: seconds, mm:ss, ISO 8601 or Unix time") from error
        if read[-1][1] != read[0][1]:
            raise Trouble(f"{fix.where}: '{fix.time}' is another kind of time than the first position's")
    if not read[0][1]:
        return [value for value, _ in read], stated
    start = read[0][0] if part_of is None or part_of.start is None else part_of.start
    return [round(value - start, 6) for value, _ in read], start


def plane_of(fix, part_of):
    """The plane about the first position, or about the origin of the workout that this recording is a part of."""
    if part_of is not None and part_of.origin is None:
        raise Trouble(f"{fix.where}: latitude and longitude, where the workout has metres without a place on the earth")
    check_degrees(fix)
    return Plane(*part_of.origin) if part_of else Plane(fix.y, fix.x, fix.z or 0.0)


def check_degrees(fix):
    if not (abs(fix.y) <= 90 and abs(fix.x) <= 360):
        raise Trouble(f"{fix.where}: latitude {fix.y:g} and longitude {fix.x:g} are no degrees")


def laid_out(fixes, plane):
    """Places in metres about the plane's origin; heights above it."""
    places = []
    for fix in fixes:
        check_degrees(fix)
        x, y = plane.metres(fix.y, fix.x)
        if math.hypot(x, y) > FARTHEST_ON_EARTH:
            raise Trouble(f"{fix.where}: is {math.hypot(x, y) / 1000:.0f} km from the first position")
        z = 0.0 if fix.z is None else fix.z - plane.origin[2]
        places.append((round(x, 3) + 0.0, round(y, 3) + 0.0, round(z, 3) + 0.0))
    return places


def in_metres(fixes):
    places = [(fix.x, fix.y, fix.z or 0.0) for fix in fixes]
    for fix, place in zip(fixes, places):
        if not all(abs(x) <= FARTHEST for x in place):
            raise Refused(5, fix.where)
    return places


def same_origin(origin, part_of, name):
    if part_of is not None and origin != part_of.origin and origin is not None:
        raise Trouble(f"{name}: its metres count from another place than the workout's")


def laps_of(fixes, positions, start, choices):
    """The laps, by a given list of times, by the fixes' lap numbers, or all as one; checked."""
    numbers = [1 if fix.lap is None else fix.lap for fix in fixes]
    if choices.laps_at:
        spans = spans_of(choices.laps_at, start)
        numbers = [lap_at(position.time, spans) for position in positions]
    laps, last, count = [], None, 0
    for fix, number, position in zip(fixes, numbers, positions):
        if number is None:
            continue
        count += 1
        if number != last:
            check_number(number, laps, fix.where, choices)
            laps.append([])
            last = number
        check_time(position, laps, fix.where)
        laps[-1].append(position)
        if len(laps) > MOST_LAPS or count > MOST_COMMANDS:
            raise Refused(2, fix.where, TOO_MANY)
    if not laps:
        raise Trouble("no position lies in a lap of --laps-at")
    return laps


def spans_of(words, start):
    """The laps of a list of times, each FROM..TO, or FROM alone and then to the next one: pairs of seconds."""
    spans = []
    for word in words:
        try:
            ends = [seconds(end) for end in word.split("..")]
        except ValueError as error:
            raise Trouble(f"--laps-at: '{word}' is no time") from error
        if len(ends) > 2 or start is None and any(absolute for _, absolute in ends):
            raise Trouble(f"--laps-at: '{word}' is no FROM or FROM..TO in the recording's kind of time")
        values = [value - start if absolute else value for value, absolute in ends]
        spans.append((values[0], values[-1] if len(values) == 2 else math.inf))
    if any(a[0] >= b[0] for a, b in zip(spans, spans[1:])):
        raise Trouble("--laps-at: the times go back")
    return spans


def lap_at(time, spans):
    """The number of the last lap that has started by then; None before the first, and where that lap is over."""
    number = sum(begin <= time for begin, _ in spans)
    return number if number and time <= spans[number - 1][1] else None


def check_number(number, laps, where, choices):
    if choices.alone and laps:
        raise Trouble(f"{where}: a second lap, where one was asked for")
    if not choices.alone and not choices.renumber and not choices.laps_at and number != len(laps) + 1:
        expected = f"lap {len(laps)} or {len(laps) + 1}" if laps else "lap 1"
        raise Trouble(f"{where}: lap {number}, where {expected} was expected; --renumber counts the laps anew")


def check_time(position, laps, where):
    """Within a lap times grow; a lap may start at the very time at which the last one ended."""
    before = laps[-1] or (laps[-2] if len(laps) > 1 else [])
    if before and position.time < before[-1].time:
        raise Trouble(f"{where}: its time, {position.time:g} s, is before the last position's, {before[-1].time:g} s")
    if laps[-1] and position.time == before[-1].time:
        raise Trouble(f"{where}: has the same time as the last position, {position.time:g} s")


def stop_degrees(laps, name):
    """Metres that hardly move, in the range of degrees, are taken for degrees."""
    places = [position.place for lap in laps for position in lap]
    lengths = [sum(math.dist(a.place[:2], b.place[:2]) for a, b in zip(lap, lap[1:])) for lap in laps]
    spent = sum(lap[-1].time - lap[0].time for lap in laps)
    in_range = all(abs(x) <= 360 and abs(y) <= 360 for x, y, _ in places)
    if in_range and spent > 0 and sum(lengths) < SLOWEST * spent:
        raise Trouble(
            f"{name}: moves {sum(lengths):.5f} m in {spent:g} s: are these degrees? --columns lap,time,lat,lon says so, and "
            "--columns lap,time,x,y,z that they are metres")


def check_laps(laps, name):
    """Laps in the order of their times, as after a replacement."""
    for number, (lap, after) in enumerate(zip(laps, laps[1:]), 1):
        if after[0].time < lap[-1].time:
            raise Trouble(f"{name}: lap {number} ends at {lap[-1].time:g} s, after lap {number + 1} starts, {after[0].time:g} s")


def own_text(data, name):
    """The workout of its own text, which can be written where it is; a recording of another shape cannot."""
    if not data.startswith(OWN.encode()):
        raise Trouble(f"{name}: is no workout's own text, which starts with '{OWN}' and is what a store changes; read makes one of a recording")
    return read_workout(data, name)


def workout_text(workout):
    """The workout's own text, one position a line."""
    lines = [OWN]
    if workout.origin:
        lines.append("# origin " + " ".join(map(repr, workout.origin)))
    if workout.start is not None:
        lines.append(f"# start {iso(workout.start)}")
    if workout.carries_on:
        lines.append(f"# {CARRIES_ON}")
    for number, positions in enumerate(workout.recorded, 1):
        lines += (" ".join(map(str, (number, p.time, *p.place))) for p in positions)
    return "\n".join(lines) + "\n"
