"""A recording played through the live thinner, as the watch does while a lap is run: where each end of a straight came out, and how
late."""
from collections import namedtuple

from fitting import count
from proved import live_ends
from trouble import Trouble

HEAD = f"{'lap':>4} {'end':>4} {'position':>9} {'run at':>9} {'drawn at':>9} {'late by':>15}"

# An end: the position that it is, counted from 0, and the position at which it came out; the close comes with the last one.
End = namedtuple("End", "place drawn")


def calls_of(lap, changes):
    """What the watch is told: each position, and before the first one at or after its time a new tolerance; and for each call the
    position with which it comes."""
    calls, left = [], sorted(changes)
    for index, position in enumerate(lap):
        while left and left[0][0] <= position.time:
            calls.append((max(index - 1, 0), (left.pop(0)[1],)))
        calls.append((index, position.place))
    return calls


def ends_of(lap, tolerance, changes, name):
    """The ends of a lap, each found among its positions."""
    places, calls = [tuple(map(float, position.place)) for position in lap], calls_of(lap, changes)
    ends, last = [], 0
    for call, place in live_ends(tolerance, [told for _, told in calls], name):
        last = next((i for i in range(last + 1, len(places)) if places[i] == place), None)
        if last is None:
            raise Trouble(f"{name}: an end that is none of its positions")
        ends.append(End(last, calls[call][0] if call < len(calls) else len(places) - 1))
    return ends


def lines_of(number, lap, ends):
    for index, end in enumerate(ends, 1):
        run, drawn = lap[end.place].time, lap[end.drawn].time
        late = f"{drawn - run:.2f} s, {end.drawn - end.place:3}"
        yield f"{number:4} {index:4} {end.place + 1:9} {run:9.2f} {drawn:9.2f} {late:>15}"


def live_text(workout, tolerance, changes, name):
    """A table of the ends, and a line about all of them. A change is a time of the workout and the tolerance from then on."""
    for time, _ in changes:
        if not any(lap[0].time < time <= lap[-1].time for lap in workout.laps):
            raise Trouble(f"{name}: no lap is run at {time:g} s")
    lines, latest, total = [HEAD], 0.0, 0
    for number, lap in enumerate(workout.laps, 1):
        own = [change for change in changes if lap[0].time < change[0] <= lap[-1].time]
        ends = ends_of(lap, tolerance, own, name)
        lines += lines_of(number, lap, ends)
        total += len(ends)
        latest = max([latest] + [lap[end.drawn].time - lap[end.place].time for end in ends])
    fed = sum(map(len, workout.laps))
    lines.append(f"{count(fed, 'position')} in {count(len(workout.laps), 'lap')}, {count(total, 'straight')} drawn; "
                 f"the latest end came out {latest:.2f} s after it was run")
    return "\n".join(lines) + "\n"
