"""A map to print: the fewest straights of a lap over its recorded positions, with their count, the bound and the pairs tested."""
from course import Frame, px
from fitting import count
from picture import framed
from proved import fewest_straights

LINES = "  .given { fill: none; stroke: #9aa3b2; stroke-width: 1.2 }\n  .map { fill: none; stroke: #1b1f27; stroke-width: 2.4 }\n"


def drawn(kind, places, frame):
    points = " ".join(px(*frame.at(place)).replace(" ", ",") for place in places)
    return f'<polyline class="{kind}" points="{points}"/>'


def map_line(positions, ends, tested, bound):
    """What was found, in one line."""
    if len(ends) == bound:
        found = f"{count(len(ends), 'straight')}, the fewest"
    else:
        found = f"{count(len(ends), 'straight')}; the fewest are {bound} to {len(ends)}"
    return f"{count(positions, 'position')}, {found}; {count(tested, 'pair')} tested"


def map_of(lap, number, tolerance, budget, name):
    """The picture as SVG, and the line about it."""
    places = [tuple(map(float, position.place)) for position in lap]
    ends, tested, bound = fewest_straights(tolerance, budget, places, name)
    frame = Frame.of(places)
    title = f"lap {number}, the fewest straights at a tolerance of {tolerance:g} m"
    line = map_line(len(places), ends, tested, bound)
    dots = [f'<circle cx="{x:.2f}" cy="{y:.2f}" r="3"/>' for x, y in (frame.at(place) for place in [places[0], *ends])]
    lines = [drawn("given", places, frame), drawn("map", [places[0], *ends], frame), *dots]
    return framed(title, line, frame, LINES, lines), line
