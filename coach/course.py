"""One lap as a drawing, in pixels: thin lines, each recorded position, ticks at the cuts, the pace at each bend and straight.

Titles of elements are what a reader sees when pointing at them."""
import math
from dataclasses import dataclass
from xml.sax.saxutils import escape

from geometry import away, farthest
from listing import clock

WIDTH, HEAD = 380, 40
BESIDE, ABOVE = 50, 34            # pixels left for writing beside a course, and above and below it
LEAST, MOST = 100, 420            # pixels of the height that a course is drawn in
SMALLEST = 1.0                    # metres: a smaller course is drawn as if it had this size
TICK, BORDER, START = 4.5, 8, 11
SMALL, LARGE, SHARE = 0.5, 1.3, 0.25  # pixels of a dot; and at most this share of the way to the next one
LABEL, ARROW = 17, 9              # pixels from the course to the pace, and to the arrow
LETTERS, LINE = 34, 13            # pixels that a pace takes


@dataclass(frozen=True)
class Frame:
    """How metres become pixels: the same for all laps of a picture. y grows downwards in a picture."""
    left: float
    top: float
    scale: float
    height: float

    @staticmethod
    def of(places):
        xs, ys = [p[0] for p in places], [p[1] for p in places]
        wide, high = (max(SMALLEST, max(axis) - min(axis)) for axis in (xs, ys))
        scale = min((WIDTH - 2 * BESIDE) / wide, (MOST - 2 * ABOVE) / high)
        height = max(LEAST, high * scale + 2 * ABOVE)
        left = (min(xs) + max(xs) - WIDTH / scale) / 2
        top = (min(ys) + max(ys) + height / scale) / 2
        return Frame(left, top, scale, height)

    def at(self, place):
        return (place[0] - self.left) * self.scale, HEAD + (self.top - place[1]) * self.scale


def px(*numbers):
    return " ".join(f"{number:.2f}" for number in numbers)


def titled(tag, attributes, title, inner=""):
    return f"<{tag} {attributes}><title>{escape(title)}</title>{inner}</{tag}>"


def path_of(strokes, frame):
    """Straights and arcs as one path."""
    words = ["M", px(*frame.at(strokes[0].start))]
    for stroke in strokes:
        if stroke.is_arc:
            radius = stroke.radius * frame.scale
            words += ["A", px(radius, radius), "0", str(int(stroke.angle > math.pi)), str(int(stroke.clockwise))]
        else:
            words.append("L")
        words.append(px(*frame.at(stroke.end)))
    return " ".join(words)


def across(place, heading, size, frame):
    """The two ends of a tick across the course."""
    x, y = frame.at(place)
    u, v = size * math.sin(heading), size * math.cos(heading)
    return x - u, y - v, x + u, y + v


def tick(stroke, at_end, size, kind, frame):
    """A tick at an end of a stroke; it is thin, so that the position below it shows."""
    ends = across(stroke.end if at_end else stroke.start, stroke.heading(at_end), size, frame)
    return f'<path class="{kind}" d="M {px(*ends[:2])} L {px(*ends[2:])}"/>'


def middle(row):
    """The place and the heading half-way along a row."""
    left = row.length / 2
    for stroke in row.strokes:
        if left <= stroke.length or stroke is row.strokes[-1]:
            share = left / stroke.length if stroke.length else 0.0
            return stroke.at(share), stroke.heading(False) + share * stroke.turn
        left -= stroke.length
    return row.strokes[0].start, 0.0


def outward(place, heading, centre):
    """Across the course, away from the lap's centre: a direction in the plane."""
    normal = math.sin(heading), -math.cos(heading)
    away = (place[0] - centre[0]) * normal[0] + (place[1] - centre[1]) * normal[1]
    return normal if away >= 0 else (-normal[0], -normal[1])


def label(row, side, frame):
    """The pace beside the middle of a bend or straight, on a side of the course: its writing, and the box it takes."""
    (u, v), (x, y) = side, frame.at(middle(row)[0])
    anchor = "middle" if abs(u) < 0.5 else ("start" if u > 0 else "end")
    reach = LABEL if anchor == "middle" else LABEL - 7
    x, y = x + reach * u, y - reach * v + 4
    left = x - {"start": 0, "middle": LETTERS / 2, "end": LETTERS}[anchor]
    drawn = f'<text class="pace" x="{x:.2f}" y="{y:.2f}" text-anchor="{anchor}">{clock(row.pace)}</text>'
    return drawn, (left, y - LINE, left + LETTERS, y)


def labels(rows, centre, frame):
    """Paces, longer parts first, outside of the course or inside; where neither has room, the strip below has the pace."""
    taken = []
    for row in sorted(rows, key=lambda row: -row.length):
        u, v = outward(*middle(row), centre)
        for side in ((u, v), (-u, -v)):
            drawn, box = label(row, side, frame)
            if not any(overlap(box, other) for other in taken):
                taken.append(box)
                yield drawn
                break


def overlap(one, other):
    return one[0] < other[2] and other[0] < one[2] and one[1] < other[3] and other[1] < one[3]


def arrow(stroke, centre, frame):
    """Beside the start: the direction of running."""
    heading = stroke.heading(False)
    u, v = outward(stroke.start, heading, centre)
    x, y = frame.at(stroke.start)
    x, y = x - ARROW * u, y + ARROW * v
    degrees = -math.degrees(heading)
    return f'<path class="arrow" transform="translate({px(x, y)}) rotate({degrees:.1f})" d="M 0 0 H 18 M 13 -4 L 18 0 L 13 4"/>'


def told(row):
    """A row as a sentence."""
    bend = f", radius {row.radius:.1f} m" if row.radius else ""
    return (f"lap {row.lap}, {row.part}: {row.length:.1f} m in {row.time:.2f} s, {clock(row.pace)} a kilometre, "
            f"give or take {clock(row.pace_error)}{bend}")


def dots(number, positions, strokes, frame, in_space):
    """The recorded positions, smaller where they are close together."""
    steps = [math.dist(a.place[:2], b.place[:2]) for a, b in zip(positions, positions[1:])]
    radius = min(LARGE, max(SMALL, SHARE * frame.scale * sum(steps) / max(1, len(steps))))
    for i, position in enumerate(positions, 1):
        x, y = frame.at(position.place)
        far = away(position.place, strokes, in_space)
        title = f"lap {number}, position {i}: {position.time:.2f} s, {far:.2f} m from the course"
        yield titled("circle", f'class="position" cx="{x:.2f}" cy="{y:.2f}" r="{radius:.2f}"', title)


def lap_drawing(name, number, positions, rows, frame, in_space=False):
    """A lap: its rows are its bends and straights, and the whole. How far positions are off counts heights, or does not."""
    *parts, whole = rows
    strokes = whole.strokes
    places = [position.place for position in positions]
    centre = [(min(axis) + max(axis)) / 2 for axis in zip(*places)]
    far = farthest(places, strokes, in_space)[0]
    head = f'<text class="name" x="12" y="18">{name}: {clock(whole.pace)} a km</text>' \
        f'<text class="small" x="12" y="33">{whole.length:.0f} m in {whole.time:.1f} s; farthest position {far:.2f} m off</text>'
    yield titled("g", f'class="lap" data-row="{number}-whole"', told(whole), head)
    for row in parts:
        kind = "bend" if row.part.startswith("bend") else "straight"
        line = path_of(row.strokes, frame)
        drawn = f'<path class="hit" d="{line}"/><path class="line" d="{line}"/>'
        yield titled("g", f'class="part {kind}" data-row="{number}-{row.part.replace(" ", "")}"', told(row), drawn)
    yield from (tick(stroke, True, TICK, "cut", frame) for stroke in strokes[:-1])
    yield from (tick(row.strokes[-1], True, BORDER, "border", frame) for row in parts[:-1])
    yield tick(strokes[0], False, START, "start", frame)
    yield arrow(strokes[0], centre, frame)
    yield from dots(number, positions, strokes, frame, in_space)
    yield from labels(parts, centre, frame)
