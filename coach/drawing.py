"""The picture of a course that was drawn: what was read as a thin line, and the fit over it as straights and bends."""
from course import BORDER, START, Frame, arrow, path_of, px, tick, titled
from fitting import count
from geometry import strokes_of
from lapfile import ARC, BEZIER, started
from picture import framed

GIVEN = "  .given { fill: none; stroke: #9aa3b2; stroke-width: 3.2 }\n"


def mirrored(commands):
    """The commands with y turned round: in SVG it grows downwards, in metres upwards."""
    turned = []
    for kind, x, y, z, a, b, c, d, e, f in commands:
        other = (d, e, -f) if kind == ARC else (d, -e, f)
        turned.append((kind, x, -y, z, a, -b, c, *other))
    return turned


def given_path(commands, frame):
    """What was read, as path data in pixels."""
    words = []
    for kind, *numbers in commands:
        places = [numbers[3:5], numbers[6:8], numbers[0:2]] if kind == BEZIER else [numbers[0:2]]
        words.append("MLAC"[kind] + " " + " ".join(px(*frame.at(place)) for place in places))
    return " ".join(words)


def piece(lap, number, stroke, frame):
    kind = "bend" if stroke.is_arc else "straight"
    radius = f", radius {stroke.radius:.1f} m" if stroke.is_arc else ""
    line = path_of([stroke], frame)
    drawn = f'<path class="hit" d="{line}"/><path class="line" d="{line}"/>'
    return titled("g", f'class="part {kind}"', f"lap {lap}, piece {number}, {kind}: {stroke.length:.1f} m{radius}", drawn)


def lap_lines(number, commands, strokes, centre, frame):
    yield f'<path class="given" d="{given_path(commands, frame)}"/>'
    yield from (piece(number, i, stroke, frame) for i, stroke in enumerate(strokes, 1))
    yield from (tick(stroke, True, BORDER, "cut", frame) for stroke in strokes[:-1])
    if strokes:
        yield tick(strokes[0], False, START, "start", frame)
        yield arrow(strokes[0], centre, frame)


def places_of(commands):
    """The ends and controls of commands: a curve stays among them."""
    for kind, *numbers in commands:
        yield from (numbers[i:i + 2] for i in ((0, 3, 6) if kind == BEZIER else (0,)))


def length(strokes):
    return sum(stroke.length for lap in strokes for stroke in lap)


def drawing_of(recorded, fitted, tolerance):
    """The picture of all laps in one frame, as SVG."""
    laps = [mirrored(commands) for commands in recorded]
    strokes = [strokes_of(mirrored(commands)) for commands in started(fitted)]
    places = [place for commands in laps for place in places_of(commands)]
    frame = Frame.of(places or [(0.0, 0.0)])
    centre = [(min(axis) + max(axis)) / 2 for axis in zip(*places)] if places else [0.0, 0.0]
    title = f"{count(len(laps), 'lap')}, fitted at a tolerance of {tolerance:g} m"
    numbered = enumerate(zip(laps, strokes), 1)
    lines = [line for number, (commands, own) in numbered for line in lap_lines(number, commands, own, centre, frame)]
    return framed(title, course_line(recorded, fitted), frame, GIVEN, lines)


def course_line(recorded, fitted):
    """What was read and fitted, in one line."""
    strokes = [strokes_of(commands) for commands in started(fitted)]
    arcs = sum(stroke.is_arc for lap in strokes for stroke in lap)
    lines = sum(map(len, strokes)) - arcs
    return (f"{count(sum(map(len, recorded)), 'command')} in {count(len(recorded), 'lap')}; "
            f"{count(lines, 'straight')} and {count(arcs, 'bend')}, {length(strokes):.1f} m")
