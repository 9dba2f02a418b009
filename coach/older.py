"""A fitted file for older screens, which draw no arcs: what was drawn in one line, and a picture of the Lines over the arcs."""
from course import HEAD, WIDTH, Frame, path_of, px
from fitting import count
from geometry import strokes_of
from lapfile import MOST_COMMANDS, started

ACROSS, KEY, DOT = 3, 30, 1.6
STYLE = """
  text { font: 12px sans-serif; fill: #1f2430 } .name { font-weight: bold }
  .arc { fill: none; stroke: #e8a58c; stroke-width: 4 } .straight { fill: none; stroke: #b9c6d8; stroke-width: 4 }
  .lines { fill: none; stroke: #1f2430; stroke-width: 0.9 } .end { fill: #1f2430 }
"""


def pairs(laps, drawn):
    """To each stroke of each lap the Lines that draw it: an arc's run to its own end, a straight is its own."""
    for lap, lines in zip(started(laps), started(drawn)):
        left, found = iter(strokes_of(lines)), []
        for stroke in strokes_of(lap):
            run = [next(left)]
            while run[-1].end != stroke.end:
                run.append(next(left))
            found.append((stroke, run))
        yield found


def told(laps, drawn):
    """How many Lines the bends took, and how far they leave them."""
    bends = [pair for lap in pairs(laps, drawn) for pair in lap if pair[0].is_arc]
    lines = sum(len(run) for _, run in bends)
    far = max((arc.distance(line.at(0.5)) for arc, run in bends for line in run), default=0.0)
    total = sum(map(len, drawn))
    return (f"{count(len(bends), 'bend')} drawn by {count(lines, 'Line')}, which leave them by {far:.3f} m at most; "
            f"{count(total, 'command')} of the {MOST_COMMANDS} that a lap file holds")


def panel(number, found, frame):
    """One lap: its strokes, broad and light, and the Lines over them, with a dot at the end of each."""
    bends = sum(stroke.is_arc for stroke, _ in found)
    lines = sum(len(run) for stroke, run in found if stroke.is_arc)
    yield f'<text class="name" x="12" y="18">lap {number}: {count(bends, "bend")}, {count(lines, "Line")}</text>'
    for stroke, _ in found:
        yield f'<path class="{"arc" if stroke.is_arc else "straight"}" d="{path_of([stroke], frame)}"/>'
    runs = [line for _, run in found for line in run]
    if runs:
        yield f'<path class="lines" d="{path_of(runs, frame)}"/>'
    for line in runs:
        x, y = frame.at(line.end)
        yield f'<circle class="end" cx="{x:.2f}" cy="{y:.2f}" r="{DOT}"/>'


def picture(laps, drawn, tolerance):
    """The Lines of each lap over its straights and arcs, as one SVG."""
    found = list(pairs(laps, drawn))
    places = [p for lap in found for stroke, run in lap for p in (stroke.start, *stroke.points(tolerance), *(line.end for line in run))]
    frame = Frame.of(places or [(0.0, 0.0)])
    across = min(ACROSS, max(1, len(found)))
    high, rows = HEAD + frame.height, -(-len(found) // across)
    width, height = ACROSS * WIDTH, KEY + rows * high
    lines = [
        f'<svg xmlns="http://www.w3.org/2000/svg" role="img" aria-labelledby="title" width="{width}" height="{height:.0f}" '
        f'viewBox="0 0 {px(width, height)}">',
        f'<title id="title">Arcs drawn by Lines at a tolerance of {tolerance:g} m</title>',
        f"<style>{STYLE}</style>",
        '<rect width="100%" height="100%" fill="#fff"/>',
        '<path class="arc" d="M 12 16 h 26"/><text x="44" y="20">bend</text>',
        '<path class="straight" d="M 92 16 h 26"/><text x="124" y="20">straight</text>',
        '<path class="lines" d="M 192 16 h 26"/><text x="224" y="20">Lines, with a dot at the end of each</text>',
        f'<text x="470" y="20">tolerance {tolerance:g} m</text>',
    ]
    for i, lap in enumerate(found):
        lines.append(f'<svg x="{i % across * WIDTH}" y="{KEY + i // across * high:.0f}" width="{WIDTH}" height="{high:.0f}">')
        lines += [*panel(i + 1, lap, frame), "</svg>"]
    return "\n".join(lines + ["</svg>", ""])
