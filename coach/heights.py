"""The height along the lap, where it was fitted: a profile of each repetition below the paces, on the same scale along the lap. The
line goes through the fitted points; dots are recorded positions, each above the fitted course where it is nearest to it."""
from course import px, titled
from strip import HEAD, LEFT, RIGHT, WIDEST, nice, ruler, scale_of

HIGH, GAP, MARKS = 76, 22, 3
LOWEST = 5.0  # metres: a workout with less between its highest and its lowest place is drawn as if it had this
STYLE = """
  .level { fill: none; stroke: #cfd4dc; stroke-width: 0.8 }
  .kept circle { fill: #fff; stroke: #1f5fa8; stroke-width: 1.4 } .kept.on circle { stroke: #1f2430; stroke-width: 2.4 }
"""


def size(laps):
    return WIDEST, HEAD + len(laps) * (HIGH + GAP) + 6


def fitted_points(pieces):
    """Metres along the lap and height of each fitted point."""
    at, points = 0.0, [(0.0, pieces[0].stroke.start[2])]
    for piece in pieces:
        at += piece.stroke.length
        points.append((at, piece.stroke.end[2]))
    return points


def recorded_points(positions, pieces):
    """Metres along the lap and height of each recorded position, in order."""
    at, points = 0.0, []
    for piece in pieces:
        stroke = piece.stroke
        inner = positions[piece.first + bool(points):piece.last + 1]
        points += [(at + stroke.share(p.place) * stroke.length, p.place[2]) for p in inner]
        at += stroke.length
    return points


class Slope:
    """How metres along the lap, and heights, become pixels, for a profile that stands on a line of the picture."""

    def __init__(self, scale, heights, foot):
        self.scale, self.lowest, self.foot = scale, min(heights), foot
        self.range = max(LOWEST, max(heights) - self.lowest)

    def at(self, point):
        along, height = point
        return LEFT + along * self.scale, self.foot - (height - self.lowest) / self.range * HIGH

    def levels(self):
        """Round heights to be read off, on lines across."""
        step = nice(self.range, MARKS)
        first = -(-self.lowest // step)
        for height in (step * (first + i) for i in range(int(self.range / step) + 1)):
            y = self.at((0.0, height))[1]
            if y < self.foot - HIGH - 0.5:
                break
            yield f'<path class="level" d="M {LEFT} {y:.2f} H {WIDEST - RIGHT}"/>'
            yield f'<text class="small" x="{LEFT - 8}" y="{y + 4:.2f}" text-anchor="end">{height:g} m</text>'


def one(name, row, positions, pieces, slope):
    """A lap's profile; its row is the whole lap's."""
    yield from slope.levels()
    yield f'<text class="small" x="12" y="{slope.foot - HIGH / 2:.2f}">{name}</text>'
    yield f'<text class="small" x="{WIDEST - RIGHT + 6}" y="{slope.foot - HIGH / 2 - 8:.2f}">+{row.up:.0f} m</text>'
    yield f'<text class="small" x="{WIDEST - RIGHT + 6}" y="{slope.foot - HIGH / 2 + 8:.2f}">\u2212{row.down:.0f} m</text>'
    for i, (position, point) in enumerate(zip(positions, recorded_points(positions, pieces)), 1):
        x, y = slope.at(point)
        title = f"lap {row.lap}, position {i}: {position.time:.2f} s, {point[1]:.1f} m high"
        yield titled("circle", f'class="position" cx="{x:.2f}" cy="{y:.2f}" r="0.90"', title)
    points = fitted_points(pieces)
    line = " L ".join(px(*slope.at(point)) for point in points)
    yield f'<g class="straight"><path class="line" d="M {line}"/></g>'
    for point in points:
        x, y = slope.at(point)
        title = f"lap {row.lap}, fitted point at {point[0]:.1f} m: {point[1]:.1f} m high"
        yield titled("g", 'class="part kept"', title, f'<circle cx="{x:.2f}" cy="{y:.2f}" r="2.40"/>')


def profiles(laps):
    """Laps as a name, the whole lap's row, positions and pieces."""
    longest, scale = scale_of([(name, [row]) for name, row, _, _ in laps])
    heights = [p.place[2] for _, _, positions, _ in laps for p in positions]
    yield f"<style>{STYLE}</style>"
    yield '<text class="name" x="12" y="16">height along the lap: fitted points and recorded positions; metres up and down</text>'
    yield from ruler(longest, scale)
    for i, lap in enumerate(laps, 1):
        yield from one(*lap, Slope(scale, heights, HEAD + i * (HIGH + GAP) - GAP / 2))
