"""The pace along the lap: one strip to each repetition, one field to each bend and straight, the slower the paler."""
from course import WIDTH, titled, told
from listing import clock

LEFT, RIGHT, HIGH, GAP, HEAD = 104, 62, 22, 4, 42
WIDEST = 3 * WIDTH
PALE, DEEP = (247, 240, 222), (120, 178, 205)  # of the slowest and the fastest pace; dark writing shows on both
STEPS = [digit * 10.0 ** power for power in range(-3, 7) for digit in (1, 2, 5)]


def nice(length, most):
    """The least round step that divides a length into no more parts than that."""
    return next((step for step in STEPS if length / step <= most), STEPS[-1])


def colour(pace, fastest, slowest):
    share = 0.5 if slowest == fastest else (slowest - pace) / (slowest - fastest)
    return "rgb({},{},{})".format(*(round(a + share * (b - a)) for a, b in zip(PALE, DEEP)))


def size(laps):
    return WIDEST, HEAD + len(laps) * (HIGH + GAP) + 6


def scale_of(laps):
    """The longest lap, and how many pixels a metre along a lap has."""
    longest = max(rows[-1].length for _, rows in laps) or 1.0
    return longest, (WIDEST - LEFT - RIGHT) / longest


def ruler(longest, scale):
    """The metres along the lap, above the laps."""
    step = nice(longest, 8)
    for metres in (i * step for i in range(int(longest / step) + 1)):
        x = LEFT + metres * scale
        yield f'<path class="cut" d="M {x:.2f} {HEAD - 6} v 4"/>'
        yield f'<text class="small" x="{x:.2f}" y="{HEAD - 9}" text-anchor="middle">{metres:g}{" m" if metres else ""}</text>'


def strip(laps):
    """Laps as pairs of a name and rows, of which the last is the whole lap."""
    paces = [row.pace for _, rows in laps for row in rows[:-1] if row.pace is not None] or [0.0]
    longest, scale = scale_of(laps)
    yield '<text class="name" x="12" y="16">pace along the lap; the slower, the paler</text>'
    yield from ruler(longest, scale)
    for i, (name, rows) in enumerate(laps):
        yield from one(name, rows, HEAD + i * (HIGH + GAP), scale, (min(paces), max(paces)))


def one(name, rows, y, scale, range_of_paces):
    yield f'<text class="small" x="{LEFT - 8}" y="{y + 15}" text-anchor="end">{name}</text>'
    x = LEFT
    for row in rows[:-1]:
        wide = row.length * scale
        fill = "#fff" if row.pace is None else colour(row.pace, *range_of_paces)
        inner = f'<rect x="{x:.2f}" y="{y}" width="{wide:.2f}" height="{HIGH}" fill="{fill}"/>'
        inner += f'<path class="line" d="M {x:.2f} {y + HIGH} h {wide:.2f}"/>'
        if wide > 34:
            inner += f'<text class="pace" x="{x + wide / 2:.2f}" y="{y + 15}" text-anchor="middle">{clock(row.pace)}</text>'
        kind = "bend" if row.part.startswith("bend") else "straight"
        yield titled("g", f'class="field {kind}" data-row="{row.lap}-{row.part.replace(" ", "")}"', told(row), inner)
        x += wide
    yield f'<text class="small" x="{x + 6:.2f}" y="{y + 15}">{clock(rows[-1].pace)}</text>'
