"""Which tolerance to take, from the receiver's noise: several are tried and shown, and one is advised, with the reason."""
import math
import statistics

from bends import Limits
from fitting import fitted_pieces
from geometry import farthest
from progress import watched
from rows import WHOLE, part_rows

TRIED = (0.25, 0.5, 0.75, 1.0, 1.5, 2.0, 3.0, 4.0, 6.0)
TIMES_NOISE = 3.0  # at twice the noise many laps are misread: study.py
THIRD = math.sqrt(1 + 9 + 9 + 1)  # the spread of a third difference of white noise, in spreads of the noise
MIDDLE = statistics.NormalDist().inv_cdf(0.75)  # the middle size of a normal error, in its spread


def noise(laps):
    """The spread of the receiver's error from one position to the next: third differences see neither a steady run nor a
    steady bend, and half of them are below the middle one, whatever a few outliers do. None on fewer than four positions."""
    sizes = []
    for lap in laps:
        for a, b, c, d in zip(lap, lap[1:], lap[2:], lap[3:]):
            if math.isclose(b.time - a.time, c.time - b.time) and math.isclose(c.time - b.time, d.time - c.time):
                sizes += [abs(s - 3 * r + 3 * q - p) for p, q, r, s in zip(a.place, b.place, c.place, d.place)][:2]
    return statistics.median(sizes) / MIDDLE / THIRD if sizes else None


def advised(spread, tolerances):
    """The least of the tolerances that is several times the noise; None where none is."""
    return next((t for t in sorted(tolerances) if t >= TIMES_NOISE * spread), None)


def tried(workout, tolerance, name):
    """A line about the fit at a tolerance."""
    pieces = fitted_pieces(workout, tolerance, name)
    parts = sum(row.part != WHOLE for row in part_rows(workout.laps, pieces, tolerance, Limits()))
    gaps = [farthest([p.place for p in lap], [p.stroke for p in own])[0] for lap, own in zip(workout.laps, pieces)]
    return f"{tolerance:7g} m {sum(map(len, pieces)):7} {parts:20} {max(gaps):16.2f} m"


def reason(spread, tolerances):
    """Which tolerance, and why."""
    if spread is None:
        return ["no advice: the noise shows on four positions at even times, and there are none"]
    error = f"from one position to the next, the receiver's error is about {spread:.2f} m"
    best = advised(spread, tolerances)
    if best is None:
        return [f"{error}: more than a third of every tolerance above, so each of them would fit the noise;",
                f"try {math.ceil(TIMES_NOISE * spread)} m and more"]
    return [f"{error}. I would take {best:g} m, the least of these that is {TIMES_NOISE:g} times",
            "that: noise alone then seldom makes a piece. A finer one cuts the noise into pieces, a coarser one cuts bends late."]


def advice_text(workout, tolerances, name):
    lines = ["tolerance  pieces  bends and straights  farthest position"]
    lines += (tried(workout, tolerance, name) for tolerance in watched(tolerances, len(tolerances), "fitting"))
    return "\n".join(lines + reason(noise(workout.laps), tolerances)) + "\n"
