#!/usr/bin/env python3
"""How well `bends` reads paces: 200 made-up workouts of other seeds, tolerances and noises, against what was run.

  study.py [COUNT]    prints the spread of the errors; ends with 1 where a lap is not read as bend, straight, bend, straight
                      (odd), or a pace lies outside its stated error

The tolerance is at least three times the white error, as `advise` would have it."""
import math
import random
import statistics
import sys

from advice import TIMES_NOISE
from bends import Limits
from fitting import fitted_pieces
from make_workout import LAP, PARTS, REPETITIONS, Receiver, repetitions, whole_pace
from progress import watched
from rows import part_rows
from workout import Position, Workout

WORKOUTS, NOISY, TOLERANCES = 200, 60, (0.5, 0.75, 1.0, 1.5, 2.0, 3.0)
WHITE, DRIFT, MEMORY = (0.05, 0.5), (0.3, 2.0), (40.0, 120.0)


def workout_of(seed, receiver, eased):
    """A made-up workout, rounded as its text is, and the true paces of each lap."""
    laps, true = [], []
    for start, paces, positions in repetitions(seed, receiver, eased):
        laps.append([Position(start + round(time, 2), (round(x, 2), round(y, 2), 0.0)) for time, x, y in positions])
        true.append(paces)
    return Workout(laps), true


def readings(workout, true, tolerance):
    """To each lap its rows, the whole lap last, beside the true paces; None for a lap that is not read as bend, straight,
    bend, straight."""
    rows = list(part_rows(workout.laps, fitted_pieces(workout, tolerance, "study"), tolerance, Limits()))
    for lap, paces in enumerate(true, 1):
        own = [row for row in rows if row.lap == lap]
        fits = [row.part for row in own[:-1]] == [name for name, _ in PARTS]
        yield list(zip(own, [*paces, whole_pace(paces)])) if fits else None


def slower(rows):
    """Whether the second bend reads slower than the first, beyond the errors of both."""
    first, second = rows[0], rows[2]
    return second.pace - first.pace > math.hypot(first.pace_error, second.pace_error)


def tried(seed, noisy=False):
    """The tolerance of a workout, and its laps: how they read, and which second bends were eased. The white error is at most
    a third of the tolerance; where noisy, a half."""
    chance, tolerance = random.Random(-seed), TOLERANCES[seed % len(TOLERANCES)]
    white = chance.uniform(WHITE[0], min(WHITE[1], tolerance / TIMES_NOISE))
    receiver = Receiver(tolerance / 2 if noisy else white, chance.uniform(*DRIFT), chance.uniform(*MEMORY))
    eased = {lap for lap in range(1, REPETITIONS + 1) if chance.random() < 0.5}
    laps = readings(*workout_of(seed, receiver, eased), tolerance)
    return tolerance, [(rows, lap in eased) for lap, rows in enumerate(laps, 1)]


def wrong(laps):
    """How many laps are odd, and how many rows outside."""
    rows = [pair for rows, _ in laps if rows for pair in rows]
    return sum(not rows for rows, _ in laps), sum(abs(row.pace - true) > row.pace_error for row, true in rows)


def line(name, laps):
    """The errors of a group of laps, in seconds a kilometre and in stated errors."""
    read = [rows for rows, _ in laps if rows]
    errors = [row.pace - true for rows in read for row, true in rows]
    shares = sorted(abs(row.pace - true) / row.pace_error for rows in read for row, true in rows)
    right = sum(slower([row for row, _ in rows]) == eased for rows, eased in laps if rows)
    odd, outside = wrong(laps)
    print(f"{name:>9} {len(laps):5} {odd:4} {len(shares):5} {statistics.mean(errors):6.1f} "
          f"{statistics.pstdev(errors):7.1f} {max(map(abs, errors)):8.1f} {shares[len(shares) // 2]:9.2f} "
          f"{shares[len(shares) * 95 // 100]:5.2f} {shares[-1]:8.2f} {outside:7} {right:8}")


def print_lengths(laps):
    """How far the lengths of rows are off, which a cut moved along the lap changes together with their times."""
    pairs = [(row.length, length) for rows, _ in laps if rows for (row, _), (_, length) in zip(rows, PARTS)]
    errors = [found - true for found, true in pairs]
    whole = [rows[-1][0].length - LAP for rows, _ in laps if rows]
    for name, own in (("bends' and straights'", errors), ("whole laps'", whole)):
        print(f"{name} lengths: spread {statistics.pstdev(own):.1f} m, greatest error {max(map(abs, own)):.1f} m")


def main(words):
    workouts = int(words[0]) if words else WORKOUTS
    groups = {tolerance: [] for tolerance in TOLERANCES}
    for seed in watched(range(1, workouts + 1), workouts, "study"):
        tolerance, laps = tried(seed)
        groups[tolerance] += laps
    print("                            error, s a km            in stated errors                second bend")
    print("tolerance  laps  odd  rows   mean  spread greatest    middle  95 % greatest outside told right")
    for tolerance, laps in groups.items():
        line(f"{tolerance:g} m", laps)
    every = [lap for laps in groups.values() for lap in laps]
    line("all", every)
    print_lengths(every)
    noisy = [lap for seed in range(1, NOISY + 1) for lap in tried(seed, noisy=True)[1]]
    print("at a tolerance of twice the white error, of {} laps {} are odd, and {} rows outside".format(len(noisy), *wrong(noisy)))
    return 1 if any(wrong(every)) else 0


if __name__ == "__main__":
    sys.exit(main(sys.argv[1:]))
