#!/usr/bin/env python3
"""Makes the samples of the exercise, the same on each run. No athlete ran for them, and nobody counted strides.

  make_workout.py FOLDER [--force]   workout.txt, lap3.txt, strides.txt and fell.txt, into a folder
  make_workout.py --truth            what was run, before the receiver's noise: the pace of each part of each repetition

Six repetitions of 400 m on a standard track: straights of 84.39 m, bends whose running line has the radius 36.80 m. A
repetition starts at the finish line and runs bend 1, straight 1, bend 2, straight 2, each at a pace of its own; positions
are a second apart, and one is taken at the finish. The athlete gets slower from one repetition to the next, and in
repetitions 2, 4 and 5 eases off in the second bend.

The receiver's error has two parts: a white one, new with each position, and a drift, which keeps most of the last second's
error and so wanders by a metre or two. In repetition 3 the receiver is thrown off for some seconds in the second bend, as
beside a grandstand; lap3.txt is the same repetition without that.

fell.txt is two laps over a fell, along three walls, with two tops and a dip between them, a position every two seconds; the pace
falls as the path climbs. Heights have an error of their own, as a watch's barometer gives it."""
import math
import random
import sys
from dataclasses import dataclass
from pathlib import Path

from files import Files
from trouble import DONE, WORDS, Trouble

SEED = 400
STRAIGHT, RADIUS = 84.39, 36.80
BEND = math.pi * RADIUS
PARTS = (("bend 1", BEND), ("straight 1", STRAIGHT), ("bend 2", BEND), ("straight 2", STRAIGHT))
LAP = sum(length for _, length in PARTS)
REPETITIONS, REST = 6, 90
FIRST_PACE, SLOWER = 182.0, 2.5   # seconds a kilometre on the first repetition's straights; and more on each next one
IN_BENDS, EASED = 1.03, 1.14      # seconds in a bend to each on a straight; in an eased second bend to each in the first
STRIDE = 1.82                     # metres from one step to the next
THROWN = (3, 45.0, 51.0, 9.0)     # repetition, first and last second, metres
FELL = ((0.0, 0.0), (260.0, 90.0), (120.0, 310.0), (0.0, 0.0))   # the ends of the walls, in metres
HEIGHTS = ((0, 212), (140, 271), (275, 246), (340, 246), (470, 309), (540, 296), (700, 231), (790, 238), (868, 212))
FELL_LAPS, FELL_STEP, FELL_REST = 2, 2.0, 60
FELL_PACE, CLIMBING = 300.0, 4.0  # seconds a kilometre on the level; and how many times that more for a metre up to each metre on
HEAD = "# lap time x y z: seconds and metres; made by make_workout.py, nobody ran"


@dataclass(frozen=True)
class Receiver:
    """The spread of its white error and of its drift in metres, and how many seconds the drift remembers."""
    white: float = 0.25
    drift: float = 1.2
    memory: float = 60.0

    def errors(self, chance):
        """One error after another, a second apart."""
        keeps = math.exp(-1 / self.memory)
        wander = [chance.gauss(0, self.drift) for _ in range(2)]
        while True:
            yield [w + chance.gauss(0, self.white) for w in wander]
            wander = [keeps * w + chance.gauss(0, self.drift * math.sqrt(1 - keeps * keeps)) for w in wander]


def place(way):
    """The place on the track so many metres behind the finish line."""
    way %= LAP
    if way >= BEND + STRAIGHT:
        x, y = place(way - BEND - STRAIGHT)
        return -x, -y
    if way < BEND:
        angle = way / RADIUS - math.pi / 2
        return STRAIGHT / 2 + RADIUS * math.cos(angle), RADIUS * math.sin(angle)
    return STRAIGHT / 2 - (way - BEND), RADIUS


def paces(repetition, eased):
    """Seconds a kilometre in each of the four parts."""
    straight = FIRST_PACE + SLOWER * (repetition - 1)
    bend = IN_BENDS * straight
    return bend, straight, bend * (EASED if eased else 1.0), straight


def whole_pace(part_paces):
    """Seconds a kilometre over the whole lap."""
    return sum(length * pace for (_, length), pace in zip(PARTS, part_paces)) / LAP


def way_after(seconds, part_paces):
    """The metres run after so many seconds, the whole lap's at most."""
    way = 0.0
    for (_, length), pace in zip(PARTS, part_paces):
        needed = length * pace / 1000
        if seconds < needed:
            return way + seconds * 1000 / pace
        seconds, way = seconds - needed, way + length
    return LAP


def run(part_paces, receiver, chance):
    """The positions of one repetition, a second apart and one at the finish: time and place with the receiver's error."""
    whole = LAP * whole_pace(part_paces) / 1000
    errors, times = receiver.errors(chance), [float(t) for t in range(math.ceil(whole))] + [whole]
    for time, error in zip(times, errors):
        x, y = place(way_after(time, part_paces))
        yield time, x + error[0], y + error[1]


def thrown_off(repetition, positions):
    """The repetition as the receiver gives it that is thrown off."""
    number, first, last, metres = THROWN
    for time, x, y in positions:
        yield time, x - (metres if repetition == number and first <= time <= last else 0), y


def repetitions(seed, receiver=Receiver(), eased=(2, 4, 5)):
    """To each repetition its start, its true paces and its positions."""
    chance, start = random.Random(seed), 0
    for repetition in range(1, REPETITIONS + 1):
        true = paces(repetition, repetition in eased)
        positions = list(run(true, receiver, chance))
        yield start, true, positions
        start += len(positions) + REST


def lines(repetition, start, positions):
    return [f"{repetition} {start + time:.2f} {x:.2f} {y:.2f} 0" for time, x, y in positions]


def strides(repetition, chance):
    """Made-up counts of one repetition: the part's length over the stride, with a step more or less at either end."""
    for name, length in PARTS:
        yield f"{repetition} {name.replace(' ', '')} {round(length / STRIDE + chance.uniform(-1, 1))}"


def sample(seed):
    """The files of the exercise, by their names."""
    workout, lap, counts = [HEAD], [HEAD], ["# lap part count: made up by make_workout.py, nobody counted"]
    chance = random.Random(seed)
    for number, (start, _, positions) in enumerate(repetitions(seed), 1):
        workout += lines(number, start, thrown_off(number, positions))
        counts += strides(number, chance)
        if number == THROWN[0]:
            lap += lines(number, start, positions)
    return {"workout.txt": workout, f"lap{THROWN[0]}.txt": lap, "strides.txt": counts, "fell.txt": fell(seed)}


def between(stops, way):
    """What lies between stops, pairs of a way and a number, at a way."""
    for (a, low), (b, high) in zip(stops, stops[1:]):
        if way <= b:
            return low + (way - a) / (b - a) * (high - low)
    return stops[-1][1]


def fell_stops():
    """The corners of the walls by the way to them: x, and y."""
    way, ways = 0.0, [0.0]
    for a, b in zip(FELL, FELL[1:]):
        way += math.dist(a, b)
        ways.append(way)
    return [list(zip(ways, axis)) for axis in zip(*FELL)]


def fell_run(receiver, barometer, chance):
    """The positions of a lap over the fell: time and place with both errors."""
    xs, ys = fell_stops()
    time, way, whole = 0.0, 0.0, xs[-1][0]
    for error, (height_error, _) in zip(receiver.errors(chance), barometer.errors(chance)):
        yield time, between(xs, way) + error[0], between(ys, way) + error[1], between(HEIGHTS, way) + height_error
        if way >= whole:
            return
        slope = (between(HEIGHTS, way + 1) - between(HEIGHTS, way))
        pace = FELL_PACE * (1 + CLIMBING * max(0.0, slope)) / 1000
        left = (whole - way) * pace
        time, way = time + min(FELL_STEP, left), min(whole, way + FELL_STEP / pace)


def fell(seed):
    """The text of two laps over the fell."""
    chance, start, text = random.Random(seed), 0.0, [HEAD]
    for lap in range(1, FELL_LAPS + 1):
        *positions, last = fell_run(Receiver(), Receiver(0.2, 1.0, 300.0), chance)
        text += [f"{lap} {start + t:.2f} {x:.2f} {y:.2f} {z:.2f}" for t, x, y, z in [*positions, last]]
        start += math.ceil(last[0]) + FELL_REST
    return text


def truth(seed):
    """A line for each part: the pace of each repetition, in minutes and seconds a kilometre."""
    true = [true for _, true, _ in repetitions(seed)]
    yield "pace/km   " + "".join(f"{'lap ' + str(lap):>8}" for lap in range(1, len(true) + 1))
    for name, row in [*zip((name for name, _ in PARTS), zip(*true)), ("whole", map(whole_pace, true))]:
        yield f"{name:10}" + "".join(f"{round(pace) // 60:>5}:{round(pace) % 60:02}" for pace in row)


def main(words):
    if words == ["--truth"]:
        print("\n".join(truth(SEED)))
        return DONE
    if words == ["--help"] or words[1:] not in ([], ["--force"]) or words[:1] in ([], ["--force"]):
        print(__doc__, file=sys.stdout if words == ["--help"] else sys.stderr)
        return DONE if words == ["--help"] else WORDS
    texts = [(str(Path(words[0]) / name), ("\n".join(text) + "\n").encode()) for name, text in sample(SEED).items()]
    try:
        Files("--force" in words).save(*texts)
    except Trouble as trouble:
        print(f"make_workout.py: {trouble}", file=sys.stderr)
        return trouble.status
    return DONE


if __name__ == "__main__":
    sys.exit(main(sys.argv[1:]))
