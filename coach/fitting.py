"""The fit of a workout: its pieces, whether a fitted file is its fit, and what a fit did in one line."""
from geometry import farthest, strokes_of
from lapfile import commands_of, file_of, started
from pieces import pieces_of
from proved import fitted_bytes
from trouble import Trouble


def fitted_pieces(workout, tolerance, name, hills=False):
    """The pieces of each lap at a tolerance, by the flat fit or by that for hills."""
    fresh = fitted_bytes(tolerance, file_of(workout.laps, workout.carries_on), name, hills)
    return pieces_of(workout.laps, started(commands_of(fresh, name)))


def check_fit(workout, tolerance, name, fitted, fit_name, hills=False):
    """Stops a fitted file that is not the workout's at the tolerance: the workout is fitted again and compared."""
    fresh = fitted_bytes(tolerance, file_of(workout.laps, workout.carries_on), name, hills)
    if fitted == fresh:
        return
    given, laps = commands_of(fitted, fit_name), commands_of(fresh, name)
    where = f"it has {len(given)} laps and the workout {len(laps)}"
    if len(given) == len(laps):
        where = f"lap {next(i for i, (a, b) in enumerate(zip(given, laps), 1) if a != b)} differs"
    kind = "hill fit" if hills else "fit"
    raise Trouble(f"{fit_name}: is not the {kind} of {name} at a tolerance of {tolerance:g} m: {where}")


def fit_line(recorded, fitted, hills=False):
    """What a fit did, in one line."""
    places = [[command[1:4] for command in commands] for commands in recorded]
    strokes = [strokes_of(commands) for commands in started(fitted)]
    arcs = sum(stroke.is_arc for lap in strokes for stroke in lap)
    lines = sum(map(len, strokes)) - arcs
    line = (f"{count(sum(map(len, places)), 'position')} in {count(len(places), 'lap')}, {count(lines + arcs, 'piece')}: "
            f"{count(lines, 'straight')} and {count(arcs, 'bend')}")
    if not places:
        return line
    gaps = [farthest(*pair, hills) for pair in zip(places, strokes)]
    (far, index), lap = max((gap, -lap) for lap, gap in enumerate(gaps, 1))
    where = "fitted course, heights counted" if hills else "drawn course"
    return f"{line}; the farthest position is {far:.2f} m from the {where} (lap {-lap}, position {index + 1})"


def count(number, word):
    return f"{number} {word}{'' if number == 1 else 's'}"
