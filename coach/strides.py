"""Counted strides: metres a stride by the fitted length and by the track's, and the sheet to count on."""
import re
import statistics

from table import lines_of
from trouble import Trouble

LINE = re.compile(r"\s*(\d{1,9})[\s,;]+(bend|straight|whole)\s*(\d*)[\s,;]+(\d{1,9})\s*$", re.IGNORECASE | re.ASCII)
SHEET = ("bend 1", "straight 1", "bend 2", "straight 2")


def read_counts(data, name):
    """Lap, part and count of each line, with its place in the file; a header and lines that start with # are skipped."""
    counts = []
    for i, line in enumerate(lines_of(data), 1):
        match = LINE.match(line)
        if match:
            lap, kind, index, strides = match.groups()
            part = f"{kind.lower()} {index}" if index else kind.lower()
            if not int(strides):
                raise Trouble(f"{name}, line {i}: no strides were counted")
            counts.append((int(lap), part, int(strides)))
        elif line.strip() and not line.startswith("#") and (counts or not line.lower().startswith("lap")):
            raise Trouble(f"{name}, line {i}: is no count; a count is: lap, bend1 or straight1 or whole, strides")
    if not counts:
        raise Trouble(f"{name}: has no count")
    return counts


def track_length(part, straight, bend):
    if part == "whole":
        return 2 * (straight + bend)
    return bend if part.startswith("bend") else straight


def with_wholes(counts):
    """The counts, and after those of a lap the whole lap's, where each of its parts was counted."""
    for lap in dict.fromkeys(lap for lap, _, _ in counts):
        own = [count for count in counts if count[0] == lap]
        yield from own
        if sorted(part for _, part, _ in own) == sorted(SHEET):
            yield lap, "whole", sum(strides for _, _, strides in own)


def mark(fitted, by_track, middles, row, strides, far):
    """Which of the two is far from the others: the count, seen on the track's own length, or else the fitted length. A
    stride at either end is nothing, nor is a position at either cut, nor a change of stride by so many percent."""
    allowed = far / 100 + 2 / strides
    if abs(by_track / middles[1] - 1) > allowed:
        return "count?"
    if row is None:
        return "not in the fit"
    return "fit?" if abs(fitted / middles[0] - 1) > allowed + 2 * row.step_length / row.length else ""


def strides_text(counts, rows, track, far):
    """Metres a stride by the fitted length and by the track's, row by row."""
    found = {(row.lap, row.part): row for row in rows if row.length > 0}
    counts = [(found.get((lap, part)), lap, part, strides) for lap, part, strides in with_wholes(counts)]
    fitted = [row.length / strides if row else None for row, _, _, strides in counts]
    by_track = [track_length(part, *track) / strides for _, _, part, strides in counts]
    middles = [statistics.median([v for v in values if v is not None] or [1.0]) for values in (fitted, by_track)]
    lines = ["lap  part         count    fitted  m/stride    track  m/stride"]
    for (row, lap, part, strides), own, tracks in zip(counts, fitted, by_track):
        left = f"{row.length:8.2f} {own:9.2f}" if row else "       -         -"
        told = mark(own, tracks, middles, row, strides, far)
        lines.append(f"{lap:3}  {part:11} {strides:6}  {left} {track_length(part, *track):8.2f} {tracks:9.2f}  {told}".rstrip())
    lines += [f"the middle ones: {middles[0]:.2f} m a stride by the fit, {middles[1]:.2f} m by the track. Marked are rows farther",
              f"from them than {far:g} %, a stride at either end and a position at either cut explain: fit? where the count agrees",
              "with the track and the fitted length does not, count? where the count does not."]
    return "\n".join(lines) + "\n"


def sheet(laps):
    """A page to fill in by hand, with a line for each lap."""
    head = "lap " + "".join(f"{part:^13}" for part in SHEET) + "  remarks"
    lines = ["Strides, counted with a clicker", "", "athlete ______________  date ____________  track ______________", "", head]
    lines += [f"{lap:3} " + "".join(f"{'_' * 8:^13}" for _ in SHEET) + "  " + "_" * 16 for lap in range(1, laps + 1)]
    lines += ["", "Count each foot that comes down. To be read in: a line for each count, as 1 bend1 63"]
    return "\n".join(lines) + "\n"
