"""Lap files: the bytes of document 01's chapter "The lap file", and the commands in them."""
import math
import struct

from trouble import Refused

MOVE, LINE, ARC, BEZIER = range(4)
MOST_LAPS, MOST_COMMANDS, MOST_BYTES, FARTHEST = 64, 800, 65536, 1_000_000


def body_of(positions, carries_on=False):
    """The commands of a lap: a Move to its first position, then Lines; without the Move where it carries on from there."""
    packed = [struct.pack("<B9d", LINE if i else MOVE, *position.place, *[0.0] * 6) for i, position in enumerate(positions)]
    return b"".join(packed[carries_on:])


def joined(bodies):
    """The lap file of bodies."""
    table, at = b"", 8 + 8 * len(bodies)
    for body in bodies:
        table += struct.pack("<II", at, len(body) // 73)
        at += len(body)
    return b"LAPS" + struct.pack("<I", len(bodies)) + table + b"".join(bodies)


def file_of(laps, carry_on=False):
    """The lap file of recorded laps; where they carry on, each behind the first lacks its Move."""
    return joined([body_of(positions, carry_on and i > 0) for i, positions in enumerate(laps)])


def bodies_of(file, name):
    """The commands of each lap of a file, kind and nine numbers; refusals 1 to 3."""
    if len(file) < 8:
        raise Refused(1, name)
    count = struct.unpack_from("<I", file, 4)[0]
    if count > MOST_LAPS or len(file) > MOST_BYTES:
        raise Refused(2, name)
    if file[:4] != b"LAPS" or len(file) < 8 + 8 * count:
        raise Refused(3, name)
    laps, at = [], 8 + 8 * count
    for lap in range(count):
        offset, number = struct.unpack_from("<II", file, 8 + 8 * lap)
        if offset != at or number < 1 or at + 73 * number > len(file):
            raise Refused(3, f"{name}, lap {lap + 1}")
        laps.append([struct.unpack_from("<B9d", file, at + 73 * i) for i in range(number)])
        at += 73 * number
    if at != len(file) or sum(map(len, laps)) > MOST_COMMANDS:
        raise Refused(3, name)
    return laps


def fault(laps, refusal):
    """Where the first command stands that refusal 4 or 5 is about; nothing where there is none."""
    for lap, commands in enumerate(laps, 1):
        for i, (kind, *numbers) in enumerate(commands):
            if misplaced(lap, i, kind, numbers) if refusal == 4 else outside(kind, numbers):
                return f", lap {lap}, command {i + 1}"
    return ""


def misplaced(lap, i, kind, numbers):
    used = {MOVE: 3, LINE: 3}.get(kind, 9)
    wrong_move = i > 0 if kind == MOVE else lap == 1 and i == 0
    return kind > BEZIER or wrong_move or any(struct.pack("<9d", *numbers)[8 * used:])


def outside(kind, numbers):
    limited = numbers if kind == BEZIER else numbers[:3]
    return not all(map(math.isfinite, numbers)) or any(abs(x) > FARTHEST for x in limited)


def commands_of(file, name):
    """The commands of each lap of a file, all well formed; refusals 1 to 5."""
    laps = bodies_of(file, name)
    for refusal in (4, 5):
        where = fault(laps, refusal)
        if where:
            raise Refused(refusal, name + where)
    return laps


def started(laps):
    """Laps with a Move in front of each: where one lacks its own, a Move to the end of the lap before it."""
    ends = [(0.0,) * 3, *(commands[-1][1:4] for commands in laps)]
    return [commands if commands[0][0] == MOVE else [(MOVE, *end, *[0.0] * 6), *commands] for end, commands in zip(ends, laps)]
