"""Times as watches write them: seconds, mm:ss, ISO 8601, Unix time in seconds or milliseconds."""
import calendar
import re
import time

UNIX, MILLISECONDS = 1e8, 1e11  # from 1973 on; a count of seconds is below, a count of milliseconds above
ISO = re.compile(r"(\d{4})-?(\d\d)-?(\d\d)[T ](\d\d):?(\d\d):?(\d\d)([.,]\d+)?\s*(Z|z|[+-]\d\d(:?\d\d)?)?$", re.ASCII)
CLOCK = re.compile(r"(?:(\d+):)?(\d+):([0-5]?\d(?:[.,]\d+)?)$", re.ASCII)


def number(word):
    """A number with a decimal point or comma; not both, since a thousands mark could be meant."""
    if "." in word and "," in word or "_" in word:
        raise ValueError(word)
    return float(word.replace(",", "."))


def seconds(word):
    """A time, and whether it is absolute: then it is Unix time, else seconds from some start."""
    word = word.strip()
    iso, clock = ISO.match(word), CLOCK.match(word)
    if iso:
        return iso_seconds(iso), True
    if clock:
        hours, minutes, rest = clock.groups()
        return 3600 * int(hours or 0) + 60 * int(minutes) + number(rest), False
    value = number(word)
    if abs(value) >= MILLISECONDS:
        value /= 1000
    if not abs(value) < MILLISECONDS:
        raise ValueError(word)
    return value, abs(value) >= UNIX


def iso_seconds(match):
    """Without a zone, a time counts as UTC."""
    year, month, day, hour, minute, second = map(int, match.groups()[:6])
    if not (1 <= month <= 12 and 1 <= day <= calendar.monthrange(year, month)[1] and hour < 24 and minute < 60 and second < 61):
        raise ValueError(match.string)
    whole = calendar.timegm((year, month, day, hour, minute, second))
    zone = match.group(8)
    if zone and zone not in "Zz":
        digits = zone[1:].replace(":", "").ljust(4, "0")
        away = 3600 * int(digits[:2]) + 60 * int(digits[2:])
        whole -= away if zone[0] == "+" else -away
    return whole + (number("0" + match.group(7)) if match.group(7) else 0.0)


def iso(value):
    """Unix time as ISO 8601, to the millisecond."""
    whole, thousandths = divmod(round(value * 1000), 1000)
    return time.strftime("%Y-%m-%dT%H:%M:%S", time.gmtime(whole)) + (f".{thousandths:03}Z" if thousandths else "Z")
