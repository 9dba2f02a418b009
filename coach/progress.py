"""A line on the terminal about work that takes longer than two seconds."""
import sys
import time

PATIENCE, PAUSE = 2.0, 0.5


def watched(items, total, what):
    """Hands the items on; after two seconds says how many are done, on a terminal alone."""
    began = said = time.monotonic()
    shown = False
    for done, item in enumerate(items):
        now = time.monotonic()
        if now - began > PATIENCE and now - said > PAUSE and sys.stderr.isatty():
            print(f"\r{what}: {100 * done // max(1, total)} %", end="", file=sys.stderr, flush=True)
            shown, said = True, now
        yield item
    if shown:
        print(f"\r{what}: done ", file=sys.stderr)
