#!/usr/bin/env python3
"""Recorded laps as straights and bends, for the coach and the student: coach.py --help says what it can do."""
import sys

if sys.version_info < (3, 8):
    sys.exit("coach.py needs Python 3.8 or later; this is Python " + sys.version.split()[0])

from cli import main  # after the check, since older Pythons cannot read what follows

if __name__ == "__main__":
    sys.exit(main(sys.argv[1:]))
