#!/usr/bin/env python3
"""Runs the commands that a document shows, each a line '$ COMMAND' in a block of code, from the repository's root, and
compares what they print with the lines below them.

  shown.py DOCUMENT.md           ends with 1 if one prints something else
  shown.py --write DOCUMENT.md   puts what they print into the document"""
import subprocess
import sys
from pathlib import Path

from files import Files

ROOT = Path(__file__).resolve().parent.parent


def ran(command):
    streams = {"stdout": subprocess.PIPE, "stderr": subprocess.STDOUT}
    return subprocess.run(command, shell=True, cwd=ROOT, text=True, check=False, **streams).stdout.splitlines()


def renewed(lines):
    """The document's lines, with what each command prints now."""
    new, in_block, skips, count = [], False, False, 0
    for line in lines:
        if line.startswith("```"):
            in_block, skips = not in_block, False
        if in_block and line.startswith("$ "):
            new += [line, *ran(line[2:])]
            skips, count = True, count + 1
        elif not skips or not in_block:
            new.append(line)
    return new, count


def main(words):
    name = Path(words[-1])
    old = name.read_text().splitlines()
    new, count = renewed(old)
    if words[0] == "--write":
        Files(force=True).save((str(name), ("\n".join(new) + "\n").encode()))
    for shown, printed in zip(old, new):
        if shown != printed and words[0] != "--write":
            print(f"{name} shows:  {shown}\nprinted now: {printed}")
            return 1
    if len(old) != len(new) and words[0] != "--write":
        print(f"{name} shows {len(old)} lines, where {len(new)} are printed now")
        return 1
    print(f"{name}: {count} commands")
    return 0


if __name__ == "__main__":
    sys.exit(main(sys.argv[1:]))
