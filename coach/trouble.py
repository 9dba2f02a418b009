"""What can go wrong, in plain words, and the exit status of each kind."""

# The refusals of documents 01 and 02, for people.
REFUSALS = {
    1: "the file is shorter than 8 bytes, or not whole",
    2: "too many laps (64 at most), positions (800) or bytes (65,536)",
    3: "no lap file: its mark or its table is wrong, it has over 800 commands, or the two files differ in laps",
    4: "the first lap does not start with a Move, a lap has a Move elsewhere, or a command is of unknown kind",
    5: "a position is not a number, or is more than 1,000,000 m from zero",
    6: "the tolerance must be from 0.001 to 1,000 m",
    7: "there is no lap of that number",
    8: "the fit could have more than 800 commands",
    9: "the output has not enough room",
    11: "an Arc that cannot be drawn by Lines: its normal, its offset or its radii are none of a circle's at this tolerance",
    12: "the ticket is old: this look, or another, was stored since; nothing was changed, look again",
    13: "a fitted file is stored in 1,000,000 times at most; nothing was changed, fit the workout into another file",
    14: "the path data breaks its rules",
}

DONE, WORDS, INPUT, OUTPUT, NOT_BUILT, REFUSED = 0, 2, 3, 4, 5, 10
INTERRUPTED, ENDED, PIPE = 130, 143, 141

STATUSES = """exit status:
  0        done
  2        the words of the command are wrong
  3        an input cannot be read, or is nonsense
  4        an output cannot be written: it is there already, is also an input, has no folder or no room
  5        target/coach/laptool is not built: run coach/build
  11..24   refused: 10 and the number of the refusal, in document 01's table or in document 02
  130, 143 interrupted, or ended by a signal; each output is whole, or as it was
  141      the reader of standard output went away"""


class Trouble(Exception):
    """An input that cannot be used."""
    status = INPUT


class NotWritten(Trouble):
    """An output that cannot be written; nothing was changed."""
    status = OUTPUT


class NotBuilt(Trouble):
    status = NOT_BUILT


class Refused(Trouble):
    """A refusal of the papers, by its number, and where it was met."""

    def __init__(self, number, where="", hint=""):
        words = f"{where}: {REFUSALS[number]}" if where else REFUSALS[number]
        super().__init__(f"refused, number {number}: {words}{hint}")
        self.status = REFUSED + number
