"""Look first, then store: a look changes nothing, a store changes all or nothing, and a ticket serves once."""
import errno
import json
import os
import struct
import subprocess
import sys
import unittest
from unittest import mock

from support import COACH, WORKOUT, Case, coach
from files import Files
from session import session_text
from trouble import NotWritten

LAP3 = COACH / "lap3.txt"
OLD, LAST = 22, 23  # exit statuses: 10 and the refusal's number
ROAD = "# lap time x y z\n# laps carry on\n1 0 0 0 0\n1 1 10 0 0\n1 2 20 0 0\n2 3 30 0 0\n2 4 30 10 0\n3 5 30 20 0\n3 6 20 20 0\n"


class Desk(Case):
    """A folder with a workout and its fit."""

    def desk(self, text=None, tolerance=1):
        self.workout, self.fitted = self.put("mine.txt", text or WORKOUT.read_bytes()), self.folder / "mine.laps"
        recorded = self.folder / "recorded.laps"
        for words in (("make", self.workout, recorded), ("fit", tolerance, recorded, self.fitted)):
            self.assertEqual(coach(*words)[0], 0)
        recorded.unlink()

    def look(self, name, lap=3, new=LAP3, tolerance=1):
        code, out, error = coach("look", lap, new, tolerance, self.workout, self.fitted, self.folder / name, self.folder / f"{name}.svg")
        self.assertEqual(code, 0, error)
        return out

    def store(self, name):
        return coach("store", self.folder / name, self.workout, self.fitted)

    def contents(self):
        return {entry.name: entry.read_bytes() for entry in self.folder.iterdir()}

    def unchanged(self, status, words, name):
        """A store that is refused, or stopped, with these words, and leaves every file."""
        before = self.contents()
        self.told(status, words, "store", self.folder / name, self.workout, self.fitted)
        self.assertEqual(self.contents(), before, words)

    def other(self):
        """Lap 3 once more, with a position elsewhere."""
        lines = LAP3.read_text().splitlines()
        lines[20] = " ".join(lines[20].split()[:2] + ["70", "0", "0"])
        return self.put("other.txt", "\n".join(lines))


class LookAndStore(Desk):
    def test_a_look_changes_nothing_and_shows_both(self):
        self.desk()
        before = self.contents()
        out = self.look("ticket")
        after = self.contents()
        self.assertEqual({name: after[name] for name in before}, before)
        self.assertEqual(sorted(set(after) - set(before)), ["ticket", "ticket.svg"])
        self.assertRegex(out.splitlines()[0], "as it was +corrected")
        whole = next(line.split() for line in out.splitlines() if " whole " in line)
        self.assertEqual((whole[2], whole[6]), ("416.40", "402.93"))
        picture = after["ticket.svg"].decode()
        self.assertIn("lap 3, corrected", picture)
        self.assertIn("lap 3, as it was", picture)

    def test_a_store_has_the_effect_of_a_replacement(self):
        self.desk()
        replaced = self.folder / "replaced.txt", self.folder / "replaced.laps"
        self.assertEqual(coach("replace", 3, LAP3, 1, self.workout, self.fitted, *replaced)[0], 0)
        self.look("ticket")
        code, out, error = self.store("ticket")
        self.assertEqual((code, "stored, edit 1 of" in out), (0, True), error)
        self.assertEqual(self.workout.read_bytes(), replaced[0].read_bytes())
        self.assertEqual(self.fitted.read_bytes(), replaced[1].read_bytes())
        self.assertEqual((self.folder / "mine.laps.session").read_text(), "edits 1\n")

    def test_a_stale_ticket_and_a_ticket_that_was_used(self):
        self.desk()
        self.look("first")
        self.look("second", new=self.other())
        self.assertEqual(self.store("first")[0], 0)
        self.unchanged(OLD, "the ticket is old: this look, or another, was stored since; nothing was changed, look again", "second")
        self.unchanged(OLD, "given at edit 0, and the file stands at 1", "first")
        self.look("third", new=self.folder / "other.txt")
        self.assertEqual(self.store("third")[0], 0)
        self.assertEqual((self.folder / "mine.laps.session").read_text(), "edits 2\n")

    def test_the_next_lap_where_laps_carry_on(self):
        self.desk(ROAD, 0.5)
        new = self.put("new.txt", "1 0 0 0 0\n1 1 10 1 0\n1 2 20 5 0\n")
        out = self.look("ticket", 1, new, 0.5)
        self.assertEqual([line.split()[:2] for line in out.splitlines() if " whole " in line], [["1", "whole"], ["2", "whole"]])
        self.assertEqual(self.store("ticket")[0], 0)
        fresh, again = self.folder / "fresh.laps", self.folder / "again.laps"
        self.assertEqual(coach("make", self.workout, fresh)[0], 0)
        self.assertEqual(coach("fit", 0.5, fresh, again)[0], 0)
        self.assertEqual(self.fitted.read_bytes(), again.read_bytes())

    def test_two_stores_at_once(self):
        self.desk()
        self.look("one")
        self.look("two", new=self.other())
        runs = [subprocess.Popen([sys.executable, str(COACH / "coach.py"), "store", *map(str, (self.folder / name, self.workout, self.fitted))],
                                 stdout=subprocess.PIPE, stderr=subprocess.PIPE) for name in ("one", "two")]
        for run in runs:
            run.communicate(timeout=60)
        self.assertEqual(sorted(run.returncode for run in runs), [0, OLD])
        self.assertEqual((self.folder / "mine.laps.session").read_text(), "edits 1\n")

    def test_the_last_edit(self):
        self.desk()
        session = self.put("mine.laps.session", "edits 999999\n")
        self.look("last")
        self.assertEqual(self.store("last")[0], 0)
        self.assertEqual(session.read_text(), "edits 1000000\n")
        self.look("past", new=self.other())
        self.unchanged(LAST, "1,000,000 times at most", "past")


class Refusals(Desk):
    """Tickets that were damaged or made up: the commit refuses them by number, or the tool says that the file would be no fit."""

    def setUp(self):
        super().setUp()
        self.desk()
        self.look("ticket")
        self.ticket = json.loads((self.folder / "ticket").read_text())

    def forged(self, **fields):
        self.put("forged", json.dumps({**self.ticket, **fields}))
        return "forged"

    def part(self, at, data):
        part = bytearray.fromhex(self.ticket["part"])
        part[at:at + len(data)] = data
        return self.forged(part=part.hex())

    def test_fields(self):
        for status, fields in ((OLD, {"edit": 1}), (OLD, {"edit": 2 ** 40}), (13, {"count": 0}), (13, {"count": 2 ** 64 - 1}),
                               (13, {"next": 1}), (16, {"tolerance": 0}), (17, {"lap": 0}), (17, {"lap": 2 ** 63})):
            self.unchanged(status, "refused", self.forged(**fields))

    def test_parts(self):
        whole = self.ticket["part"]
        self.unchanged(11, "refused", self.forged(part=whole[:-2]))
        self.unchanged(13, "refused", self.forged(part=whole[:-146]))
        self.unchanged(13, "refused", self.forged(part=""))
        self.unchanged(14, "refused", self.part(73, b"\3"))
        self.unchanged(14, "refused", self.part(73, b"\0"))
        self.unchanged(15, "refused", self.part(74, struct.pack("<d", float("nan"))))
        self.unchanged(3, "is not the fit of", self.part(74, struct.pack("<d", 12.5)))

    def test_what_is_no_ticket(self):
        for data in (b"", b"{", b"[]", b"{}", (self.folder / "ticket").read_bytes()[:-20], b"\xff\xfe"):
            self.put("broken", data)
            self.unchanged(3, "is no ticket of a look, or is damaged", "broken")
        for fields in ({"lap": 3.5}, {"edit": -1}, {"part": "zz"}, {"positions": []}, {"positions": [[1, 2]]}, {"lap": True}):
            self.unchanged(3, "is no ticket", self.forged(**fields))

    def test_files_that_changed_beside_it(self):
        self.workout.write_text(self.workout.read_text().replace("\n5 680.00 ", "\n5 680.50 "))
        self.assertEqual(self.store("ticket")[0], 0, "another time of another lap is no other fit")
        self.look("again", new=self.other())
        lines = self.workout.read_text().splitlines()
        self.workout.write_text("\n".join(lines[:-1] + [lines[-1].rsplit(" ", 3)[0] + " 0 0 0"]) + "\n")
        self.unchanged(3, "is not the fit of", "again")

    def test_sessions_and_workouts_of_another_shape(self):
        self.put("mine.laps.session", "one edit")
        self.unchanged(3, "does not hold the edit number", "ticket")
        (self.folder / "mine.laps.session").unlink()
        bare = self.put("bare.txt", "\n".join(WORKOUT.read_text().splitlines()[1:]))
        self.told(3, "is no workout's own text", "look", 3, LAP3, 1, bare, self.fitted, self.folder / "no", self.folder / "no.svg")
        self.told(3, "'-' is no such place", "store", self.folder / "ticket", "-", self.fitted, data=b"")

    def test_the_rules_of_every_command(self):
        words = ("look", 3, LAP3, 1, self.workout, self.fitted)
        self.told(4, "is there already", *words, self.folder / "ticket", self.folder / "new.svg")
        self.told(4, "is also an input", *words, self.fitted, self.folder / "new.svg", "--force")
        self.told(4, "same name", *words, self.folder / "new", self.folder / "new")
        self.told(17, "no lap of that number", "look", 7, *words[2:], self.folder / "new", self.folder / "new.svg")
        self.told(3, "is not the fit", "look", 3, LAP3, 2, *words[4:], self.folder / "new", self.folder / "new.svg")
        self.assertEqual(self.names(), ["mine.laps", "mine.txt", "ticket", "ticket.svg"])


class AllOrNone(Desk):
    def test_every_failure_leaves_all_or_nothing(self):
        names = [str(self.folder / name) for name in ("f.laps.session", "f.laps", "w.txt")]
        for call, times in (("fsync", 3), ("chmod", 3), ("replace", 3)):
            for at in range(1, times + 1):
                for name in ("f.laps", "w.txt"):
                    self.put(name, "old")
                (self.folder / "f.laps.session").unlink(missing_ok=True)
                before, used, real = self.contents(), [0], getattr(os, call)

                def failing(*words, **more):
                    used[0] += 1
                    if used[0] == at:
                        raise OSError(errno.ENOSPC, "No space left on device")
                    return real(*words, **more)

                with mock.patch.object(os, call, failing), self.assertRaises(NotWritten):
                    Files().renew(*((name, b"new") for name in names))
                self.assertEqual(self.contents(), before, (call, at))
        Files().renew((names[0], session_text(1)), (names[1], b"new"), (names[2], b"new"))
        self.assertEqual(self.contents(), {"f.laps.session": b"edits 1\n", "f.laps": b"new", "w.txt": b"new"})


if __name__ == "__main__":
    unittest.main()
