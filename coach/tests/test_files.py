"""Nothing is lost: whatever fails, and whenever, outputs are whole and together, or as they were."""
import errno
import os
import re
import signal
import subprocess
import sys
import tempfile
import time
import unittest
from pathlib import Path
from unittest import mock

from support import COACH, TOOL, WORKOUT, Case, coach
from files import Files
from lapfile import file_of
from trouble import NotWritten
from workout import read_workout


def setUpModule():
    """A script's background starts with interrupts ignored, and so would all that is started here."""
    signal.signal(signal.SIGINT, signal.default_int_handler)


def wait_until_caught(process, number):
    """Until a process has a handler for a signal, which coach.py has once its work begins."""
    for _ in range(600):
        caught = re.search(r"SigCgt:\s*(\w+)", Path(f"/proc/{process}/status").read_text()).group(1)
        if int(caught, 16) >> (number - 1) & 1:
            return
        time.sleep(0.05)


class Together(Case):
    """Two outputs, with a failure at each of the calls that saving makes."""

    def outputs(self):
        return ((str(self.folder / "one"), b"new one"), (str(self.folder / "two"), b"new two"))

    def contents(self):
        return {entry.name: entry.read_bytes() for entry in self.folder.iterdir()}

    def saves_with(self, call, at, trouble, old):
        """Saves with the at-th use of a call failing; says whether it failed."""
        for entry in self.folder.iterdir():
            entry.unlink()
        for name in old:
            self.put(name, b"old " + name.encode())
        before, used, real = self.contents(), [0], getattr(os, call)

        def failing(*words, **more):
            used[0] += 1
            if used[0] == at:
                raise trouble
            return real(*words, **more)

        with mock.patch.object(os, call, failing):
            try:
                Files(force=True).save(*self.outputs())
            except (NotWritten, KeyboardInterrupt, OSError):
                self.assertEqual(self.contents(), before, (call, at, trouble, old))
                return True
        self.assertEqual(self.contents(), {"one": b"new one", "two": b"new two"})
        return False

    def test_every_failure_leaves_all_or_nothing(self):
        failed = 0
        for call, counts in (("fsync", 2), ("chmod", 2), ("replace", 2), ("open", 1)):
            for at in range(1, counts + 1):
                for old in ((), ("one",), ("two",), ("one", "two")):
                    failed += self.saves_with(call, at, OSError(errno.ENOSPC, "No space left on device"), old)
        self.assertEqual(failed, 6 * 4 + 4)
        for call in ("fsync", "chmod"):
            self.assertTrue(self.saves_with(call, 2, KeyboardInterrupt(), ("one",)))

    def test_interrupts_wait_for_the_second_rename(self):
        real, seen = os.replace, []

        def slow(*words):
            if not seen:
                os.kill(os.getpid(), signal.SIGINT)
            seen.append(words)
            real(*words)

        with mock.patch.object(os, "replace", slow), self.assertRaises(KeyboardInterrupt):
            Files().save(*self.outputs())
            time.sleep(5)
        self.assertEqual(self.contents(), {"one": b"new one", "two": b"new two"})

    def test_a_link_is_written_through(self):
        self.put("real", b"old")
        os.symlink("real", self.folder / "link")
        Files(force=True).save((str(self.folder / "link"), b"new"))
        self.assertTrue((self.folder / "link").is_symlink())
        self.assertEqual((self.folder / "real").read_bytes(), b"new")

    def test_rights_stay(self):
        place = self.put("one", b"old")
        place.chmod(0o640)
        Files(force=True).save((str(place), b"new"))
        self.assertEqual(place.stat().st_mode & 0o777, 0o640)


class Outputs(Case):
    def test_no_file_is_replaced_without_force(self):
        out = self.put("out.laps", "precious")
        self.told(4, "is there already; --force replaces it", "make", WORKOUT, out)
        self.assertEqual(out.read_text(), "precious")
        self.assertEqual(coach("make", WORKOUT, out, "--force")[0], 0)
        self.assertEqual(out.read_bytes()[:4], b"LAPS")

    def test_no_input_is_replaced_ever(self):
        own = self.put("own.txt", WORKOUT.read_bytes())
        os.link(own, self.folder / "second.txt")
        for name in ("own.txt", "../" + self.folder.name + "/own.txt", "second.txt"):
            self.told(4, "is also an input", "make", own, self.folder / name, "--force")
        with open(own, "rb") as file:
            done = subprocess.run([sys.executable, str(COACH / "coach.py"), "make", "-", str(own), "--force"], stdin=file,
                                  capture_output=True, check=False)
        self.assertEqual((done.returncode, b"is also an input" in done.stderr), (4, True))
        self.told(4, "same name", "replace", 3, COACH / "lap3.txt", 1, own, self.fitted(), self.folder / "n", self.folder / "n")
        self.assertEqual(own.read_bytes(), WORKOUT.read_bytes())

    def fitted(self):
        recorded, fitted = self.folder / "recorded.laps", self.folder / "fitted.laps"
        coach("make", WORKOUT, recorded)
        coach("fit", 1, recorded, fitted)
        return fitted

    def test_missing_folder_folder_and_full_devices(self):
        self.told(4, "no such folder", "make", WORKOUT, self.folder / "none" / "out")
        self.told(4, "is a folder", "make", WORKOUT, self.folder)
        self.told(4, "No space left", "make", WORKOUT, "/dev/full")
        with open("/dev/full", "wb") as full:
            done = subprocess.run([sys.executable, str(COACH / "coach.py"), "bends", str(WORKOUT), "1"], stdout=full,
                                  stderr=subprocess.PIPE, check=False)
        self.assertEqual(done.returncode, 4)
        self.assertIn(b"No space left", done.stderr)
        self.assertTrue(os.path.exists("/dev/full"))
        self.assertEqual(self.names(), [])

    def test_both_files_of_a_replacement_or_none(self):
        fitted = self.fitted()
        self.put("new.laps", "old")
        before = self.names()
        self.told(4, "is there already", "replace", 3, COACH / "lap3.txt", 1, WORKOUT, fitted, self.folder / "new.txt",
                  self.folder / "new.laps")
        self.told(4, "No space left", "replace", 3, COACH / "lap3.txt", 1, WORKOUT, fitted, self.folder / "new.txt", "/dev/full")
        self.assertEqual(self.names(), before)

    def test_an_interrupt_in_the_middle(self):
        for number, status in ((signal.SIGINT, 130), (signal.SIGTERM, 143)):
            run = subprocess.Popen([sys.executable, str(COACH / "coach.py"), "make", "-", str(self.folder / "out.laps")],
                                   stdin=subprocess.PIPE, stderr=subprocess.PIPE)
            run.stdin.write(b"1 0 0 0 0\n")
            run.stdin.flush()
            wait_until_caught(run.pid, signal.SIGHUP)
            run.send_signal(number)
            error = run.communicate(timeout=20)[1]
            self.assertEqual(run.returncode, status, error)
            self.assertNotIn(b"Traceback", error)
            self.assertEqual(self.names(), [])

    def test_streams(self):
        code, out, _ = coach("make", "-", "-", data=b"1 0 0 0 0\n1 1 5 0 0\n")
        self.assertEqual((code, out[:4]), (0, "LAPS"))
        self.told(3, "standard input can be read once", "bends", "-", 1, "--fit", "-", data=WORKOUT.read_bytes())
        done = subprocess.run(f"{sys.executable} {COACH}/coach.py text {self.fitted()} | head -1; exit ${{PIPESTATUS[0]}}",
                              shell=True, executable="/bin/bash", capture_output=True, check=False)
        self.assertIn(done.returncode, (0, 141))
        self.assertEqual(done.stderr, b"")


@unittest.skipUnless(hasattr(os, "geteuid") and os.geteuid() == 0, "a small disk can be made by root alone")
class FullDisk(Case):
    """A disk of some kilobytes: coach.py and laptool say so, and leave what was there."""

    def setUp(self):
        super().setUp()
        mounted = subprocess.run(["mount", "-t", "tmpfs", "-o", "size=16k", "tmpfs", str(self.folder)], check=False,
                                 capture_output=True)
        if mounted.returncode:
            self.skipTest("no small disk can be made here")
        self.addCleanup(subprocess.run, ["umount", str(self.folder)], check=False)

    def test_coach(self):
        out = self.put("out.laps", b"old")
        self.told(4, "No space left", "make", WORKOUT, out, "--force")
        self.assertEqual((self.names(), out.read_bytes()), (["out.laps"], b"old"))

    def test_room_for_one_of_two(self):
        """The corrected workout has room, its fit has not: neither is there afterwards."""
        with tempfile.TemporaryDirectory() as other:
            recorded, fitted = Path(other) / "r.laps", Path(other) / "f.laps"
            coach("make", WORKOUT, recorded)
            coach("fit", 0.5, recorded, fitted)
            self.told(4, "new.laps: No space left", "replace", 3, COACH / "lap3.txt", 0.5, WORKOUT, fitted, self.folder / "new.txt",
                      self.folder / "new.laps")
        self.assertEqual(self.names(), [])

    def test_laptool(self):
        laps = read_workout(WORKOUT.read_bytes(), "workout").laps
        out = self.put("out.laps", b"old")
        self.put("filling", b"x" * 8000)
        done = subprocess.run([str(TOOL), "--force", "fit", "0.001", "-", str(out)], input=file_of(laps), capture_output=True,
                              check=False)
        self.assertEqual(done.returncode, 20)
        self.assertIn(b"No space left", done.stderr)
        self.assertEqual((self.names(), out.read_bytes()), (["filling", "out.laps"], b"old"))


class Laptool(Case):
    """The C tool by itself."""

    def run_tool(self, *words):
        done = subprocess.run([str(TOOL), *map(str, words)], capture_output=True, check=False)
        return done.returncode, done.stderr.decode()

    def test_outputs(self):
        recorded = self.folder / "recorded.laps"
        coach("make", WORKOUT, recorded)
        before = recorded.read_bytes()
        for words in ((), ("--force",)):
            code, error = self.run_tool(*words, "fit", 1, recorded, recorded)
            self.assertEqual((code, "is also an input" in error), (20, True))
        self.assertEqual(recorded.read_bytes(), before)
        out = self.put("out", b"precious")
        self.assertEqual(self.run_tool("fit", 1, recorded, out)[0], 20)
        self.assertEqual(out.read_bytes(), b"precious")
        self.assertEqual(self.run_tool("--force", "fit", 1, recorded, out)[0], 0)
        self.assertEqual(self.run_tool("fit", 0, recorded, self.folder / "no")[0], 6)
        self.assertEqual(self.run_tool("fit", 1, recorded, "/dev/full")[0], 20)
        self.assertEqual(self.run_tool("fit", 1, recorded, self.folder / "none" / "out")[0], 20)
        self.assertEqual(self.names(), ["out", "recorded.laps"])

    def test_an_interrupt_in_the_middle(self):
        for number in (signal.SIGINT, signal.SIGTERM):
            run = subprocess.Popen([str(TOOL), "fit", "1", "-", str(self.folder / "out")], stdin=subprocess.PIPE)
            run.stdin.write(b"LAPS")
            run.stdin.flush()
            time.sleep(0.3)
            run.send_signal(number)
            self.assertEqual(run.wait(timeout=20), -number)
            run.stdin.close()
            self.assertEqual(self.names(), [])


if __name__ == "__main__":
    unittest.main()
