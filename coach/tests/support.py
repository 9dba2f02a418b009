"""What the tests share: the modules of coach/, runs of coach.py, and folders that go away."""
import os
import subprocess
import sys
import tempfile
import unittest
from pathlib import Path

COACH = Path(__file__).resolve().parent.parent
sys.path.insert(0, str(COACH))

WORKOUT = COACH / "workout.txt"
TOOL = COACH.parent / "target" / "coach" / "laptool"


def coach(*words, data=None, **more):
    """Runs coach.py: its exit status, what it printed, what it complained of."""
    done = subprocess.run([sys.executable, str(COACH / "coach.py"), *map(str, words)], input=data, capture_output=True,
                          check=False, env={**os.environ, "PYTHONDONTWRITEBYTECODE": "1"}, **more)
    return done.returncode, done.stdout.decode(), done.stderr.decode()


class Case(unittest.TestCase):
    """A test with a folder of its own."""

    def setUp(self):
        folder = tempfile.TemporaryDirectory()
        self.addCleanup(folder.cleanup)
        self.folder = Path(folder.name)

    def put(self, name, data):
        place = self.folder / name
        place.write_bytes(data if isinstance(data, bytes) else data.encode())
        return place

    def names(self):
        return sorted(entry.name for entry in self.folder.iterdir())

    def told(self, status, words, *command, **more):
        """The command ends with a status and says the words on standard error, in a sentence of its own."""
        code, out, error = coach(*command, **more)
        self.assertEqual(code, status, error)
        self.assertIn(words, error)
        self.assertNotIn("Traceback", error)
        return out
