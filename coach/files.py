"""The files of one command: what it reads is remembered, and what it writes appears whole and together, or not at all.

Only a loss of power or a kill between two renames can part two files; what takes both then finds that the fit is not the
workout's (fitting.check_fit)."""
import contextlib
import fcntl
import os
import shutil
import signal
import stat
import sys
import tempfile

from trouble import NotWritten, Trouble

STREAM, STDIN = "-", 0


def label(name):
    """An input's name for people."""
    return "standard input" if name == STREAM else name


class Files:
    """Reads and writes for one command. `force` lets it replace files that are there."""

    def __init__(self, force=False):
        self.force = force
        self.inputs = []
        self.listened = False

    def read(self, name):
        """The bytes of a file, or of standard input."""
        if name == STREAM and self.listened:
            raise Trouble("standard input can be read once")
        self.listened = self.listened or name == STREAM
        try:
            with open(STDIN if name == STREAM else name, "rb", closefd=name != STREAM) as file:
                self.inputs.append(os.fstat(file.fileno()))
                return file.read()
        except OSError as error:
            raise Trouble(f"{label(name)}: {error.strerror}") from error

    def read_if_there(self, name):
        """The bytes of a file; None where there is none."""
        return self.read(name) if os.path.lexists(name) else None

    def save(self, *outputs):
        """Writes pairs of name and bytes: all of them, or none."""
        streams = [pair for pair in outputs if is_stream(pair[0])]
        places = [Place(*pair) for pair in outputs if not is_stream(pair[0])]
        self.turn_down(streams, places)
        write(streams, places)

    def renew(self, *outputs):
        """Writes new contents where files are, which may have been read: all of them, or none. Of those that a failure of the machine
        can part, the first is the one that does no harm alone."""
        for name, _ in outputs:
            if is_stream(name) or os.path.isdir(name):
                raise NotWritten(f"{label(name)}: is no file that can be changed where it is")
        write([], [Place(*pair) for pair in outputs])

    def is_input(self, real):
        """Whether a place holds a file that was read, by whatever name."""
        return os.path.exists(real) and any(os.path.samestat(os.stat(real), read) for read in self.inputs)

    def turn_down(self, streams, places):
        """Stops outputs that would destroy something."""
        reals = [place.real for place in places]
        if len(streams) > 1 or len(set(reals)) < len(reals):
            raise NotWritten("two outputs have the same name")
        for place in places:
            if self.is_input(place.real):
                raise NotWritten(f"{place.name}: is also an input; nothing was written")
            if not os.path.isdir(os.path.dirname(place.real)):
                raise NotWritten(f"{place.name}: there is no such folder")
            if os.path.isdir(place.real):
                raise NotWritten(f"{place.name}: is a folder")
            if os.path.exists(place.real) and not self.force:
                raise NotWritten(f"{place.name}: is there already; --force replaces it")


def write(streams, places):
    """Writes what cannot be renamed to, and then all files together."""
    with contextlib.ExitStack() as stack:
        for place in places:
            stack.callback(place.clear)
            place.stage()
        for name, data in streams:
            write_stream(name, data)
        with signals_held():
            publish(places)


@contextlib.contextmanager
def one_at_a_time(name):
    """Lets one command at a time change files in a file's folder; others wait. Where the system has no locks, none waits."""
    folder = os.path.dirname(os.path.realpath(name))
    with contextlib.ExitStack() as stack:
        with contextlib.suppress(OSError):
            handle = os.open(folder, os.O_RDONLY)
            stack.callback(os.close, handle)
            fcntl.flock(handle, fcntl.LOCK_EX)
        yield


def is_stream(name):
    """Standard output, or what is no file on a disk (/dev/full, a pipe): written straight, as it cannot be renamed to."""
    if name == STREAM:
        return True
    try:
        mode = os.stat(name).st_mode
    except OSError:
        return False
    return not (stat.S_ISREG(mode) or stat.S_ISDIR(mode))


def write_stream(name, data):
    try:
        if name == STREAM and sys.stdout is None:
            raise NotWritten("standard output is closed")
        if name == STREAM:
            sys.stdout.buffer.write(data)
            sys.stdout.buffer.flush()
        else:
            with open(name, "wb") as file:
                file.write(data)
    except BrokenPipeError:
        raise
    except OSError as error:
        raise NotWritten(f"{'standard output' if name == STREAM else name}: {error.strerror}") from error


class Place:
    """A file to be written: first beside its place, under a name of its own, and renamed when it is whole."""

    def __init__(self, name, data):
        self.name, self.data = name, data
        self.real = os.path.realpath(name)
        self.beside = self.old = None

    def stage(self):
        """Writes the bytes beside the place, down to the disk."""
        folder, base = os.path.split(self.real)
        try:
            with signals_held():
                handle, self.beside = tempfile.mkstemp(prefix=f".{base}.", suffix=".part", dir=folder)
            with open(handle, "wb") as file:
                file.write(self.data)
                file.flush()
                os.fsync(file.fileno())
            os.chmod(self.beside, self.mode())
        except OSError as error:
            raise NotWritten(f"{self.name}: {error.strerror}; nothing was written") from error

    def mode(self):
        """The rights of the file that is replaced, or those of a new one."""
        if os.path.exists(self.real):
            return stat.S_IMODE(os.stat(self.real).st_mode)
        mask = os.umask(0)
        os.umask(mask)
        return 0o666 & ~mask

    def keep_old(self):
        """A second name for the file that is replaced, so that it can be put back."""
        if os.path.exists(self.real):
            old = self.beside + ".old"
            try:
                os.link(self.real, old)
            except OSError:
                shutil.copy2(self.real, old)
            self.old = old

    def put_back(self):
        if self.old:
            os.replace(self.old, self.real)
            self.old = None
        elif os.path.exists(self.real):
            os.unlink(self.real)

    def clear(self):
        for name in (self.beside, self.old):
            if name and os.path.exists(name):
                os.unlink(name)


def publish(places):
    """Renames every file to its place; where one cannot be, those before it are put back."""
    done = []
    try:
        for place in places:
            place.keep_old()
        for place in places:
            done.append(place)
            os.replace(place.beside, place.real)
    except OSError as error:
        for place in done[:-1]:
            place.put_back()
        raise NotWritten(f"{(done or places)[-1].name}: {error.strerror}; nothing was changed") from error
    for folder in {os.path.dirname(place.real) for place in places}:
        settle(folder)


def settle(folder):
    """Has the folder's new names on the disk, where the system can open a folder."""
    with contextlib.suppress(OSError):
        handle = os.open(folder, os.O_RDONLY)
        try:
            os.fsync(handle)
        finally:
            os.close(handle)


@contextlib.contextmanager
def signals_held():
    """Holds interrupts back, so that none falls between two renames."""
    ours = {signal.SIGINT, signal.SIGTERM, signal.SIGHUP}
    before = signal.pthread_sigmask(signal.SIG_BLOCK, ours)
    try:
        yield
    finally:
        signal.pthread_sigmask(signal.SIG_SETMASK, before)
