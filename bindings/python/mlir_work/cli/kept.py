"""Saves the script and the history of a session, so that no typed line is lost.

The folder is `mlir_work` in $XDG_STATE_HOME, or in ~/.local/state. Each save writes the whole script to a new file,
which then replaces the last one atomically. A running session holds a lock on its script. A script without a lock is
from a session that didn't end normally, and the next start offers it. The script of the last session that ended
normally is kept as `last.script`."""
import contextlib
import fcntl
import hashlib
import itertools
import os
import pathlib
import stat
import tempfile

LAST, HISTORY = "last.script", "history"
MOST_HISTORY = 2000
HEAD = "// A session over "
DIGEST = "// The SHA-256 of the module: "


def folder():
    """Returns the folder, which may not exist."""
    state = os.environ.get("XDG_STATE_HOME", "")
    base = pathlib.Path(state) if os.path.isabs(state) else pathlib.Path.home() / ".local/state"
    return base / "mlir_work"


@contextlib.contextmanager
def beside(path):
    """Yields a new file next to a path, and replaces the path by it after all is written."""
    with tempfile.NamedTemporaryFile(dir=path.parent, prefix=f".{path.name}.", delete=False) as file:
        try:
            yield file
            file.flush()
            os.fsync(file.fileno())
            os.replace(file.name, path)
        except BaseException:
            with contextlib.suppress(OSError):
                os.unlink(file.name)
            raise


def put(name, text):
    """Replaces a file atomically: if the write fails, the file is unchanged. Writes directly to a device or a pipe."""
    path = pathlib.Path(os.path.expanduser(name))
    try:
        mode = path.stat().st_mode
    except FileNotFoundError:
        mask = os.umask(0)
        os.umask(mask)
        mode = stat.S_IFREG | 0o666 & ~mask
    if not stat.S_ISREG(mode):
        path.write_bytes(text)
        return
    with beside(pathlib.Path(os.path.realpath(path))) as file:
        file.write(text)
        os.fchmod(file.fileno(), stat.S_IMODE(mode))


def is_held(number):
    """Whether another session holds the lock of a file. If none does, this process takes the lock."""
    try:
        fcntl.flock(number, fcntl.LOCK_EX | fcntl.LOCK_NB)
    except OSError:
        return True
    return False


class Kept:
    """The saved script of a session on a module."""

    def __init__(self, name, module):
        whole = os.path.abspath(name)
        self.head = f"{HEAD}{whole}\n{DIGEST}{hashlib.sha256(module).hexdigest()}\n".encode("utf-8", "surrogateescape")
        self.begins = begins(whole)
        names = (folder() / f"{self.begins}{os.getpid()}-{number}.script" for number in itertools.count(1))
        self.path, self.lock, self.text = next(path for path in names if not path.exists()), None, None

    def save(self, script):
        """Writes the script, unless it is unchanged, or empty with no saved script."""
        if script == (self.text or b""):
            return
        self.path.parent.mkdir(parents=True, exist_ok=True)
        with beside(self.path) as file:
            lock = os.dup(file.fileno())
            try:
                fcntl.flock(lock, fcntl.LOCK_EX | fcntl.LOCK_NB)
                file.write(self.head + script)
                file.flush()
            except BaseException:
                os.close(lock)
                raise
        self.release()
        self.lock, self.text = lock, script

    def release(self):
        """Releases the lock."""
        if self.lock is not None:
            os.close(self.lock)
        self.lock = None

    def end(self):
        """Keeps the script as the last one, since the session ended by itself."""
        if self.text:
            with contextlib.suppress(OSError):
                os.replace(self.path, self.path.parent / LAST)
        elif self.text is not None:
            with contextlib.suppress(OSError):
                self.path.unlink()
        self.release()

    def left(self):
        """Returns the scripts of sessions over this module that didn't end by themselves, the newest first."""
        found = []
        for path in folder().glob(f"{self.begins}*.script"):
            with contextlib.suppress(OSError), path.open("rb") as file:
                if path != self.path and not is_held(file.fileno()):
                    found.append(Left(path, file.read(), path.stat().st_mtime, self.head))
        return sorted((it for it in found if it.script), key=lambda it: -it.time)


class Left:
    """The script of an unfinished session. `is_of_module` says whether the module is still the same."""

    def __init__(self, path, text, time, head):
        self.path, self.time = path, time
        lines = text.split(b"\n", 2)
        self.script = lines[2] if len(lines) == 3 and text.startswith(HEAD.encode()) else text
        self.is_of_module = text.startswith(head)

    def taken(self):
        """Removes the file, since another file holds the script now."""
        with contextlib.suppress(OSError):
            self.path.unlink()

    def drop(self):
        """Keeps the script as the last one. It isn't offered again."""
        with contextlib.suppress(OSError):
            os.replace(self.path, self.path.parent / LAST)


def begins(whole):
    """Returns what the names of kept scripts over a module begin with."""
    stem = "".join(letter if letter.isalnum() and letter.isascii() else "_" for letter in pathlib.Path(whole).stem[:40])
    return f"{stem}-{hashlib.sha256(os.fsencode(whole)).hexdigest()[:12]}-"
