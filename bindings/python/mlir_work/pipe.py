"""Talks to a process through pipes: it reads lines, and ends each answer by an empty line."""
import os
import select
import subprocess
import tempfile
import time
import warnings
import weakref
from typing import IO, Callable, Dict, List, Optional, Sequence, Tuple, Union

# The bytes, or one of several, that an answer begins with.
Begins = Union[bytes, Tuple[bytes, ...]]
# Called while the process is waited for. It returns the seconds after which to call it again, or None for no more.
Tick = Callable[[], Optional[float]]
# The beginnings of the answer to a module: nothing, an analysis that wasn't attached, or a refusal of the module.
FIRST = (b"\n", b"attach ", b"module refused ")
CHUNK = 65536
# Seconds to wait for a process that closed its output, and how many bytes of its messages an exception shows.
PATIENCE, MOST_SAID, MOST_SHOWN = 1.0, 300, 60
ENDED = "closed its output"
BUSY = "another call still waits for its answer: use a session in one thread only"
# This many bytes of an answer are enough to see how it begins.
BEGUN = 32


class Lost(Exception):
    """The process ended, closed an end of a pipe, wrote an invalid answer, or reached the timeout. It no longer runs.
    `status` is its exit status, if it ended by itself."""

    def __init__(self, words: str, status: Optional[int]) -> None:
        super().__init__(words)
        self.status = status


class Pipe:
    """A process and the pipes to it. It runs in its own session, so Ctrl-C reaches only the caller. Any exception in a
    call, also an interrupt, ends the process, since the state of the pipes is unknown then."""

    def __init__(self, words: Sequence[str], environment: Optional[Dict[str, str]] = None,
                 timeout: Optional[float] = None, tick: Optional[Tick] = None) -> None:
        self.words, self.timeout, self.tick = list(words), timeout, tick
        self.status: Optional[int] = None
        self._kept, self._seen, self._is_deaf = bytearray(), 0, False
        # Messages of the process, for example about a wrong command line, are reported when it ends.
        self._said: IO[bytes] = tempfile.TemporaryFile()
        try:
            self.run = subprocess.Popen(self.words, bufsize=0, stdin=subprocess.PIPE, stdout=subprocess.PIPE,
                                        stderr=self._said, env=environment, start_new_session=True)
        except BaseException:
            self._said.close()
            raise
        assert self.run.stdin and self.run.stdout
        self._ends: Tuple[IO[bytes], IO[bytes]] = self.run.stdin, self.run.stdout
        self._input, self._output = self.run.stdin.fileno(), self.run.stdout.fileno()
        os.set_blocking(self._input, False)
        self.is_open, self._is_busy = True, False
        _open.add(self)

    def __del__(self) -> None:
        if getattr(self, "is_open", False):
            warnings.warn(f"{self.words[0]} was never closed", ResourceWarning, source=self)
            self.stop()

    # Requests.

    def ask(self, text: bytes, begins: Sequence[Begins], may_end: bool = False) -> List[bytes]:
        """Writes a text, and returns the next answers, each without the empty line after it. There is one answer for
        each of `begins`, and it must begin so; `\\n` is for an answer without lines. If the process may end, its last
        output counts as the last answer."""
        return self._whole(text, begins, may_end, False)

    def finish(self, text: bytes = b"", begins: Sequence[Begins] = ()) -> Tuple[List[bytes], Optional[int]]:
        """Writes a text, which may lack a line feed at its end. Ends the input, and returns the answers and the
        status."""
        answers = self._whole(text, begins, False, True)
        return answers, self.close()

    def close(self) -> Optional[int]:
        """Ends the input, waits until the process ended, and returns its status. A closed pipe stays closed."""
        if not self.is_open:
            return self.status
        if self._is_busy:
            raise RuntimeError(BUSY)
        try:
            self._ends[0].close()
            self._drain()
            self.status = self.run.wait(self.timeout)
        except subprocess.TimeoutExpired:
            raise self._lost(f"didn't end within {self.timeout} s") from None
        finally:
            self.stop()
        return self.status

    def stop(self) -> None:
        """Ends the process at once, and waits for it. A process that ended by itself keeps its status."""
        self.is_open = False
        _open.discard(self)
        try:
            if self.run.poll() is None:
                self.run.kill()
            self.run.wait()
        finally:
            self.forget()

    def forget(self) -> None:
        """Closes this process's ends of the pipes."""
        self.is_open = False
        for it in (*self._ends, self._said):
            it.close()

    # Writing and reading.

    def _whole(self, text: bytes, begins: Sequence[Begins], may_end: bool, is_last: bool) -> List[bytes]:
        if not self.is_open:
            raise ValueError(f"{self.words[0]}: the pipe was closed")
        if self._is_busy:
            raise RuntimeError(BUSY)
        self._is_busy = True
        try:
            return self._answers(memoryview(text), begins, may_end, is_last)
        except BaseException:
            self.stop()
            raise
        finally:
            self._is_busy = False

    def _answers(self, left: memoryview, begins: Sequence[Begins], may_end: bool, is_last: bool) -> List[bytes]:
        answers: List[bytes] = []
        left = self._written(left, is_last)
        while left or len(answers) < len(begins):
            begin = begins[len(answers)] if len(answers) < len(begins) else b""
            answer = self._cut(begin) if begin else None
            if answer is not None:
                answers.append(answer)
                continue
            left, is_more = self._more(left, is_last)
            if not is_more:
                if not (may_end and begin and self._kept.startswith(begin)):
                    raise self._lost(ENDED)
                answers.append(bytes(self._kept))
                self._kept.clear()
        return answers

    def _written(self, left: memoryview, is_last: bool) -> memoryview:
        """Writes as much as the pipe accepts, and returns the rest. If the reader closed the pipe, the rest is dropped:
        an answer may still arrive, and the caller waits for it only briefly."""
        try:
            while left:
                left = left[os.write(self._input, left):]
        except BlockingIOError:
            return left
        except BrokenPipeError:
            left, self._is_deaf = left[:0], True
        if is_last:
            self._ends[0].close()
        return left

    def _more(self, left: memoryview, is_last: bool) -> Tuple[memoryview, bool]:
        """Reads once, and writes as much as the pipe accepts. Returns the rest to write, and whether the output is
        still open."""
        timeout = PATIENCE if self._is_deaf and self.timeout is None else self.timeout
        if left or timeout is not None or self.tick:
            poll = select.poll()
            poll.register(self._output, select.POLLIN)
            if left:
                poll.register(self._input, select.POLLOUT)
            found = self._ready(poll, timeout)
            if not found:
                raise self._lost("reads no more" if self._is_deaf else f"wrote no answer within {timeout} s")
            left = self._written(left, is_last) if self._input in found else left
            if self._output not in found:
                return left, True
        more = os.read(self._output, CHUNK)
        self._kept += more
        return left, bool(more)

    def _ready(self, poll: "select.poll", timeout: Optional[float]) -> List[int]:
        """Waits for an end of a pipe, and calls `tick` meanwhile. Returns the ends that are ready, or none after
        `timeout` seconds."""
        ends = None if timeout is None else time.monotonic() + timeout
        while True:
            rest = None if ends is None else max(ends - time.monotonic(), 0)
            step = self.tick() if self.tick else None
            wait = min([it for it in (rest, step) if it is not None], default=None)
            found = [number for number, _ in poll.poll(None if wait is None else wait * 1000)]
            if found or wait is None or wait == rest:
                return found

    def _cut(self, begin: Begins) -> Optional[bytes]:
        """Returns the next answer, if it is complete."""
        kept = self._kept
        if not kept:
            return None
        if kept[0] == 10 and kept.startswith(begin):
            del kept[:1]
            return b""
        if not kept.startswith(begin) and (len(kept) >= BEGUN or b"\n" in kept):
            raise self._lost(f"wrote what is no answer: {bytes(kept[:MOST_SHOWN])!r}")
        place = kept.find(b"\n\n", max(self._seen - 1, 0))
        if place < 0:
            self._seen = len(kept)
            return None
        answer = bytes(kept[:place + 1])
        del kept[:place + 2]
        self._seen = 0
        return answer

    def _drain(self) -> None:
        """Reads and drops the output after the last answer, so that the process can't block on a full pipe."""
        ends = None if self.timeout is None else time.monotonic() + self.timeout
        poll = select.poll()
        poll.register(self._output, select.POLLIN)
        while True:
            rest = None if ends is None else max(ends - time.monotonic(), 0) * 1000
            if not poll.poll(rest):
                raise subprocess.TimeoutExpired(self.words, self.timeout or 0)
            if not os.read(self._output, CHUNK):
                return

    def _lost(self, words: str) -> Lost:
        """Ends the process, and returns the exception that says why."""
        if words == ENDED:
            try:
                self.status = self.run.wait(PATIENCE)
                words = f"ended with status {self.status}"
            except subprocess.TimeoutExpired:
                pass
        self._said.seek(0)
        said = self._said.read(MOST_SAID).decode("utf-8", "replace").strip()
        self.stop()
        return Lost(f"{self.words[0]} {words}" + (f": {said}" if said else ""), self.status)


_open: "weakref.WeakSet[Pipe]" = weakref.WeakSet()


def _forget_all() -> None:
    """Closes the ends of all pipes in a forked process. An end that stayed open would keep the program running."""
    for it in list(_open):
        it.run.returncode = 0  # only the parent process can wait for it
        it.forget()
    _open.clear()


os.register_at_fork(after_in_child=_forget_all)
