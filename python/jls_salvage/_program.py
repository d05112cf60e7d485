"""Calling a program of jls-salvage, where the library doesn't have what it does yet."""
from __future__ import annotations

import contextlib
import errno
import functools
import os
import re
import shutil
import signal
import subprocess
import threading
from types import FrameType
from typing import Iterator, NamedTuple, Optional, Sequence, Tuple

from ._library import prefixes
from ._types import Error, MissingProgram

#: The oldest version of each program that has all options which are used here, where it tells its version.
_OLDEST = {"jls-splice": (1, 2, 0)}
#: The seconds in which a program that is asked to end has to take its temporary files away.
_SECONDS = 10


class Ended(NamedTuple):
    """How a program ended: its status, and what it printed and complained of."""

    status: int
    printed: str
    faults: str


def _places(name: str) -> Iterator[Optional[str]]:
    """Where a program can be: beside this file (in a wheel), on PATH, or below the prefixes that can have the library."""
    yield os.path.join(os.path.dirname(os.path.abspath(__file__)), name)
    yield shutil.which(name)
    yield from (os.path.join(prefix, "bin", name) for prefix in prefixes())


def _path(name: str) -> str:
    """The path of a program: what its variable names, else the first place that has it. Raises `MissingProgram`."""
    variable = name.upper().replace("-", "_")
    named = os.environ.get(variable)
    for path in [named] if named else _places(name):
        if path and os.path.isfile(path) and os.access(path, os.X_OK):
            return os.path.abspath(path)
    raise MissingProgram(f"{named or name} is no program that is there; {variable} can name {name}")


@functools.lru_cache(maxsize=None)
def _version(path: str, changed: int) -> Tuple[int, ...]:
    """The version of a program that was changed at this time; nothing if it tells none."""
    told = re.search(r"^\S+ (\d+)\.(\d+)\.(\d+)\b", _ended([path, "--version"], None, None, None).printed)
    return tuple(map(int, told.groups())) if told else ()


class _Later:
    """Puts Ctrl-C off until `end`, so that no program is left which has just begun. Only the main thread hears of it."""

    def __init__(self) -> None:
        self._came: Optional[Tuple[int, Optional[FrameType]]] = None
        self._own = signal.getsignal(signal.SIGINT) if threading.current_thread() is threading.main_thread() else None
        if callable(self._own):
            signal.signal(signal.SIGINT, self._note)

    def _note(self, number: int, frame: Optional[FrameType]) -> None:
        self._came = number, frame

    def end(self) -> None:
        """Does what came meanwhile: it raises KeyboardInterrupt, if nobody changed that."""
        own, self._own = self._own, None
        if callable(own):
            signal.signal(signal.SIGINT, own)
            if self._came:
                own(*self._came)


def _stop(running: subprocess.Popen[bytes]) -> None:
    """Asks a program to end, which stops its own programs too, and waits a while for it."""
    running.terminate()
    with contextlib.suppress(subprocess.TimeoutExpired):
        running.communicate(timeout=_SECONDS)


def _begun(words: Sequence[str], folder: Optional[str], inside: Optional[str]) -> subprocess.Popen[bytes]:
    """Begins a program. Raises `MissingProgram`."""
    variables = {**os.environ, "TMPDIR": folder} if folder else None
    nothing, pipe = subprocess.DEVNULL, subprocess.PIPE
    try:
        return subprocess.Popen(words, cwd=inside, env=variables, stdin=nothing, stdout=pipe, stderr=pipe)
    except OSError as why:
        if why.errno not in (errno.ENOENT, errno.EACCES, errno.ENOEXEC):
            raise
        raise MissingProgram(f"{words[0]}: {why.strerror}") from None


def _ended(words: Sequence[str], folder: Optional[str], inside: Optional[str], timeout: Optional[float]) -> Ended:
    """Runs a program, which has its own temporary files in this folder too. It works `inside` one, or where this process does. However
    this ends, the program has ended too."""
    name, later = os.path.basename(words[0]), _Later()
    try:
        running = _begun(words, folder, inside)
    except BaseException:
        later.end()
        raise
    with running:
        try:
            later.end()
            printed, faults = (text.decode("utf-8", "replace") for text in running.communicate(timeout=timeout))
        except subprocess.TimeoutExpired:
            _stop(running)
            raise TimeoutError(f"{name} was stopped after {timeout} seconds") from None
        except BaseException:
            _stop(running)
            raise
        finally:
            running.kill()  # which does nothing to one that has ended
            running.wait()
    if running.returncode < 0:
        raise Error(f"{name} was stopped by signal {-running.returncode}")
    return Ended(running.returncode, printed, faults)


def called(name: str, words: Sequence[str], folder: str, timeout: Optional[float], is_inside: bool = False) -> Ended:
    """Calls a program with a folder for temporary files, inside of which it can work.

    Raises `MissingProgram`, also where it is too old, TimeoutError, and `Error` at a signal.
    """
    path, oldest = _path(name), _OLDEST.get(name)
    if oldest and _version(path, os.stat(path).st_mtime_ns) < oldest:
        raise MissingProgram(f"{path} is older than version {'.'.join(map(str, oldest))}")
    return _ended([path, *words], folder, folder if is_inside else None, timeout)
