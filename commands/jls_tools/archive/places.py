"""Where results stand: OUT and the folders beside it. Every file gets its name when it is complete."""
from __future__ import annotations

import contextlib
import ctypes
import errno
import fcntl
import hashlib
import math
import os
import re
import shutil
import socket
import stat
import tempfile
import time
from typing import IO, Iterable, Iterator, List, Optional, Sequence, Tuple

from jls_tools.archive.rows import PART
from jls_tools.dicom.write.outputs import FRAMES

MARK = ".run.json"  # says that jls-archive made the folder
LOCK = "lock"
PATIENCE = 3.0  # seconds in which the processes of a run that was killed are gone
MOST_ALONE = 256  # so many files of a folder wait for the disk one by one, at most
IS_PART = re.compile(re.escape(PART) + "[a-z0-9_]{8}")
ENDINGS = (".log", ".jlsp", FRAMES)  # of what stands beside OUT, behind the path of a picture


class Refused(Exception):
    """The call can't be done as it is; the text is for the person, and `status` for the shell."""

    def __init__(self, text: str, status: int = 2) -> None:
        super().__init__(text)
        self.status = status


def begin_to_store(handle: int) -> None:
    """Lets the system begin to write a file's bytes to the disk, and goes on."""
    with contextlib.suppress(OSError):
        os.posix_fadvise(handle, 0, 0, os.POSIX_FADV_DONTNEED)


def begin_to_store_at(path: str) -> None:
    with open(path, "rb", buffering=0) as file:
        begin_to_store(file.fileno())


def store(path: str) -> None:
    """Waits until the file's bytes are on the disk."""
    handle = os.open(path, os.O_RDONLY)
    try:
        os.fsync(handle)
    finally:
        os.close(handle)


def store_folder(folder: str) -> None:
    """Waits until the files in a folder are on the disk: together, if they are many and the system can."""
    paths = [entry.path for entry in os.scandir(folder)]
    if len(paths) <= MOST_ALONE or not store_disk(folder):
        for path in paths:
            store(path)


def store_disk(path: str) -> bool:
    """Waits until all that was written to the disk of a path is on it; false if the system can't. An OSError says that a write failed."""
    handle = os.open(path, os.O_RDONLY)
    try:
        if ctypes.CDLL(None, use_errno=True).syncfs(handle) == 0:
            return True
        fault = ctypes.get_errno()
    except AttributeError:
        return False
    finally:
        os.close(handle)
    if fault == errno.ENOSYS:
        return False
    raise OSError(fault, os.strerror(fault), path)


def mode_like(seen: os.stat_result) -> int:
    return stat.S_IMODE(seen.st_mode) & 0o777 | 0o600


def make_like(path: str, model: str, times: bool = True) -> None:
    """Gives a file the permissions of another, and its times."""
    try:
        seen = os.stat(model)
    except OSError:
        return
    os.chmod(path, mode_like(seen))
    if times:
        os.utime(path, ns=(seen.st_atime_ns, seen.st_mtime_ns))


def write_like(path: str, data: bytes, seen: os.stat_result) -> None:
    """Writes a new file that has the permissions of another, and its times."""
    handle = os.open(path, os.O_WRONLY | os.O_CREAT | os.O_EXCL, 0o600)
    try:
        left = memoryview(data)
        while left:
            left = left[os.write(handle, left) :]
        os.fchmod(handle, mode_like(seen))
        os.utime(handle, ns=(seen.st_atime_ns, seen.st_mtime_ns))
        begin_to_store(handle)
    except OSError as fault:
        fault.filename = path
        raise
    finally:
        os.close(handle)


def remove(path: str) -> None:
    """Removes a file, a link, or a folder with all that is in it; nothing there is well too."""
    try:
        os.unlink(path)
    except FileNotFoundError:
        pass
    except (IsADirectoryError, PermissionError):
        if not os.path.isdir(path) or os.path.islink(path):
            raise
        shutil.rmtree(path)


def short_name(name: str) -> str:
    """A name for what can't stand under its own, which is too long for the disk."""
    ending = os.path.splitext(name)[1]
    return hashlib.sha256(os.fsencode(name)).hexdigest()[:40] + (ending if len(os.fsencode(ending)) <= 8 else "")


def own_name(name: str) -> str:
    """A name that no other path's result has, of what stands beside OUT: a folder of the tree can be named as the log of a picture is."""
    return short_name(name) if any(folder.endswith(ENDINGS) for folder in name.split("/")[:-1]) else name


def own_name_of_file(path: str) -> str:
    """The same, of a file that has the name of its path."""
    return short_name(path) if path.endswith(ENDINGS) else own_name(path)


class Places:
    """OUT, OUT.differ, OUT.partial, the logs and OUT.report. Work is done in a folder of its own in OUT.report, which the owner alone can
    read."""

    def __init__(self, out: str, report: Optional[str] = None) -> None:
        self.out = out
        self.report = report or f"{out}.report"
        self.roots = {"out": out, "differ": f"{out}.differ", "partial": f"{out}.partial", "logs": os.path.join(self.report, "logs")}
        self.put_there: List[List[str]] = []  # of the path that is worked on
        self.works = os.path.join(self.report, ".work")
        self.mask = os.umask(0)  # what the person lets others do
        os.umask(self.mask)

    def begin(self) -> None:
        """Forgets what was put there of the path before."""
        self.put_there = []

    def path(self, root: str, name: str) -> str:
        return os.path.join(self.roots[root], name)

    def put(self, made: str, root: str, name: str, model: Optional[str] = None, times: bool = False) -> List[str]:
        """Moves a complete file or folder to its place, and answers what a row keeps of it."""
        if os.path.islink(made):
            pass
        elif os.path.isdir(made):
            remove(self.path(root, name))
            self.open_folder(made)
        else:
            os.chmod(made, 0o666 & ~self.mask)
            if model:
                make_like(made, model, times)
            begin_to_store_at(made)
        return self.move(made, root, name)

    def move(self, made: str, root: str, name: str) -> List[str]:
        """Moves what is ready to its place. What the disk has no name for stands under a short one, but in OUT, where it can't be."""
        try:
            return self.move_to(made, root, name)
        except OSError as fault:
            if fault.errno != errno.ENAMETOOLONG or root == "out":
                raise
            return self.move_to(made, root, short_name(name))

    def move_to(self, made: str, root: str, name: str) -> List[str]:
        place = self.path(root, name)
        self.put_there.append([root, name])
        try:
            os.replace(made, place)
        except FileNotFoundError:
            self.make_folder(os.path.dirname(place))
            os.replace(made, place)
        return [root, name]

    def make_folder(self, path: str) -> None:
        """A folder with the permissions that the person's mask leaves."""
        own = os.umask(self.mask)
        try:
            os.makedirs(path, exist_ok=True)
        finally:
            os.umask(own)

    def open_folder(self, path: str) -> None:
        """Gives a folder and the files in it the permissions that the person's mask leaves."""
        for entry in os.scandir(path):
            os.chmod(entry.path, 0o666 & ~self.mask)
            begin_to_store_at(entry.path)
        os.chmod(path, 0o777 & ~self.mask)

    def store(self, outputs: Iterable[Sequence[str]]) -> None:
        """Waits until these files are on the disk. One that somebody took away meanwhile is done anew by the next run."""
        for place in (self.path(*output) for output in outputs):
            with contextlib.suppress(FileNotFoundError):
                seen = os.lstat(place)
                if stat.S_ISDIR(seen.st_mode):
                    store_folder(place)
                elif not stat.S_ISLNK(seen.st_mode):
                    store(place)

    def has(self, output: Sequence[str]) -> bool:
        return os.path.lexists(self.path(*output))

    def drop(self, output: Sequence[str]) -> None:
        """Removes what an earlier run wrote, and folders that are empty then."""
        place = self.path(*output)
        try:
            remove(place)
        except OSError as fault:
            if fault.errno not in (errno.ENAMETOOLONG, errno.ENOTDIR):  # nothing can be there
                raise
        folder = os.path.dirname(place)
        while folder not in self.roots.values() and output[0] != "out":
            try:
                os.rmdir(folder)
            except OSError:
                return
            folder = os.path.dirname(folder)

    def undo(self) -> None:
        """Removes what was put there of a path whose work did not come to its end."""
        for output in self.put_there:
            self.drop(output)
        self.put_there = []


class Work:
    """The folder of one run for what isn't complete. A lock on a file in it says that the run is alive, and the file says of which part.

    The workers have the lock too, so that it is free when the last of them has ended. The system frees it however they end.
    """

    def __init__(self, places: Places, part: Tuple[int, int]) -> None:
        self.places = places
        refusal = self.begin(part)
        end = time.monotonic() + PATIENCE
        while refusal and time.monotonic() < end:
            time.sleep(0.1)
            refusal = self.begin(part)
        if refusal:
            raise Refused(refusal, 4)

    def begin(self, part: Tuple[int, int]) -> Optional[str]:
        """Makes the folder, or answers why it can't be: another run is alive that has paths of this part."""
        with alone(self.places):
            os.makedirs(self.places.works, mode=0o700, exist_ok=True)
            tidy(self.places)
            for name, other in runs_in(self.places):
                if share_paths(part, other):
                    host, number, _ = name.rsplit("-", 2)
                    return f"a run works there already: process {number} on {host}, part {other[0]}/{other[1]}"
            self.folder = tempfile.mkdtemp(prefix=f"{socket.gethostname()[:40]}-{os.getpid()}-", dir=self.places.works)
            self.lock = open(os.path.join(self.folder, LOCK), "wb", buffering=0)
            lock(self.lock)
            self.lock.write(f"{part[0]}/{part[1]}".encode("ascii"))
        return None

    def remove(self) -> None:
        begun = os.fstat(self.lock.fileno()).st_mtime
        remove_parts(self.places.report, begun)
        shutil.rmtree(self.folder, ignore_errors=True)
        self.lock.close()
        with contextlib.suppress(OSError), alone(self.places):
            os.rmdir(self.places.works)  # unless another run works there


def remove_parts(report: str, begun: float) -> None:
    """Removes rows and tables that were not complete when an earlier run was killed: those from before this one began."""
    for folder, folders, names in os.walk(report):
        folders[:] = [each for each in folders if each != "logs"]
        for name in filter(IS_PART.fullmatch, names):
            with contextlib.suppress(FileNotFoundError):  # another run removes it, too
                if os.lstat(os.path.join(folder, name)).st_mtime < begun:
                    os.unlink(os.path.join(folder, name))


@contextlib.contextmanager
def alone(places: Places) -> Iterator[None]:
    """Lets one process of all runs at a time do what stands inside. Disks without locks do without."""
    with open(os.path.join(places.report, MARK), "rb") as mark:
        with contextlib.suppress(OSError):
            fcntl.flock(mark, fcntl.LOCK_EX)
        yield


def lock(file: IO[bytes]) -> Optional[bool]:
    """Whether the lock on a file could be had; nothing on a disk that has no locks."""
    try:
        fcntl.flock(file, fcntl.LOCK_EX | fcntl.LOCK_NB)
        return True
    except BlockingIOError:
        return False
    except OSError:
        return None


def is_gone(name: str) -> Optional[bool]:
    """Whether the folder of this name is of a process of this machine that is no more; nothing if it is of another machine."""
    host, number, _ = name.rsplit("-", 2)
    if host != socket.gethostname()[:40]:
        return None
    try:
        os.kill(int(number), 0)
    except ProcessLookupError:
        return True
    except PermissionError:
        pass
    return False


def is_alive(entry: os.DirEntry[str]) -> Optional[bool]:
    """Whether a run works in a folder. Nothing if that can't be known."""
    try:
        with open(os.path.join(entry.path, LOCK), "r+b") as file:
            is_free = lock(file)
    except FileNotFoundError:
        # killed before it had a lock, or about to have one
        is_free = None if entry.stat().st_mtime > time.time() - 60 else True
    if is_free is not None:
        return not is_free
    gone = is_gone(entry.name)
    return None if gone is None else not gone


def tidy(places: Places) -> None:
    """Removes what runs left that were killed."""
    for entry in os.scandir(places.works):
        with contextlib.suppress(OSError):
            if is_alive(entry) is False:
                shutil.rmtree(entry.path, ignore_errors=True)


def runs_in(places: Places) -> Iterator[Tuple[str, Tuple[int, int]]]:
    """(name, part) of the runs that are alive."""
    for entry in os.scandir(places.works):
        with contextlib.suppress(OSError):
            if is_alive(entry):
                yield entry.name, part_in(entry)


def part_in(entry: os.DirEntry[str]) -> Tuple[int, int]:
    """The part of a run. One that doesn't say it has all."""
    try:
        with open(os.path.join(entry.path, LOCK), encoding="ascii") as file:
            index, parts = map(int, file.read().split("/"))
            return index, parts
    except ValueError:
        return 1, 1


def share_paths(one: Tuple[int, int], other: Tuple[int, int]) -> bool:
    """Whether two parts K/N have a path in common."""
    return (one[0] - other[0]) % math.gcd(one[1], other[1]) == 0
