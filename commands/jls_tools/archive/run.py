"""Does the work on many items in processes beside one another, and ends them all at a signal."""
from __future__ import annotations

import collections
import ctypes
import multiprocessing
import os
import shutil
import signal
import time
import traceback
from multiprocessing import connection
from typing import Any, Deque, Generator, Iterator, List, Optional, Sequence, Tuple

from jls_tools import signals
from jls_tools.archive.rows import Row
from jls_tools.programs import ProgramFailed
from jls_tools.signals import Stopped, Watch

PARENT_DIED = 1  # PR_SET_PDEATHSIG of prctl
AT_MOST = 1.0  # seconds after which the one that asks for rows is asked what it wants to do
TOGETHER, QUICK = 8, 0.1  # so many items are given at once to a worker that did the last ones in so many seconds
Pipe = Any  # connection.Connection, whose messages mypy does not know
Fault = Tuple[str, int]  # a text for the person, and the status for the shell
Answer = Tuple[Optional[Row], Optional[Fault]]  # one of both


def prepare_worker() -> None:
    """A worker ends if the process that started it does. The programs that it calls are of its group, and end with it."""
    os.setpgid(0, 0)
    try:
        ctypes.CDLL(None).prctl(PARENT_DIED, signal.SIGTERM)
    except (OSError, AttributeError):
        pass  # it ends at its next item
    os.umask(0o077)
    signals.prepare_worker()


def fault_of(fault: Exception) -> Fault:
    """(text, status) for the run if work on an item failed with this."""
    if isinstance(fault, ProgramFailed):
        return str(fault), fault.status
    if isinstance(fault, MemoryError):
        return "out of memory", 5
    if isinstance(fault, OSError):
        return f"{fault.filename or 'a file'}: {fault.strerror}", 4
    return "".join(traceback.format_exception(type(fault), fault, fault.__traceback__)), 70


def work(pipe: Pipe, job: Any, folder: str) -> None:
    """A worker: takes items from the pipe, several at once, and answers each in turn by (row, nothing) or (nothing, fault)."""
    prepare_worker()
    try:
        while True:
            try:
                items, is_late = pipe.recv()
            except EOFError:
                return
            os.makedirs(folder, exist_ok=True)
            for item in items:
                answer = answer_of(job, item, is_late, folder)
                clear(folder)
                pipe.send(answer)
    except BrokenPipeError:
        pass
    finally:
        shutil.rmtree(folder, ignore_errors=True)


def clear(folder: str) -> None:
    """Removes what the work on an item left."""
    with os.scandir(folder) as entries:
        is_empty = next(entries, None) is None
    if not is_empty:
        shutil.rmtree(folder, ignore_errors=True)
        os.makedirs(folder, exist_ok=True)


def answer_of(job: Any, item: Any, is_late: bool, folder: str) -> Answer:
    """What comes of an item. What was written of it goes if the work doesn't come to its end."""
    try:
        return job.do(item, folder, is_late), None
    except Exception as fault:
        job.undo()
        return None, fault_of(fault)
    except SystemExit:
        job.undo()
        raise


class Worker:
    """A process that has items of its own, and does one at a time. It ends by itself if the one that made it does."""

    def __init__(self, job: Any, folder: str, others: Sequence[Pipe]) -> None:
        self.pipe, theirs = multiprocessing.Pipe()
        self.folder = folder
        self.items: Deque[Any] = collections.deque()  # those that it has not answered: it is at the first
        self.due: Optional[float] = None
        self.seconds: Optional[float] = None
        self.begun = 0.0
        self.is_quick = False
        self.process = multiprocessing.get_context("fork").Process(target=self.begin, args=(theirs, job, folder, others))
        with signals.blocked():
            self.process.start()
        theirs.close()

    def begin(self, theirs: Pipe, job: Any, folder: str, others: Sequence[Pipe]) -> None:
        for pipe in (self.pipe, *others):
            pipe.close()
        try:
            work(theirs, job, folder)
        except SystemExit:
            os.killpg(0, signal.SIGKILL)  # also a program that was only just begun

    def give(self, items: Sequence[Any], seconds: Optional[float] = None) -> None:
        """Gives it items, and so many seconds for each. Without a limit they are items whose time ran out before."""
        self.items.extend(items)
        self.seconds, self.begun = seconds, time.monotonic()
        self.set_due()
        self.pipe.send((list(items), seconds is None))

    def set_due(self) -> None:
        self.due = None if self.seconds is None else time.monotonic() + self.seconds

    def end(self) -> List[Any]:
        """Ends it, waits until it has removed what isn't complete, and answers what it had not done."""
        end([self])
        self.pipe.close()
        shutil.rmtree(self.folder, ignore_errors=True)
        return list(self.items)

    def answers(self) -> Iterator[Row]:
        """The rows of items that it has answered since. A Stopped says why there is none."""
        while self.items and self.pipe.poll():
            row, fault = self.take()
            self.items.popleft()
            self.set_due()
            if fault:
                raise Stopped(*fault)
            if row:
                yield row
        self.is_quick = time.monotonic() - self.begun < QUICK

    def take(self) -> Answer:
        """The answer. A worker that is gone was stopped from outside."""
        try:
            answer: Answer = self.pipe.recv()
            return answer
        except (EOFError, ConnectionResetError):
            self.process.join()
            return None, ("a process of this run was stopped from outside", 137)


class Run:
    """The work on items by several workers. `job` does an item in a folder for what isn't complete, and undoes what it wrote of one."""

    def __init__(self, job: Any, folder: str, options: Any, watch: Watch) -> None:
        self.job = job
        self.folder = folder
        self.jobs: int = options.jobs
        self.seconds: int = options.seconds
        self.watch = watch
        self.workers: List[Worker] = []
        self.again: Deque[Any] = collections.deque()  # items of workers that were ended before they came to them

    def go(self, items: Iterator[Any]) -> Generator[Optional[Row], None, None]:
        """Yields rows as items are done, and nothing once in a while. A Stopped says why it ended early."""
        try:
            yield from self.give_all(iter(items))
        except Stopped:
            end(self.workers)
            yield from answers_of(self.workers)
            raise
        finally:
            end(self.workers)

    def start(self, folder: str) -> Worker:
        """A new worker."""
        self.workers.append(Worker(self.job, folder, [worker.pipe for worker in self.workers]))
        return self.workers[-1]

    def some(self, waiting: Iterator[Any], most: int) -> List[Any]:
        """The next items, at most so many."""
        found: List[Any] = []
        while len(found) < most:
            item = self.again.popleft() if self.again else next(waiting, None)
            if item is None:
                break
            found.append(item)
        return found

    def give_all(self, waiting: Iterator[Any]) -> Iterator[Optional[Row]]:
        """Starts the workers, and gives each items whenever it has none."""
        for number in range(self.jobs):
            items = self.some(waiting, 1)
            if not items:
                break
            self.start(os.path.join(self.folder, str(number))).give(items, self.seconds)
        while any(worker.items for worker in self.workers):
            ready = self.ready()
            if not ready:
                yield None
            for worker in ready:
                yield from worker.answers()
            for worker in self.workers:
                if not worker.items:
                    items = self.some(waiting, TOGETHER if worker.is_quick else 1)
                    if items:
                        worker.give(items, self.seconds)

    def ready(self) -> List[Worker]:
        """Workers that have an answer. Those whose time ran out before one came are ended: a new one takes the item without its work."""
        busy = {worker.pipe: worker for worker in self.workers if worker.items}
        limits = [worker.due - time.monotonic() for worker in busy.values() if worker.due is not None]
        wait = max(0, min([AT_MOST, *limits]))
        found = connection.wait([*busy, self.watch.reader], wait)
        self.watch.end()
        for worker in [] if found else list(busy.values()):
            if worker.due is not None and worker.due <= time.monotonic():
                self.workers.remove(worker)
                item, *others = worker.end()
                self.again.extend(others)
                self.start(worker.folder).give([item])
        return [busy[pipe] for pipe in found if isinstance(pipe, connection.Connection)]


def answers_of(workers: Sequence[Worker]) -> Iterator[Row]:
    """What workers had done when they were ended."""
    for worker in workers:
        while worker.items and worker.pipe.poll():
            row, _ = worker.take()
            worker.items.popleft()
            if row:
                yield row


def end(workers: Sequence[Worker]) -> None:
    """Ends all workers, and waits until they have removed what isn't complete."""
    for worker in workers:
        worker.process.terminate()
    for worker in workers:
        worker.process.join(10)
        if worker.process.is_alive() and worker.process.pid:
            os.killpg(worker.process.pid, signal.SIGKILL)
            worker.process.join()
