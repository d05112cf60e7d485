"""What a signal does to a run: it ends in good order, and a line says how it goes on."""
from __future__ import annotations

import contextlib
import os
import signal
from types import FrameType
from typing import Iterator, Optional

SIGNALS = (signal.SIGINT, signal.SIGTERM, signal.SIGHUP)


class Stopped(Exception):
    """The run can't go on: the text is for the person, and `status` for the shell."""

    def __init__(self, text: str, status: int) -> None:
        super().__init__(text)
        self.status = status


class Watch:
    """The signals that end a run. The first one counts. Later ones do nothing, so that none of them meets the report half written."""

    def __init__(self) -> None:
        self.number = 0
        self.is_held = False
        self.reader, self.writer = os.pipe()  # has a byte in it when a signal came

    def catch(self) -> None:
        """Takes the signals from now on. One that is ignored already, as nohup lets it be, stays so."""
        for number in SIGNALS:
            if signal.getsignal(number) != signal.SIG_IGN:
                signal.signal(number, self.take)

    def take(self, number: int, _: Optional[FrameType]) -> None:
        for each in SIGNALS:
            signal.signal(each, signal.SIG_IGN)
        self.number = number
        os.write(self.writer, b"\0")
        if not self.is_held:
            self.end()

    def end(self) -> None:
        """Raises Stopped if a signal came."""
        if self.number:
            raise Stopped(f"ended by {signal.Signals(self.number).name}", 128 + self.number)

    @contextlib.contextmanager
    def held(self) -> Iterator[None]:
        """Lets no signal come in between: what is done here asks `end` where it can stop."""
        self.is_held = True
        try:
            yield
        finally:
            self.is_held = False


def leave(number: int, _: Optional[FrameType]) -> None:
    for each in SIGNALS:
        signal.signal(each, signal.SIG_IGN)
    raise SystemExit(128 + number)


def catch_signals() -> None:
    """Lets a signal end this process as an exception does, so that what isn't complete is removed."""
    for number in SIGNALS:
        signal.signal(number, leave)


@contextlib.contextmanager
def blocked() -> Iterator[None]:
    """Lets signals wait: a process that is made here gets none before it is prepared."""
    signal.pthread_sigmask(signal.SIG_BLOCK, SIGNALS)
    try:
        yield
    finally:
        signal.pthread_sigmask(signal.SIG_UNBLOCK, SIGNALS)


def prepare_worker() -> None:
    """A worker ends at SIGTERM alone. A key on the terminal is for the process that started it."""
    signal.signal(signal.SIGTERM, leave)
    signal.signal(signal.SIGHUP, signal.SIG_IGN)
    signal.signal(signal.SIGINT, signal.SIG_IGN)
    signal.pthread_sigmask(signal.SIG_UNBLOCK, SIGNALS)
