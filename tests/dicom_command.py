"""Checks of the command line itself: --version, and Ctrl-C while the commands are still imported."""
from __future__ import annotations

import os
import signal
import subprocess
import sys
from collections.abc import Iterator

from dicom_files import HERE, PROGRAMS

Check = tuple[str, bool]

COMMANDS = ("jls-archive", "jls-dicom", "jls-view")
# Python runs it before a script: the first import of jls_tools gets the signal
INTERRUPTED = """
import importlib.abc, os, signal, sys
class Finder(importlib.abc.MetaPathFinder):
    def find_spec(self, name, *_):
        if name == "jls_tools":
            os.kill(os.getpid(), signal.SIGINT)
sys.meta_path.insert(0, Finder())
"""


def interruptible() -> None:
    """A process that is begun so ends by SIGINT, whatever the one before it does."""
    signal.signal(signal.SIGINT, signal.SIG_DFL)


def called(command: str, *words: str, path: str = "") -> subprocess.CompletedProcess[str]:
    environment = {**PROGRAMS, "PYTHONPATH": path} if path else PROGRAMS
    words = (sys.executable, os.path.join(HERE, "commands", command), *words)
    return subprocess.run(words, capture_output=True, text=True, env=environment, preexec_fn=interruptible)


def checks_of_command_line(folder: str) -> Iterator[Check]:
    """Each command has --version, and Ctrl-C ends it without a traceback from its first import on."""
    told = subprocess.run([PROGRAMS["JLS_SALVAGE"], "--version"], capture_output=True, text=True, check=True).stdout
    for command in COMMANDS:
        done = called(command, "--version")
        yield f"{command} --version ({done.returncode}, {done.stdout}, {done.stderr})", (done.returncode, done.stdout) == (0, told)
    with open(os.path.join(folder, "sitecustomize.py"), "w", encoding="ascii") as file:
        file.write(INTERRUPTED)
    for command in COMMANDS:
        done = called(command, "--help", path=folder)
        is_quiet = (done.returncode, done.stdout, done.stderr) == (-signal.SIGINT, "", "")
        yield f"{command}: Ctrl-C while it is imported ({done.returncode}, {done.stderr})", is_quiet


COMMAND_LINE = [checks_of_command_line]
