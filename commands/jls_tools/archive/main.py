"""jls-archive: from the words to the exit status."""
from __future__ import annotations

import contextlib
import io
import itertools
import os
import shutil
import subprocess
import sys
import time
from typing import Any, Iterable, Iterator, List, Optional, Tuple

from jls_tools.archive import claim, folders, ledger, plan, report, trees
from jls_tools.archive.desk import Desk
from jls_tools.archive.item import count_readable, inputs_of, settle
from jls_tools.archive.ledger import Known, Ledger
from jls_tools.archive.places import Places, Refused, Work
from jls_tools.archive.progress import Progress
from jls_tools.archive.rows import Row
from jls_tools.archive.run import Run
from jls_tools.archive.sums import BadManifest, Sums
from jls_tools.archive.totals import Totals
from jls_tools.archive.trees import Item
from jls_tools.archive.words import read
from jls_tools.file_names import printable
from jls_tools.programs import ProgramFailed, Programs
from jls_tools.signals import Stopped, Watch

MOST_AT_ONCE = 64  # rows that wait for the disk together
LONGEST = 1.0  # seconds that a row waits for others


def say(text: object) -> None:
    print(f"jls-archive: {text}", file=sys.stderr)


class Trees:
    """The work on trees: its items, and what is done to one."""

    def __init__(self, options: Any, programs: Programs) -> None:
        self.options = options
        self.out = os.path.realpath(options.out)
        self.trees = [claim.backup_named(tree) for tree in options.trees]
        claim.check_places(self.out, self.trees)
        self.places = Places(self.out)
        claim.claim(self.places, "trees")
        self.store = Ledger(os.path.join(self.places.report, "rows"))
        self.desk = Desk(self.trees, self.places, programs, options)

    def begin(self, folder: str) -> Iterator[Tuple[Item, Optional[Row]]]:
        """Opens the rows of this part, and answers its paths, each with its row if it has one. `folder` has room for what is sorted."""
        self.store.begin(self.options.part)
        sums = self.desk.sums
        listed: Iterator[Any] = iter(())
        if sums.files:
            if not sums.fit(self.is_there):
                raise Refused(f"no name in {', '.join(map(printable, self.options.sums))} is a path of the trees")
            listed = listed_by(sums, folder)
        rows = self.store.rows(folder)
        first = list(itertools.islice(rows, 1))  # they are sorted now, while a signal ends the run at once
        tasks = plan.tasks(trees.walk(self.trees), listed, itertools.chain(first, rows))
        index, parts = self.options.part
        return itertools.islice(self.items_of(tasks), index - 1, None, parts)

    def is_there(self, name: str) -> bool:
        """Whether a tree has something of this path that is no folder."""
        return any(trees.is_no_folder(os.path.join(tree, name)) for tree in self.trees)

    def items_of(self, tasks: Iterable[plan.Task]) -> Iterator[Tuple[Item, Optional[Row]]]:
        """The items of all parts. Folders without files are made, and rows of paths that are gone are taken away."""
        for item, known in tasks:
            if item and item.is_empty_folder:
                os.makedirs(self.places.path("out", item.path), exist_ok=True)
            elif item:
                yield item, known.row() if known else None
            elif known and self.options.part == (1, 1):
                self.prune(known)

    def prune(self, known: Known) -> None:
        """Takes the row away of a path that no tree and no sum has any more."""
        row = known.row()
        for output in row.outputs if row else []:
            self.places.drop(output)
        self.store.remove(known.name)

    def count(self) -> int:
        """How many paths there are, for the time that is left."""
        index: int
        parts: int
        index, parts = self.options.part
        every = sum(not item.is_empty_folder for item in trees.walk(self.trees))
        return -(-(every - index + 1) // parts)

    def is_done(self, item: Item, row: Optional[Row]) -> bool:
        """Whether an item needs no work: its copies were read, nothing has changed since, and what was written is there."""
        return row is not None and not row.is_unread and self.desk.is_of(row, inputs_of(self.desk, item))

    def forget(self, item: Item, row: Optional[Row]) -> None:
        """Takes the row of an item away that is about to be done anew."""
        if row:
            item.before = row
            self.store.remove(ledger.name_of(row))

    def do(self, item: Item, folder: str, is_late: bool) -> Row:
        """Settles an item in a worker. What was written of it goes, unless it is all that can be had."""
        self.desk.begin(folder, is_late, item.expected)
        before = item.before
        if before and self.stays(item, before):
            return before
        for output in before.outputs if before else []:
            self.places.drop(output)
        return settle(self.desk, item)

    def stays(self, item: Item, row: Row) -> bool:
        """Whether a row stays that some copies alone were read for: nothing has changed since, and no more of them can be read now."""
        is_partly = row.is_unread and bool(row.outputs)
        return is_partly and self.desk.is_of(row, inputs_of(self.desk, item)) and count_readable(self.desk, item) <= row.copies

    def undo(self) -> None:
        self.places.undo()

    def keep(self, rows: List[Row]) -> None:
        """Keeps rows of items when all their files are on the disk."""
        self.places.store([output for row in rows for output in row.outputs])
        self.store.append(rows)


def listed_by(sums: Sums, folder: str) -> Iterator[Any]:
    try:
        return sums.listed(folder)
    except BadManifest as fault:
        raise Refused(str(fault)) from fault


class Batch:
    """Rows that are kept together, since to wait for the disk takes as long for many as for one."""

    def __init__(self, job: Any) -> None:
        self.job = job
        self.rows: List[Row] = []
        self.begun = 0.0

    def add(self, row: Row) -> None:
        if not self.rows:
            self.begun = time.monotonic()
        self.rows.append(row)

    def is_due(self) -> bool:
        return len(self.rows) >= MOST_AT_ONCE or bool(self.rows) and time.monotonic() - self.begun > LONGEST

    def keep(self) -> None:
        if self.rows:
            self.job.keep(self.rows)
            self.rows = []


def pending(job: Any, items: Iterable[Tuple[Any, Optional[Row]]], progress: Progress, watch: Watch) -> Iterator[Any]:
    """The items that need work. Those that an earlier run has done are counted."""
    for item, row in items:
        watch.end()
        if row and job.is_done(item, row):
            progress.pass_over(row)
        else:
            job.forget(item, row)
            yield item


def go_through(job: Any, options: Any, watch: Watch) -> bool:
    """Does the work of this call, and answers whether all is whole."""
    work = Work(job.places, options.part)
    try:
        items = job.begin(work.folder)
        progress = Progress(options.quiet)
        if progress.is_on:
            progress.total = int(job.count())
        with watch.held():
            do_all(job, Run(job, work.folder, options, watch), pending(job, items, progress, watch), progress)
    finally:
        work.remove()
    return not progress.not_whole


def do_all(job: Any, run: Run, waiting: Iterator[Any], progress: Progress) -> None:
    """Does the items that wait, and keeps their rows; also of those that were done when the run ended early."""
    batch = Batch(job)
    try:
        done = run.go(waiting)
        with contextlib.closing(done):
            for row in done:
                if row:
                    batch.add(row)
                    progress.step(row)
                if batch.is_due():
                    batch.keep()
    finally:
        progress.end()
        batch.keep()


def share(options: Any) -> None:
    """Lets GNU parallel give parts of the work to other machines; each makes its part by a call of its own."""
    tool = shutil.which("parallel")
    if not tool:
        raise Refused("--ssh wants GNU parallel, and there is none", 127)
    parts = 16 * len(options.ssh.split(","))
    command = [os.path.realpath(sys.argv[0]), "--shared", "--jobs", "1", "--tries", str(options.tries)]
    command += ["--seconds", str(options.seconds), "--part", f"{{}}/{parts}"]
    command += ["--folders"] if options.folders else []
    command += ["--no-names"] if options.no_names else []
    for tree, place in options.bad:
        command += ["--bad", f"{tree}:{os.path.realpath(place)}"]
    for file in options.sums:
        command += ["--sums", os.path.realpath(file)]
    places = [os.path.realpath(word) for word in options.words]
    words = [tool, "--will-cite", "--quote", "--sshlogin", options.ssh, "--halt", "now,fail=1"]
    words += ["--env", "JLS_SALVAGE", "--env", "JLS_SPLICE", "--env", "JLS_SALVAGE_LIBRARY"]
    bar = ["--bar"] if sys.stderr.isatty() and not options.quiet else []
    numbers = "".join(f"{number}\n" for number in range(1, parts + 1))
    done = subprocess.run([*words, *bar, *command, "--", *places], input=numbers, text=True)
    if done.returncode:
        raise Stopped("the work was stopped on a machine", done.returncode)


def work_and_report(job: Any, options: Any, watch: Watch) -> Tuple[bool, Optional[Totals]]:
    """(whether all is whole, what all rows come to). The table and the page are written too where the work ends early."""
    try:
        if options.ssh:
            share(options)
            totals = report.write(job.places, job.store)
            return not totals.not_whole, totals
        is_whole = go_through(job, options, watch)
        watch.end()
        return is_whole, None if options.shared else report.write(job.places, job.store)
    except (Stopped, ProgramFailed, OSError):
        if not options.shared:
            with contextlib.suppress(OSError):
                report.write(job.places, job.store)
        raise


def run(options: Any, watch: Watch) -> int:
    if options.report:
        return report.anew(options)
    programs = Programs()
    if options.version:
        print(programs.run([programs.salvage, "--version"]).printed, end="")
        return 0
    kind: Any = folders.Folders if options.folders else Trees
    job = kind(options, programs)
    is_whole, totals = work_and_report(job, options, watch)
    if options.shared:
        return 0
    if totals and not options.quiet:
        report.print_summary(totals, options.out, job.places)
    return 0 if is_whole else 1


def main() -> int:
    watch = Watch()
    watch.catch()
    if isinstance(sys.stdout, io.TextIOWrapper):
        sys.stdout.reconfigure(errors="backslashreplace")
    try:
        return run(read(sys.argv[1:]), watch)
    except Refused as fault:
        say(fault)
        return fault.status
    except (Stopped, ProgramFailed) as fault:
        say(f"{fault}; the same call goes on from here")
        return fault.status
    except OSError as fault:
        say(f"{printable(fault.filename or 'a file')}: {fault.strerror}")
        return 4
