"""Checks of tests/commands_archive on runs that end early, go on, or meet another run.

A program of our own stands for jls-splice. It says where it is, and sleeps, so that a run is at a known path when it is ended.
"""
from __future__ import annotations

import csv
import multiprocessing
import os
import signal
import subprocess
import sys
import time
import types
from typing import Any, Callable, Dict, Iterator, List, Tuple

import archive_cases as cases
from archive_cases import ARCHIVE, PROGRAMS, TOP, get, put

sys.path.insert(0, os.path.join(TOP, "commands"))

from jls_tools.archive import report as report_of_run
from jls_tools.archive.ledger import Ledger
from jls_tools.archive.main import Trees
from jls_tools.archive.places import MOST_ALONE, Places, Work
from jls_tools.archive.progress import Progress
from jls_tools.archive.rows import FIELDS, TITLES, Row, Store
from jls_tools.archive.trees import kind_of

Check = Tuple[str, bool]
PATIENCE = 60  # seconds after which what a check waits for doesn't come


def waited(is_there: Callable[[], bool]) -> bool:
    """Whether it comes to be so."""
    end = time.monotonic() + PATIENCE
    while not is_there():
        if time.monotonic() > end:
            return False
        time.sleep(0.02)
    return True


def rows_of(report: str) -> Dict[str, Dict[str, str]]:
    """The rows of the table in a folder, by their paths."""
    with open(f"{report}/pictures.csv", newline="", encoding="utf-8", errors="surrogateescape") as file:
        return {row["path"]: row for row in csv.DictReader(file)}


def sleeper(work: str) -> Dict[str, str]:
    """The variables for a jls-splice that writes its number to `work`/asleep, and sleeps."""
    text = f"#!/bin/sh\necho $$ > '{work}/asleep.new' && mv '{work}/asleep.new' '{work}/asleep'\nexec sleep 300\n"
    program = put(f"{work}/sleeper", text.encode())
    os.chmod(program, 0o755)
    return {**PROGRAMS, "JLS_SPLICE": program}


def is_alive(number: int) -> bool:
    """Whether a process runs: one that waits for its end to be noticed doesn't."""
    try:
        return get(f"/proc/{number}/stat").rpartition(b")")[2].split()[0] not in (b"Z", b"X")
    except FileNotFoundError:
        return False


def trees_for(work: str) -> List[str]:
    """Two trees: ten equal notes, and a picture behind them that differs."""
    for tree in "ab":
        for number in range(10):
            put(f"{work}/{tree}/note {number}", b"a note")
        put(f"{work}/{tree}/z.jls", b"\xff\xd8 " + tree.encode())
    return [f"{work}/a", f"{work}/b"]


def heeds_interrupts() -> None:
    """A process that is begun so ends by SIGINT, whatever the one before it does."""
    signal.signal(signal.SIGINT, signal.SIG_DFL)


def begun(work: str, words: List[str], **more: Any) -> subprocess.Popen[str]:
    """A run that has come to the picture, in whose program it sleeps, and has done all notes."""
    for name in ("asleep", "asleep.new"):
        if os.path.exists(f"{work}/{name}"):
            os.remove(f"{work}/{name}")
    pipes: Dict[str, Any] = {"stdout": subprocess.PIPE, "stderr": subprocess.PIPE, "text": True, **more}
    run: subprocess.Popen[str] = subprocess.Popen([ARCHIVE, *words], env=sleeper(work), **pipes)
    waited(lambda: os.path.exists(f"{work}/asleep"))
    return run


def asleep(work: str) -> int:
    """The number of the process that sleeps."""
    return int(get(f"{work}/asleep"))


def left_over(report: str) -> List[str]:
    return [name for name in os.listdir(report) if name.startswith((".work", ".part"))]


def checks_of_signals(work: str) -> Iterator[Check]:
    """A run that a signal ends has a table and a page of what was done, and says how it goes on."""
    work = f"{work}/signals"
    trees = trees_for(work)
    for number, status in ((signal.SIGINT, 130), (signal.SIGTERM, 143)):
        name, out = number.name, f"{work}/{number.name}"
        # who calls the tests may ignore SIGINT, as a shell does for what it runs in the background
        run = begun(work, ["--jobs", "1", out, *trees], start_new_session=True, preexec_fn=heeds_interrupts)
        os.killpg(run.pid, number) if number == signal.SIGINT else run.send_signal(number)
        time.sleep(0.05)
        if run.poll() is None:
            run.send_signal(number)
        printed, faults = run.communicate()
        yield f"{name}: the status is {status}", run.returncode == status
        yield f"{name}: a line says how it goes on", faults == f"jls-archive: ended by {name}; the same call goes on from here\n"
        rows = rows_of(f"{out}.report") if os.path.exists(f"{out}.report/pictures.csv") else {}
        yield f"{name}: the table has what was done", sorted(rows) == [f"note {number}" for number in range(10)] and printed == ""
        yield f"{name}: so has the page", os.path.exists(f"{out}.report/report.html")
        yield f"{name}: the program is ended, and nothing of the work stays", not is_alive(asleep(work)) and not left_over(f"{out}.report")
    kept = begun(work, ["--quiet", "--jobs", "1", f"{work}/kept", *trees], preexec_fn=lambda: signal.signal(signal.SIGHUP, signal.SIG_IGN))
    kept.send_signal(signal.SIGHUP)
    time.sleep(0.3)
    yield "a signal that is ignored, as under nohup, ends nothing", kept.poll() is None
    kept.terminate()
    kept.communicate()


def report_of(out: str) -> Tuple[int, str, str]:
    done = subprocess.run([ARCHIVE, "--report", out], capture_output=True, text=True, env={**PROGRAMS, "JLS_SALVAGE": "/nowhere"})
    return done.returncode, done.stdout, done.stderr


def checks_of_report(work: str) -> Iterator[Check]:
    """The table and the page of a run that goes on, and of one that was killed."""
    work = f"{work}/report"
    out, trees = f"{work}/out", trees_for(work)
    run = begun(work, ["--quiet", "--jobs", "1", out, *trees])
    waited(lambda: report_of(out)[1].startswith("10 paths"))
    status, printed, faults = report_of(out)
    is_told = printed.startswith("10 paths, 0 of them pictures; 10 whole, 0 not\n") and printed.endswith(f"see {out}.report/report.html\n")
    yield "report: of a run that goes on it tells what is done", (status, is_told, faults) == (0, True, "")
    yield "report: the table and the page are there", len(rows_of(f"{out}.report")) == 10 and os.path.exists(f"{out}.report/report.html")
    yield "report: the run goes on", run.poll() is None
    os.kill(run.pid, signal.SIGKILL)
    run.communicate()
    os.remove(f"{out}.report/pictures.csv")
    put(f"{work}/folders/-one/copy.jls", b"nothing")
    subprocess.run([ARCHIVE, "--quiet", "--folders", f"{work}/folders", f"{work}/taken"], env=PROGRAMS)
    for path in (out + "/", f"{work}/taken"):
        status, _, faults = report_of(path)
        report = f"{work}/taken" if path.endswith("taken") else f"{out}.report"
        wanted = 1 if path.endswith("taken") else 0
        yield f"report: of {os.path.basename(report)} when it ended", (status, faults, bool(rows_of(report))) == (wanted, "", True)
    for word, reason in ((trees[0], "no run of jls-archive made"), (f"{work}/nowhere", "no run of jls-archive made")):
        status, printed, faults = report_of(word)
        yield f"report: {os.path.basename(word)} is refused", (status, printed, reason in faults) == (2, "", True)


def summary_of(work: str) -> List[str]:
    """The lines that a run prints."""
    done = subprocess.run([ARCHIVE, f"{work}/out", f"{work}/a", f"{work}/b"], env=PROGRAMS, capture_output=True, text=True)
    return done.stdout.splitlines()


def checks_of_summary(work: str) -> Iterator[Check]:
    """What a run prints at its end: one path is one, and what lost no line isn't among those that lost most."""
    work = f"{work}/summary"
    for tree in "ab":
        put(f"{work}/{tree}/note", b"a note")
    yield "summary: one path is one", summary_of(work)[0] == "1 path, 0 of them pictures; 1 whole, 0 not"
    put(f"{work}/b/note", b"another note")
    os.symlink("/nowhere", f"{work}/a/link")
    os.mkfifo(f"{work}/a/pipe")
    printed = summary_of(work)
    is_told = printed[0] == "3 paths, 0 of them pictures; 0 whole, 3 not"
    yield "summary: notes, links and pipes lost no line", is_told and "most lost:" not in printed
    (true,) = cases.files_of(work, [cases.rows_of(cases.random_of(5))])
    for tree, copy in zip("ab", cases.lost(cases.random_of(5), true).copies):
        put(f"{work}/{tree}/lost.jls", copy or b"")
        put(f"{work}/{tree}/none.jls", b"\xff\xd8 " + tree.encode())
    printed = summary_of(work)
    named = [line.split()[-1] for line in printed[printed.index("most lost:") + 1 : -1]]
    yield f"summary: pictures that lost lines are named {named}", sorted(named) == ["lost.jls", "none.jls"]


def checks_of_seconds(work: str) -> Iterator[Check]:
    """A limit of time for a path is a result: its copies stand aside or are copied through, and the run goes on."""
    work = f"{work}/seconds"
    out, trees = f"{work}/out", trees_for(work)
    for tree in trees:
        put(f"{tree}/y.jls", b"\xff\xd8 equal")
    asleep_in = sleeper(work)
    words = [ARCHIVE, "--quiet", "--jobs", "2", "--seconds", "1", out, *trees]
    slow = {**asleep_in, "JLS_SALVAGE": asleep_in["JLS_SPLICE"]}
    for name, variables in (("first", slow), ("again", {**PROGRAMS, "JLS_SPLICE": "/nowhere"})):
        done = subprocess.run(words, env=variables, capture_output=True, text=True, timeout=PATIENCE)
        rows = rows_of(f"{out}.report")
        yield f"seconds, {name}: the run comes to its end", (done.returncode, done.stderr, len(rows)) == (1, "", 12)
        said = {(rows[path]["result"], rows[path]["status"], rows[path]["note"]) for path in ("y.jls", "z.jls") if path in rows}
        yield f"seconds, {name}: the rows say that it took too long", said == {("took too long", "1", "its work was ended after 1 s")}
        yield f"seconds, {name}: equal copies are copied", get(f"{out}/y.jls") == b"\xff\xd8 equal"
        aside = [get(f"{out}.differ/{tree}/z.jls") for tree in "ab"] == [b"\xff\xd8 a", b"\xff\xd8 b"]
        yield f"seconds, {name}: those that differ stand aside", aside and not os.path.exists(f"{out}/z.jls")
        yield f"seconds, {name}: the program is ended, and nothing stays", not is_alive(asleep(work)) and not left_over(f"{out}.report")
    subprocess.run([*words[:-4], "600", out, *trees], env=PROGRAMS, timeout=PATIENCE)
    rows = rows_of(f"{out}.report")
    yield "seconds: with more of them it is done anew", {rows[path]["result"] for path in ("y.jls", "z.jls")} == {"does not read"}
    put(f"{work}/folders/one/a.jls", b"\xff\xd8 a")
    words = [ARCHIVE, "--quiet", "--folders", "--seconds", "1", f"{work}/folders", f"{work}/taken"]
    done = subprocess.run(words, env=slow, capture_output=True, text=True, timeout=PATIENCE)
    rows = rows_of(f"{work}/taken")
    yield "seconds: so it is with a folder", (done.returncode, done.stderr, rows["one"]["result"]) == (1, "", "took too long")


def files_of_rows(out: str) -> Dict[str, bytes]:
    folder = f"{out}.report/rows"
    return {name: get(f"{folder}/{name}") for name in sorted(os.listdir(folder))}


def order_of(store: Callable[[], None]) -> List[str]:
    """What is done to the disk, in order: the names of files that are waited for, and a word for each write."""
    order: List[str] = []
    write, wait = os.write, os.fsync

    def noted_write(handle: int, data: Any) -> int:
        order.append("write")
        return write(handle, data)

    def noted_wait(handle: int) -> None:
        order.append(os.path.basename(os.readlink(f"/proc/self/fd/{handle}")))
        wait(handle)

    os.write, os.fsync = noted_write, noted_wait  # type: ignore[assignment]
    try:
        store()
    finally:
        os.write, os.fsync = write, wait
    return order


def checks_of_rows(work: str) -> Iterator[Check]:
    """Rows are lines of one file for each part. A line without its end goes, and so do the files of rows of version 1.1.0."""
    work = f"{work}/rows"
    out, trees = f"{work}/out", trees_for(work)
    words = [ARCHIVE, "--quiet", out, *trees]
    done = [subprocess.run(words, env=PROGRAMS).returncode]
    before, table = files_of_rows(out), get(f"{out}.report/pictures.csv")
    yield "rows: one file has a line for each path", [len(data.splitlines()) for data in before.values()] == [11]
    with open(f"{out}.report/rows/{next(iter(before))}", "ab") as file:
        file.write(b'[9, "note 3", {"path": "note 3", "res')
    os.remove(f"{out}.report/pictures.csv")
    yield "rows: a line without its end is no row for --report", report_of(out)[0] == 1 and get(f"{out}.report/pictures.csv") == table
    done.append(subprocess.run(words, env={**PROGRAMS, "JLS_SPLICE": "/nowhere"}).returncode)
    yield "rows: the next run takes it away, and does nothing anew", (done, files_of_rows(out)) == ([1, 1], before)
    rows, old = Ledger(f"{out}.report/rows"), Store(f"{work}/old")
    for row in filter(None, (known.row() for known in rows.rows(work))):
        old.save(row)
    for name in before:
        os.remove(f"{out}.report/rows/{name}")
    os.rmdir(f"{out}.report/rows")
    os.rename(f"{work}/old", f"{out}.report/rows")
    yield "rows: --report reads those of version 1.1.0", report_of(out)[0] == 1 and get(f"{out}.report/pictures.csv") == table
    done.append(subprocess.run(words, env={**PROGRAMS, "JLS_SPLICE": "/nowhere"}).returncode)
    kept = [len(data.splitlines()) for data in files_of_rows(out).values()]
    yield "rows: the next run takes them over", (done[2], kept, get(f"{out}.report/pictures.csv")) == (1, [11], table)
    for index in (2, 1):
        done.append(subprocess.run([ARCHIVE, "--quiet", "--part", f"{index}/2", f"{work}/parts", *trees], env=PROGRAMS).returncode)
    yield "rows: parts have a file each", (sorted(done[3:]), len(files_of_rows(f"{work}/parts"))) == ([0, 1], 2)
    put(f"{trees[0]}/note 1", b"another note")
    done.append(subprocess.run([ARCHIVE, "--quiet", f"{work}/parts", *trees], env=PROGRAMS).returncode)
    done.append(subprocess.run([ARCHIVE, "--quiet", "--part", "1/2", f"{work}/parts", *trees], env=PROGRAMS).returncode)
    said = {path: row["result"] for path, row in rows_of(f"{work}/parts.report").items()}
    yield "rows: of the files of several parts the latest line counts", (said["note 1"], len(said)) == ("differs", 11)


def checks_of_table(work: str) -> Iterator[Check]:
    """pictures.csv, whose rows of one kind are copied, is what a writer of CSV writes of each row. Spoilt lines count for nothing."""
    places, ledger = Places(f"{work}/table"), Ledger(f"{work}/table.report/rows")
    ledger.begin((1, 1))
    put(f"{work}/table.report/.run.json", b"")
    names = ["plain", "a,b", 'a "b"', "new\nline", "\u00e4", "\udcff", "back\\slash", " blank ", "'", "a]]}]", "tab\t", "=1", "a/b", "a-b"]
    of_all: Dict[str, Any] = {"kind": "jls", "copies": 2, "settled": 16, "missing": 0, "shape": "4x4, 8 bits", "inputs": "0" * 32}
    whole = [Row(name, result="reads", outputs=[["out", name]], **of_all) for name in names]
    lost = [Row(f"{name} lost", "jls", 2, 1, 9, 7, 0, status=1, result="lines missing", inputs="0" * 32, patient="]]}]") for name in names]
    mended = [Row(f"{name} mended", "dicom", 2, result="mended", decided=2, inputs="0" * 32, outputs=[["out", name]]) for name in names]
    ledger.append([*whole, *lost, *mended])
    ledger.append([Row("spoilt", result="before", inputs="0" * 32)])
    with open(ledger.file, "ab") as file:
        file.write(b'[1, "spoilt", {"kind": "jls", "result"\n[1, "plain\n[[[\n\xff\xfe\n')
    ledger.append([Row("gone", result="copied")])
    ledger.remove("gone")
    totals = report_of_run.write(places, ledger)
    every = sorted([*whole, *lost, *mended, Row("spoilt", result="before")], key=lambda row: os.fsencode(row.path))
    with open(f"{work}/wanted", "w", newline="", encoding="utf-8", errors="surrogateescape") as text:
        writer = csv.writer(text, lineterminator="\n")
        writer.writerow(TITLES)
        writer.writerows([getattr(row, name) for name in FIELDS] for row in every)
    yield "table: as a writer of CSV writes it", get(f"{work}/table.report/pictures.csv") == get(f"{work}/wanted")
    counts = totals.paths, totals.pictures, totals.not_whole, totals.lines["settled"], totals.lines["missing"]
    yield f"table: all are counted {counts}", counts == (43, 42, 14, 14 * 25, 14 * 7)


def checks_of_batches(work: str) -> Iterator[Check]:
    """Rows are written when the files that they name are on the disk, and wait for the disk together."""
    places, ledger = Places(f"{work}/batch"), Ledger(f"{work}/batch.report/rows")
    ledger.begin((1, 1))
    names = [f"file {number}" for number in range(5)]
    rows = [Row(name, outputs=[["out", name]]) for name in [*names, "gone"]]
    for name in names:
        put(f"{work}/batch/{name}", b"text")

    job: Any = types.SimpleNamespace(places=places, store=ledger)
    order = order_of(lambda: Trees.keep(job, rows))
    yield "batches: all files, then all rows", order == [*names, "write", "1-of-1.rows"]
    again = Ledger(f"{work}/batch.report/rows")
    yield "batches: the rows are there", [known.name for known in again.rows(work)] == sorted([*names, "gone"])
    few, many = 3, MOST_ALONE + 1
    for number in range(few + many):
        put(f"{work}/batch/{'few' if number < few else 'many'}/{number}", b"text")
    order = order_of(lambda: Trees.keep(job, [Row("frames", outputs=[["out", "few"], ["out", "many"]])]))
    alone = [name for name in order if name.isdigit()]
    is_once = len(alone) in (few, few + many)  # the latter without syncfs
    yield "batches: a folder of many files waits for the disk once", is_once and order[-2:] == ["write", "1-of-1.rows"]


def together(calls: List[List[str]]) -> List[Tuple[int, str]]:
    """(status, fault lines) of calls that are made at once."""
    runs = [subprocess.Popen(words, env=PROGRAMS, stderr=subprocess.PIPE, text=True) for words in calls]
    return [(run.returncode, faults) for run, (_, faults) in [(run, run.communicate()) for run in runs]]


def checks_of_locks(work: str) -> Iterator[Check]:
    """Of two runs into one OUT that have paths in common the second is refused, and others are not. A run that was killed refuses none."""
    work = f"{work}/locks"
    out, trees = f"{work}/out", trees_for(work)

    def words(*part: str) -> List[str]:
        return [ARCHIVE, "--quiet", *(["--part", *part] if part else []), out, *trees]

    cases: List[Tuple[List[str], List[List[str]], List[List[str]]]] = [
        ([], [[], ["1/2"]], []),
        (["1/2"], [[], ["1/2"], ["3/4"], ["2/3"]], [["2/2"], ["2/4"]]),
    ]
    for part, refused, taken in cases:
        run = begun(work, words(*part)[1:])
        waited(lambda: sum(map(len, files_of_rows(out).values())) > 0)
        before = files_of_rows(out)
        name = "".join(part) or "all"
        for of, (status, faults) in zip(refused, together([words(*of) for of in refused])):
            said = f"jls-archive: a run works there already: process {run.pid} on "
            yield f"locks: beside {name}, {of} is refused", status == 4 and faults.startswith(said) and faults.count("\n") == 1
        yield f"locks: beside {name}, what is refused changes no row", files_of_rows(out) == before and run.poll() is None
        for of in taken:
            ((status, faults),) = together([words(*of)])
            yield f"locks: beside {name}, {of} is done", (status, faults) == (0, "")
        os.kill(run.pid, signal.SIGKILL)
        (ended,) = together([words()])
        yield f"locks: {name} that was killed refuses none", ended == (1, "")
        yield f"locks: {name} that was killed leaves nothing", not left_over(f"{out}.report") and not is_alive(asleep(work))
        run.communicate()
        subprocess.run(["rm", "-r", out, f"{out}.differ", f"{out}.partial", f"{out}.report"])


def work_often(report: str, part: int) -> bool:
    """Whether the folder of a part can be made and removed a hundred times."""
    for _ in range(100):
        try:
            Work(Places(f"{report}/out", report), (part, 4)).remove()
        except OSError:
            return False
    return True


def checks_of_job_arrays(work: str) -> Iterator[Check]:
    """Parts that run beside one another, and are killed at any time. The same calls again come to the files and rows of one run."""
    work = f"{work}/array"
    rng = cases.random_of(29)
    trees = [f"{work}/a", f"{work}/b"]
    cases.write_trees(cases.cases(rng, 24, work), trees)
    subprocess.run([ARCHIVE, "--quiet", f"{work}/whole", *trees], env=PROGRAMS)
    words = [[ARCHIVE, "--quiet", "--jobs", "1", "--part", f"{index}/4", f"{work}/out", *trees] for index in range(1, 5)]
    for _ in range(3):
        runs = [subprocess.Popen(each, env=PROGRAMS, start_new_session=True) for each in words]
        for run in rng.sample(runs, 3):
            time.sleep(rng.uniform(0.05, 0.4))
            os.killpg(run.pid, signal.SIGKILL)
        for run in runs:
            run.wait()
    ended = together(words)
    yield f"job array: each part comes to its end {ended}", all(status in (0, 1) and not faults for status, faults in ended)
    yield "job array: the same files and rows as of one run", cases.results_of(f"{work}/out") == cases.results_of(f"{work}/whole")
    yield "job array: a file of rows for each part", len(files_of_rows(f"{work}/out")) == 4
    yield "job array: nothing of the work stays", not left_over(f"{work}/out.report")
    with multiprocessing.get_context("fork").Pool(4) as pool:
        done = pool.starmap(work_often, [(f"{work}/out.report", part) for part in range(1, 5)])
    yield "job array: parts that begin while others end", all(done)


def checks_of_changes(work: str) -> Iterator[Check]:
    """A tree that changes while it is read: a row says so, and the run goes on."""
    work = f"{work}/changes"
    trees = trees_for(work)
    for tree in trees:
        put(f"{tree}/zz", b"the last")
    program = put(f"{work}/taker", f"#!/bin/sh\nrm -f '{trees[1]}/z.jls' '{trees[1]}/zz'\nexit 4\n".encode())
    os.chmod(program, 0o755)
    words = [ARCHIVE, "--quiet", "--jobs", "1", f"{work}/out", *trees]
    done = subprocess.run(words, env={**PROGRAMS, "JLS_SPLICE": program}, capture_output=True, text=True)
    rows = rows_of(f"{work}/out.report")
    yield "changes: the run comes to its end", (done.returncode, done.stderr, len(rows)) == (1, "", 12)
    for path in ("z.jls", "zz"):
        row = rows.get(path, {})
        is_said = row.get("status") == "4" and "b cannot be read: No such file or directory" in row.get("note", "")
        yield f"changes: the row of {path} says that a copy went away", is_said
    yield "changes: nothing stands aside of a path that can't be read", not os.path.exists(f"{work}/out.differ/a/z.jls")
    put(f"{work}/taker", f"#!/bin/sh\nrm -r '{work}/folders/one'\nexit 4\n".encode())
    put(f"{work}/folders/one/copy.jls", b"\xff\xd8 one")
    words = [ARCHIVE, "--quiet", "--jobs", "1", "--folders", f"{work}/folders", f"{work}/taken"]
    done = subprocess.run(words, env={**PROGRAMS, "JLS_SALVAGE": program}, capture_output=True, text=True)
    said = {row["result"] for row in rows_of(f"{work}/taken").values()} if done.returncode == 1 else set()
    yield "changes: so it is with a folder", said == {"cannot be read"} and done.stderr == ""
    entries = list(os.scandir(trees[0]))
    subprocess.run(["rm", "-r", trees[0]])
    yield "changes: nor is the rest of a folder lost", {kind_of(entry) for entry in entries} == {"file"}


class Ended:
    def __init__(self, status: int) -> None:
        self.status = status


def checks_of_progress(work: str) -> Iterator[Check]:
    """Time left counts what this run did: 900 rows of an earlier one, passed over in 2 seconds, say nothing of the 100 that remain."""
    now = [0.0]
    progress = Progress(True, 1000, lambda: now[0])
    yield "progress: no time is told before a path was done", progress.text() == "0 of 1000, 0 not whole"
    for _ in range(900):
        now[0] += 2 / 900
        progress.pass_over(Ended(0))
    yield "progress: nor from rows of an earlier run", progress.text() == "900 of 1000, 0 not whole"
    for _ in range(10):
        now[0] += 60
        progress.step(Ended(1))
    yield "progress: ten in ten minutes, so ninety minutes are left", progress.text() == "910 of 1000, 10 not whole, about 1:30:00 left"


OF_RUNS = (checks_of_signals, checks_of_report, checks_of_seconds, checks_of_locks, checks_of_job_arrays, checks_of_changes)
CHECKS = (*OF_RUNS, checks_of_summary, checks_of_rows, checks_of_table, checks_of_batches, checks_of_progress)
