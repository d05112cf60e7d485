"""Checks of tests/commands_archive on report.html: what it has, and in a browser without a window what it shows, if Chromium is there."""
from __future__ import annotations

import base64
import html
import itertools
import os
import re
import shutil
import subprocess
import sys
import tempfile
from typing import Dict, Iterator, List, Optional, Tuple

from archive_cases import PROGRAMS, TOP, VIEW, get, put

sys.path.insert(0, os.path.join(TOP, "commands"))

from jls_tools.archive.page import MOST_DRAWN, MOST_LOST, MOST_MENDED, Page
from jls_tools.archive.places import Places
from jls_tools.archive.rows import Row
from jls_tools.archive.totals import Totals

Check = Tuple[str, bool]
BROWSERS = ("chromium", "chromium-browser", "google-chrome")
THUMBNAIL = "iVBORw0KGgoAAAANSUhEUgAAAAEAAAABCAAAAAA6fptVAAAACklEQVR4nGNoAAAAggCBd81ytgAAAABJRU5ErkJggg=="  # a pixel
PATIENCE = 60


def row_of(path: str, result: str, status: int, missing: int, **more: object) -> Row:
    row = Row(path, "dicom", 2, 1, 100 - missing, missing, 0, status=status, result=result, outputs=[["out", path]])
    vars(row).update(more)
    return row


def rows() -> List[Row]:
    drawn = {"thumbnail": THUMBNAIL, "bad": "0" * 30 + "95" + "0" * 32}
    return [
        row_of("a/1.dcm", "mended", 0, 0, patient="Doe^Jane, 7", study="20200131 HEAD 1.2", decided=3, one_copy=1, versions=0),
        row_of("a/2.dcm", "lines missing", 1, 5, patient="Doe^Jane, 7", study="20200131 HEAD 1.2", **drawn),
        row_of("b/10.dcm", "lines missing", 1, 40, patient="Roe^Jack, 8", study="20210101 KNEE 1.3", note="</script><b>", **drawn),
        row_of("b/9.dcm", "does not read", 3, 100, patient="Roe^Jack, 8", study="20210101 KNEE 1.3"),
        row_of("b/whole.dcm", "reads", 0, 0),
        Row("not \udcff & <i>.txt", copies=2, status=1, result="differs", outputs=[["differ", "one/not \udcff & <i>.txt"]]),
    ]


def page_of(every: Iterator[Row], path: str) -> str:
    """Writes the page of rows."""
    page, totals = Page(Places(os.path.join(os.path.dirname(path), "out"))), Totals()
    for row in every:
        totals.add(row)
        page.add(row)
    return put(path, "".join(page.parts(totals)).encode("utf-8", "replace"))


def browser() -> Optional[str]:
    return next(filter(None, map(shutil.which, BROWSERS)), None)


def shown_by(program: str, address: str, *words: str) -> str:
    """What a page has come to when its script has run."""
    with tempfile.TemporaryDirectory() as folder:
        common = [program, "--headless", "--no-sandbox", "--disable-gpu", f"--user-data-dir={folder}", "--virtual-time-budget=5000"]
        done = subprocess.run([*common, *(words or ["--dump-dom"]), address], capture_output=True, text=True, timeout=PATIENCE)
    return done.stdout


def lines_of(text: str) -> List[str]:
    """The path of each row that is shown, and the text of each group."""
    parts = re.findall(r'<tr class="(?:row|group)">.*?</tr>', text, re.S)
    found = [re.search(r'<td (?:class="p"><div|colspan="\d+")>(.*?)<', part, re.S) for part in parts]
    return [html.unescape(each.group(1)) if each else "" for each in found]


def checks_of_parts(work: str) -> Iterator[Check]:
    """What the text of the page has."""
    every = (row_of(f"{number:06}.dcm", "lines missing", 1, number % 100, thumbnail=THUMBNAIL) for number in range(20000))
    text = get(page_of(every, f"{work}/many.report/report.html")).decode()
    yield "page: of 20,000 rows it has those that lost most", text.count('"lines missing"') - 1 == MOST_LOST and '"000099.dcm"' in text
    yield "page: it says that not all are there", f"{MOST_LOST:,} of 20,000 rows are in this page" in text
    yield "page: it has few small pictures", text.count(THUMBNAIL) == MOST_DRAWN
    every = (row_of(f"{number}.dcm", "mended", 0, 0) for number in range(MOST_MENDED + 1))
    yield "page: of mended ones it has some", get(page_of(every, f"{work}/m.report/report.html")).count(b'"mended",2') == MOST_MENDED
    text = get(page_of(iter(rows()), f"{work}/few.report/report.html")).decode()
    yield "page: what is whole is counted alone", "whole.dcm" not in text and ">reads</td>" in text
    yield "page: a note ends no script", text.count("</script>") == 2
    yield "page: nothing from outside", not re.search(r"https?:|src=\"(?!data:)|<link|@import|url\(", text)
    row = Row("one", "jls", 2, status=1, outputs=[["out", "one.jlsp"], ["partial", "one.log"]])
    links = Page(Places(f"{work}/taken", report=f"{work}/taken")).links_of(row)
    yield "page: links of a folder", [link[0] for link in links] == ["lines", "log"] and links[0][1] == "./one.jlsp"
    yield "page: a link to a name that is no UTF-8", '["copy of one","../out.differ/one/not%20%FF%20%26%20%3Ci%3E.txt"]' in text


def checks_of_browser(work: str) -> Iterator[Check]:
    """What Chromium shows."""
    program = browser()
    if not program:
        print("left out: report.html in a browser, as there is no chromium")
        return
    place = f"file://{work}/few.report/report.html"
    wanted: Dict[str, List[str]] = {
        "": ["b/9.dcm", "b/10.dcm", "a/2.dcm", "a/1.dcm", "not \\xff & <i>.txt"],
        "#sort=path": ["a/1.dcm", "a/2.dcm", "b/9.dcm", "b/10.dcm", "not \\xff & <i>.txt"],
        "#sort=-decided": ["a/1.dcm"],
        "#only=KNEE&sort=missing": ["b/10.dcm", "b/9.dcm"],
        "#group=patient&only=dcm": ["Doe^Jane, 7: 2 rows", "a/2.dcm", "a/1.dcm", "Roe^Jack, 8: 2 rows", "b/9.dcm", "b/10.dcm"],
        "#group=study&result=mended": ["Doe^Jane, 7 / 20200131 HEAD 1.2: 1 row", "a/1.dcm"],
    }
    texts = {chosen: shown_by(program, place + chosen) for chosen in wanted}
    for chosen, lines in wanted.items():
        told = lines_of(texts[chosen])
        is_all = "sort=-" in chosen or len(told) == len(lines)
        yield f"browser: {chosen or 'as it is opened'}: {told}", told[: len(lines)] == lines and is_all
    text = texts[""]
    yield "browser: a small picture and a bar of bytes where there are some", (text.count("<img"), text.count('class="bar"')) == (2, 2)
    yield "browser: what is no share of loss is blank", not re.search("<td[^>]*><div>(NaN|null|undefined)", text)
    long = (row_of(f"{number:06}.dcm", "lines missing", 1, number % 100) for number in range(10000))
    text = shown_by(program, f"file://{page_of(long, f'{work}/long.report/report.html')}")
    yield "browser: 10,000 rows, of which some are shown", (len(lines_of(text)), f"1 to 200 of {MOST_LOST}" in text) == (200, True)


def clicks(page: str, *steps: str) -> str:
    """A page on which a person has done these steps, of script, when it was opened."""
    text = get(page).decode()
    return put(f"{page}.html", text.replace("</body>", f"<script>{'; '.join(steps)}</script></body>").encode())


def click(what: str) -> str:
    return f"document.querySelector('{what}').click()"


def turned_to(what: str, value: str, event: str) -> str:
    return f"const each = document.querySelector('{what}'); each.value = '{value}'; each.dispatchEvent(new Event('{event}'))"


def checks_of_hands(work: str) -> Iterator[Check]:
    """What Chromium shows after clicks, choices and typing."""
    program = browser()
    if not program:
        return
    every = ["b/9.dcm", "b/10.dcm", "a/2.dcm", "a/1.dcm", "not \\xff & <i>.txt"]
    title = click("th[data-column=missing] button")
    cases: List[Tuple[str, List[str], List[str]]] = [
        ("a click on a result", [click('[data-result="lines missing"]')], every[1:3]),
        ("a click on a title", [title], every),
        ("a second click", [title, title], every[::-1]),
        ("a title of texts", [click("th[data-column=result] button")], [every[4], every[0], every[1], every[2], every[3]]),
        ("a choice of a result", [turned_to("#result", "does not read", "change")], every[:1]),
        ("a word that is typed", [turned_to("#only", "DOE^", "input")], ["a/2.dcm", "a/1.dcm"]),
        ("a word that none has", [turned_to("#only", "nowhere", "input")], []),
        ("a choice of groups", [turned_to("#group", "folder", "change")], [".: 1 row", every[4], "a: 2 rows"]),
    ]
    for name, steps, lines in cases:
        told = lines_of(shown_by(program, f"file://{clicks(f'{work}/few.report/report.html', *steps)}"))
        is_all = len(told) == len(lines) or "groups" in name
        yield f"hands: {name}: {told}", told[: len(lines)] == lines and is_all
    long = f"{work}/long.report/report.html"
    for steps, wanted in (([click("#next")] * 2, "401 to 600 of"), ([click("#next"), click("#before")], "1 to 200 of")):
        text = shown_by(program, f"file://{clicks(long, *steps)}")
        yield f"hands: {wanted}", (len(lines_of(text)), wanted in text) == (200, True)


# Writes the shape of a picture, and its first pixel in each line, into the page
READ_PICTURE = """<body><img id="it" src="data:image/png;base64,PICTURE"><p id="told"></p><script>
const it = document.getElementById("it");
it.onload = () => {
  const canvas = document.createElement("canvas");
  [canvas.width, canvas.height] = [it.naturalWidth, it.naturalHeight];
  const on = canvas.getContext("2d");
  on.drawImage(it, 0, 0);
  const first = [...Array(canvas.height).keys()].map(y => [...on.getImageData(0, y, 1, 1).data].slice(0, 3).join(","));
  document.getElementById("told").textContent = [canvas.width, canvas.height, ...first].join(" ");
};
</script></body>"""


def checks_of_pictures(work: str) -> Iterator[Check]:
    """Chromium shows what jls-view draws: of first.jls, in which lines 2 and 3 are lost, as docs/GUIDE.md has it."""
    program = browser()
    if not program:
        return
    cases: List[Tuple[List[str], int]] = [([], 1), (["--scale", "3"], 3), (["--window", "128", "256"], 1)]
    for words, rows in cases:
        drawn = f"{work}/drawn.png"
        subprocess.run([VIEW, *words, os.path.join(TOP, "examples", "first.jls"), drawn], check=True, env=PROGRAMS)
        page = READ_PICTURE.replace("PICTURE", base64.b64encode(get(drawn)).decode())
        text = shown_by(program, f"file://{put(f'{work}/drawn.html', page.encode())}")
        told = re.search(r'<p id="told">(.*?)</p>', text)
        width, height, *lines = told.group(1).split() if told else ("0", "0")
        lost = [y for y, pixel in enumerate(lines) if pixel == "230,159,0"]
        is_gray = all(len(set(pixel.split(","))) == 1 for y, pixel in enumerate(lines) if y not in lost)
        yield f"pictures: {words}: {width}x{height}, a bar beside it", int(width) > 16 * rows and int(height) == 12 * rows
        yield f"pictures: {words}: lost lines are orange, others gray {lost}", lost == [*range(2 * rows, 4 * rows)] and is_gray


def checks_of_page(work: str) -> Iterator[Check]:
    """All checks. A screenshot is kept if one in the browser differs."""
    work = f"{work}/page"
    yield from checks_of_parts(work)
    is_well = True
    for what, is_so in itertools.chain(checks_of_browser(work), checks_of_hands(work), checks_of_pictures(work)):
        is_well = is_well and is_so
        yield what, is_so
    program = browser()
    if not is_well and program:
        kept = os.path.join(tempfile.gettempdir(), "jls-archive-page.png")
        shown_by(program, f"file://{work}/few.report/report.html", "--window-size=1500,1100", f"--screenshot={kept}")
        print(f"what the browser showed is in {kept}")
