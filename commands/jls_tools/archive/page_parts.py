"""The parts of report.html that are the same each time."""

HEAD = """\
<!DOCTYPE html>
<html lang="en"><head><meta charset="utf-8"><title>{title}</title>
<meta http-equiv="Content-Security-Policy"
 content="default-src 'none'; img-src data:; style-src 'unsafe-inline'; script-src 'unsafe-inline'">
<meta name="viewport" content="width=device-width">
"""

CHOICE = """\
<p class="key"><span class="missing"></span> no copy has the line <span class="disputed"></span> copies disagree on the line
<span class="bad"></span> bytes that are bad, from the file's begin to its end: copies differ, or can't be decoded</p>
<noscript><p>The rows of this page need a script, which this browser doesn't run. pictures.csv beside it has them too.</p></noscript>
<p class="choice"><label>Result <select id="result"><option value="">all</option></select></label>
<label>Path, patient, study or note has <input id="only" type="search"></label>
<label>Groups <select id="group"><option value="">none</option></select></label>
<button type="button" id="before">Before</button> <button type="button" id="next">Next</button> <span id="count"></span></p>
<table id="rows"><thead></thead><tbody></tbody></table>
"""

STYLE = """
body { font: 14px/1.4 system-ui, sans-serif; margin: 1.5em; color: #222; background: #fff }
h1 { font-size: 1.4em }
dl { display: flex; flex-wrap: wrap; gap: .5em 2em } dt { color: #555 } dd { margin: 0; font-size: 1.3em }
table { border-collapse: collapse } td, th { padding: 3px 8px; text-align: left; vertical-align: top }
.small td { border-bottom: 1px solid #ddd } .n { text-align: right; white-space: nowrap; font-variant-numeric: tabular-nums }
.small button { font: inherit; border: 0; padding: 0; background: none; color: #0645ad; cursor: pointer }
.choice label { margin-right: 1.2em } .part { font-weight: bold }
#rows { width: 100%; margin-top: 1em } #rows td { border-bottom: 1px solid #ddd }
#rows th { position: sticky; top: 0; background: #f2f2f2; vertical-align: bottom }
#rows tr.group td { background: #e8eef5; font-weight: bold; overflow-wrap: anywhere }
.t { width: 75px } .t img { display: block; image-rendering: pixelated } .p { overflow-wrap: anywhere; min-width: 9em }
.links a { margin-right: .8em; color: #0645ad } .links { font-size: .9em }
.whole { color: #1a6d2e } .lost { color: #a33c00 }
th button { font: inherit; font-weight: bold; border: 0; background: none; padding: 4px 0; cursor: pointer; text-align: inherit }
th[aria-sort=ascending] button::after { content: " \\25b2" } th[aria-sort=descending] button::after { content: " \\25bc" }
.bar { display: flex; width: 128px; height: 12px; margin-top: 3px; border: 1px solid #999; background: #e4e4e4 }
.bar i { flex: 1 }
.key span { display: inline-block; width: 1em; height: 1em; margin-left: 1em; vertical-align: -2px }
.missing { background: #e69f00 } .disputed { background: #56b4e9 } .bad { background: #c02020 }
"""

# What the address says behind the page's name is chosen: #result=mended&group=patient&sort=-missing&only=head. A click on a title sorts by
# it, and a second click the other way round. So many rows are shown at once as a browser lays out without a pause.
SCRIPT = """
"use strict";
(() => {
  const rows = JSON.parse(document.getElementById("data").textContent);
  const columns = ["path", "kind", "result", "copies", "frames", "settled", "missing", "disputed", "loss", "decided", "one copy",
    "versions", "sum", "note", "patient", "study"];
  const at = Object.fromEntries(columns.map((name, number) => [name, number]));
  const LINKS = 16, THUMBNAIL = 17, BAD = 18, MOST = 200;
  const numbers = new Set(["copies", "frames", "settled", "missing", "disputed", "loss", "decided", "one copy", "versions"]);
  const texts = new Set(["path", "note"]);
  const has = name => rows.some(row => row[at[name]] !== null && row[at[name]] !== "");
  const shown = columns.filter(name => name !== "patient" && name !== "study" && (name === "path" || has(name)));
  const find = id => document.getElementById(id);
  const make = (kind, parent, text, name) => {
    const made = document.createElement(kind);
    if (text !== undefined && text !== null) made.textContent = text;
    if (name) made.className = name;
    parent.append(made);
    return made;
  };
  const words = new Intl.Collator(undefined, { numeric: true });
  const folder = row => row[0].includes("/") ? row[0].slice(0, row[0].lastIndexOf("/")) : ".";
  const groups = {
    patient: row => row[at.patient], study: row => row[at.patient] + (row[at.study] ? " / " + row[at.study] : ""),
    folder, result: row => row[at.result],
  };
  const choice = { result: "", only: "", group: "", sort: "-loss", first: 0 };
  for (const pair of location.hash.slice(1).split("&")) {
    const [name, text] = pair.split("=").map(decodeURIComponent);
    if (name in choice && name !== "first" && text !== undefined) choice[name] = text;
  }
  for (const name of [...new Set(rows.map(row => row[at.result]))].sort()) make("option", find("result"), name).value = name;
  for (const name of ["patient", "study", "folder", "result"])
    if (name === "folder" || name === "result" || has(name)) make("option", find("group"), name).value = name;
  const percent = share => share > 0 && share < 0.001 ? "0.1 %" : (share > 0.999 && share < 1 ? 99.9 : 100 * share).toFixed(1) + " %";

  const heading = make("tr", document.querySelector("#rows thead"));
  make("th", heading, "lines", "t");
  for (const name of shown) {
    const head = make("th", heading, null, numbers.has(name) ? "n" : texts.has(name) ? "p" : "");
    head.dataset.column = name;
    make("button", head, name).addEventListener("click", () => {
      const now = choice.sort.replace(/^-/, "") === name ? choice.sort : null;
      choose({ sort: now ? (now[0] === "-" ? name : "-" + name) : (numbers.has(name) ? "-" : "") + name });
    });
  }

  const drawBar = (parent, digits) => {
    const bar = make("div", parent, null, "bar");
    bar.title = "bytes that are bad, from the file's begin to its end";
    for (const digit of digits) {
      const cell = make("i", bar);
      if (digit !== "0") cell.style.background = `rgba(192, 32, 32, ${0.25 + digit / 12})`;
    }
  };
  const draw = row => {
    const line = make("tr", document.querySelector("#rows tbody"), null, "row");
    const lines = make("td", line, null, "t");
    if (row[THUMBNAIL]) {
      const image = make("img", lines);
      image.src = "data:image/png;base64," + row[THUMBNAIL];
      image.alt = "lost lines";
    }
    for (const name of shown) {
      const value = row[at[name]], cell = make("td", line, null, numbers.has(name) ? "n" : texts.has(name) ? "p" : "");
      make("div", cell, name === "loss" && value !== null ? percent(value) : value,
        name === "result" ? (value === "mended" || value === "joined" ? "whole" : "lost") : "");
      if (name !== "path") continue;
      if (row[BAD]) drawBar(cell, row[BAD]);
      const links = make("div", cell, null, "links");
      for (const [word, place] of row[LINKS]) make("a", links, word).href = place;
    }
  };
  let matching = [];
  const sizes = new Map();
  const show = () => {
    const body = document.querySelector("#rows tbody"), part = matching.slice(choice.first, choice.first + MOST);
    body.textContent = "";
    let last = null;
    for (const row of part) {
      const group = choice.group ? groups[choice.group](row) : null;
      if (group !== last) {
        const line = make("tr", body, null, "group"), cell = make("td", line);
        cell.colSpan = shown.length + 1;
        const size = sizes.get(group);
        cell.textContent = `${group || "not told"}: ${size} ${size === 1 ? "row" : "rows"}`;
        last = group;
      }
      draw(row);
    }
    find("count").textContent = part.length ? `${choice.first + 1} to ${choice.first + part.length} of ${matching.length}` : "none";
    find("before").disabled = choice.first === 0;
    find("next").disabled = choice.first + MOST >= matching.length;
  };
  const value = (row, name) => numbers.has(name) ? (row[at[name]] === null ? -1 : row[at[name]]) : row[at[name]];
  const choose = change => {
    Object.assign(choice, { first: 0 }, change);
    if (!(choice.group in groups)) choice.group = "";
    const wanted = choice.only.toLowerCase();
    const isWanted = row => [at.path, at.patient, at.study, at.note].some(number => row[number].toLowerCase().includes(wanted));
    matching = rows.filter(row => (!choice.result || row[at.result] === choice.result) && (!wanted || isWanted(row)));
    const down = choice.sort[0] === "-", name = choice.sort.replace(/^-/, "");
    const order = (a, b) => typeof a === "number" ? a - b : words.compare(a, b);
    const key = choice.group && groups[choice.group];
    const byName = name in at ? (a, b) => order(value(a, name), value(b, name)) * (down ? -1 : 1) : () => 0;
    matching.sort((a, b) => (key ? words.compare(key(a), key(b)) : 0) || byName(a, b));
    sizes.clear();
    for (const row of key ? matching : []) sizes.set(key(row), (sizes.get(key(row)) || 0) + 1);
    for (const head of heading.cells) {
      if (head.dataset.column === name) head.setAttribute("aria-sort", down ? "descending" : "ascending");
      else head.removeAttribute("aria-sort");
    }
    find("result").value = choice.result;
    find("only").value = choice.only;
    find("group").value = choice.group;
    show();
  };
  find("result").addEventListener("change", event => choose({ result: event.target.value }));
  find("group").addEventListener("change", event => choose({ group: event.target.value }));
  find("only").addEventListener("input", event => choose({ only: event.target.value }));
  find("before").addEventListener("click", () => { choice.first -= MOST; show(); });
  find("next").addEventListener("click", () => { choice.first += MOST; show(); });
  for (const button of document.querySelectorAll("[data-result]"))
    button.addEventListener("click", () => choose({ result: button.dataset.result }));
  choose({});
})();
"""
