"""The page of x25report.py: what it looks like, and what it does in a browser.

It asks no network, which its policy forbids. What a capture brings is put in as text alone.
"""

from __future__ import annotations

from typing import List, Tuple

WIDTH, HEIGHT, EDGE = 720, 90, 40

PAGE = """<!DOCTYPE html>
<html lang="en"><head><meta charset="utf-8"><title>x25 report: @TITLE@</title>
<meta http-equiv="Content-Security-Policy"
 content="default-src 'none'; style-src 'unsafe-inline'; script-src 'unsafe-inline'">
<meta name="viewport" content="width=device-width">
<style>
:root { color-scheme: light dark; --line: #8888; --rule: #c22; --doubt: #b70; --manners: #85c; }
body { font: 15px/1.4 system-ui, sans-serif; margin: 1.5em auto; max-width: 80em; padding: 0 1em }
h1 { font-size: 1.4em } h2 { font-size: 1.15em; margin-top: 1.6em }
table { border-collapse: collapse; font-size: .92em } th { text-align: left }
td, th { border-bottom: 1px solid var(--line); padding: .2em .7em .2em 0; vertical-align: top }
.calls { display: block; overflow-x: auto; max-height: 24em; overflow-y: auto }
tr.rule td:nth-child(2), .told.rule .verdict { color: var(--rule); font-weight: 600 }
tr.doubt td:nth-child(2), .told.doubt .verdict { color: var(--doubt) }
tr.manners td:nth-child(2), .told.manners .verdict { color: var(--manners) }
svg { display: block; max-width: 100%; font: 11px system-ui, sans-serif; margin: .4em 0 }
svg text { fill: currentColor } svg .axis { stroke: var(--line) }
svg .mark { fill: #38c; } form { margin: .5em 0 } form label { margin-right: 1em }
#list { height: 32em; overflow-y: auto; border: 1px solid var(--line); position: relative;
 font: 12.5px/22px ui-monospace, monospace }
.row { position: absolute; left: 0; right: 0; height: 22px; display: flex; white-space: pre }
.row.at { background: #fd08 } .time { width: 15em; flex: none; opacity: .7; overflow: hidden }
.where { width: 8em; flex: none; opacity: .7 } .life { flex: 1 1 55%; min-width: 0; display: flex;
 border-left: 2px solid; border-right: 2px solid; align-items: center }
.life i { flex: 1; border-top: 1px solid; min-width: 1em; opacity: .6 }
.text, .verdict { overflow: hidden; text-overflow: ellipsis; padding: 0 .5em }
.verdict { flex: 1 1 30%; min-width: 0; cursor: pointer } .note .verdict { opacity: .7 }
.told.rule .life { color: var(--rule) } .told.doubt .life { color: var(--doubt) }
.head { position: static; font: 12.5px/22px ui-monospace, monospace; padding-right: 1em }
.head .life { justify-content: space-between }
.fold { justify-content: center; cursor: pointer; opacity: .75; background: #8881 }
</style></head><body>
<h1>@TITLE@</h1>
<ul id="summary">@SUMMARY@</ul>
<h2>What is told</h2>
@TOLD@
<h2>Calls</h2>
@CALLS@
<h2>Times</h2>
@PLOTS@
<h2 id="timeline">Timeline</h2>
<form id="filter" onsubmit="return false">
<label>Connection <select id="connection"><option value="">all</select></label>
<label>Channel <select id="channel"><option value="">all</select></label>
<label>Of <select id="end"><option value="">both ends<option value="&gt;">the DTE
<option value="&lt;">the DCE</select></label>
<label><input type="checkbox" id="told"> told of alone</label>
<label><input type="checkbox" id="fold"> folded</label>
<span id="count"></span></form>
<div class="row head"><span class="time">Time</span><span class="where"></span>
<span class="life"><b>DTE</b><b>DCE</b></span>
<span class="verdict">What is told</span></div>
<div id="list"><div id="room"></div></div>
<noscript>The timeline needs JavaScript; the rest of the page doesn't.</noscript>
<script type="application/json" id="data">@DATA@</script>
<script>
"use strict";
// A row: time, connection, direction, channel, text, words, what kind is told, its text, rule.
const rows = JSON.parse(document.getElementById("data").textContent);
const at = (id) => document.getElementById(id);
const HEIGHT = 22, NEAR = 3, LEAST = 9, MANY = 300;
const list = at("list"), room = at("room"), opened = new Set();
let items = [], marked = -1;
const isTold = (row) => row[6] !== undefined && row[6] !== "note";
function choices(id, place, name) {
  const values = [...new Set(rows.map((row) => row[place]))].filter((it) => it !== null);
  for (const value of values.sort((a, b) => a - b)) at(id).add(new Option(name(value), value));
}
function isWanted(row) {
  const connection = at("connection").value, channel = at("channel").value, end = at("end").value;
  return (connection === "" || row[1] === +connection) && (end === "" || row[2] === end)
    && (channel === "" || row[3] === +channel) && (!at("told").checked || isTold(row));
}
// The places of the rows that are shown, and stretches that are folded.
function build() {
  const shown = [];
  rows.forEach((row, place) => { if (isWanted(row)) shown.push(place); });
  const near = new Uint8Array(shown.length);
  const mark = (n) => near.fill(1, Math.max(0, n - NEAR), n + NEAR + 1);
  shown.forEach((place, n) => { if (isTold(rows[place]) || place === marked) mark(n); });
  items = [];
  for (let n = 0; n < shown.length;) {
    let end = n;
    while (at("fold").checked && end < shown.length && !near[end]) end++;
    if (end - n >= LEAST && !opened.has(shown[n])) {
      items.push([shown[n], end - n]);
      n = end;
    } else {
      for (end = Math.max(end, n + 1); n < end; n++) items.push(shown[n]);
    }
  }
  at("count").textContent = `${shown.length} of ${rows.length} rows`;
  room.style.height = `${items.length * HEIGHT}px`;
  draw();
}
function part(kind, text, parent) {
  const made = document.createElement("span");
  made.className = kind;
  made.textContent = text;
  parent.append(made);
  return made;
}
function drawn(item, n) {
  const made = document.createElement("div");
  made.style.top = `${n * HEIGHT}px`;
  if (Array.isArray(item)) {
    made.className = "row fold";
    made.textContent = `${item[1]} frames of which nothing is told (click: show them)`;
    made.onclick = () => { opened.add(item[0]); build(); };
    return made;
  }
  const row = rows[item];
  const kinds = [isTold(row) ? "told" : "", row[6] ?? "", item === marked ? "at" : ""];
  made.className = ["row", ...kinds.filter((kind) => kind)].join(" ");
  part("time", row[0], made);
  part("where", `#${row[1]}${row[3] === null ? "" : ` ch=${row[3]}`}`, made);
  const life = part("life", "", made);
  const text = () => {
    part("text", row[4], life).title = row[5] ? `${row[4]}\\n${row[5]}` : row[4];
  };
  if (row[2] === ">") { text(); life.append(document.createElement("i"), "▶"); }
  else if (row[2] === "<") { life.append("◀", document.createElement("i")); text(); }
  else text();
  const verdict = part("verdict", row[7] ?? (row[5] ? `(${row[5]})` : ""), made);
  verdict.title = verdict.textContent;
  const rule = at(`rule-${row[8]}`);
  if (rule) verdict.onclick = () => {
    rule.querySelector("details").open = true;
    rule.scrollIntoView({ block: "center" });
  };
  return made;
}
function draw() {
  const first = Math.max(0, Math.floor(list.scrollTop / HEIGHT) - 5);
  const last = Math.min(items.length, first + Math.ceil(list.clientHeight / HEIGHT) + 10);
  room.replaceChildren(...items.slice(first, last).map((item, n) => drawn(item, first + n)));
}
function go(place) {
  marked = place;
  for (const id of ["connection", "channel", "end"]) at(id).value = "";
  build();
  list.scrollTop = Math.max(0, items.indexOf(place) * HEIGHT - list.clientHeight / 2);
  draw();
}
choices("connection", 1, (it) => `#${it}`);
choices("channel", 3, (it) => `${it}`);
at("fold").checked = rows.length > MANY;
at("filter").oninput = () => { opened.clear(); build(); };
list.onscroll = draw;
for (const link of document.querySelectorAll("a.go")) link.onclick = () => go(+link.dataset.row);
build();
const asked = /^#row-([0-9]+)$/.exec(location.hash);
if (asked && +asked[1] < rows.length) go(+asked[1]);
</script></body></html>
"""


def _frame(title: str, body: str, most: str, seconds: float) -> str:
    """A picture with its axes: what is highest, and how long it goes."""
    base, right = HEIGHT + 22, EDGE + WIDTH
    return (
        f'<svg viewBox="0 0 {right + 20} {base + 18}" width="{right + 20}" role="img">'
        f'<text x="0" y="12">{title}</text><text x="0" y="32">{most}</text>'
        f'<path class="axis" d="M{EDGE} 20V{base}H{right}" fill="none"/>{body}'
        f'<text x="{EDGE}" y="{base + 14}">0</text>'
        f'<text x="{right}" y="{base + 14}" text-anchor="end">{seconds:.1f} s</text></svg>'
    )


def dots(title: str, points: List[Tuple[float, float]], begin: float, end: float) -> str:
    """A picture of values by their times."""
    most = max((value for _, value in points), default=0)
    wide = (end - begin) or 1
    marks = "".join(
        f'<circle class="mark" r="2" cx="{EDGE + WIDTH * (at - begin) / wide:.1f}"'
        f' cy="{HEIGHT + 22 - HEIGHT * value / (most or 1):.1f}"/>'
        for at, value in points
    )
    return _frame(title, marks, f"{most:.3f} s", end - begin)


def bars(title: str, counts: List[int], begin: float, end: float) -> str:
    """A picture of counts, one for each part of the time."""
    most, width = max(counts), WIDTH / len(counts)
    marks = "".join(
        f'<rect class="mark" x="{EDGE + place * width:.1f}" width="{max(1, width - 1):.1f}"'
        f' y="{HEIGHT + 22 - HEIGHT * count / most:.1f}" height="{HEIGHT * count / most:.1f}"/>'
        for place, count in enumerate(counts)
        if count
    )
    return _frame(f"{title}: {sum(counts):,}", marks, f"{most}", end - begin)
