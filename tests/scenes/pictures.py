"""Whether the pictures of `jobscope picture` show what their journals say. Of a journal the runs, their times and their ends are reckoned here, line by
line, and compared with the chart:

    SVG       it is XML; each run that began is in a bar of its job's row, which begins and ends at the places of its seconds
    the page  it is HTML whose elements close, it has no script, its picture is as the SVG, its table has the lines of `jobscope runs`, and the names
              that a narrow window shows beside the rows are their labels
    blocks    on a terminal of 60 columns, and of 32, no line is longer, each job has a line, and each run has its blocks at its places
    refusals  those of jobs that were not loaded before are counted, as they were counted here by hand

`jobscope.py` plays it over three journals, and `tests/pictures.py` over all of them.
"""
import html.parser
import json
import os
import pty
import re
import subprocess
import unicodedata
import xml.etree.ElementTree as ET

SVG = "{http://www.w3.org/2000/svg}"
PLACES, LEFT = 980, 10
VOID = {"meta", "link", "br", "img", "hr", "rect", "path"}
# Refusals of jobs that were not loaded before: the loads of "off" (disabled) and "bad" (it runs nothing), and a start of "nobody". The
# setting of "gui/501/on" is one of the job "on", which is loaded.
ROWLESS = {"declined.jsonl": 3}


# Marks of direction, by which a label could turn the text around it (Bidi_Control of Unicode).
DIRECTIONS = "\u061c\u200e\u200f\u202a\u202b\u202c\u202d\u202e\u2066\u2067\u2068\u2069"


def shown_as(label):
    """The label as every picture shows it: U+FFFD stands for a control character and for a mark of direction."""
    return "".join("\ufffd" if unicodedata.category(c) == "Cc" or c in DIRECTIONS else c for c in label)


def events_of(path):
    """The header and the events of the whole lines, each job as it is shown; a line behind the header that is no JSON is left out."""
    with open(path, "rb") as file:
        text = file.read()
    found = []
    for line in text[: text.rfind(b"\n") + 1].splitlines():
        try:
            found.append(json.loads(line))
        except ValueError:
            if not found:
                return None, []
            continue
        if isinstance(found[-1], dict) and isinstance(found[-1].get("job"), str):
            found[-1]["job"] = shown_as(found[-1]["job"])
    return (found[0], found[1:]) if found and "ev" not in found[0] else (None, [])


def runs_of(header, events):
    """Per label the seconds (begin, end or None) of each run that began, and the first and last second of the clock."""
    wall, seen, live = header["wall"], [header["wall"]], {}
    runs = {}
    for event in events:
        kind = event["ev"]
        if kind == "clock":
            wall = event["wall"]
        elif kind == "spawned":
            live[event["job"], event["run"]] = wall
            runs.setdefault(event["job"], []).append([wall, None])
        elif kind == "ended" and (event["job"], event["run"]) in live:
            begun = live.pop((event["job"], event["run"]))
            next(run for run in runs[event["job"]] if run[0] == begun and run[1] is None)[1] = wall
        seen.append(wall)
    return runs, min(seen), max(seen)


def axis_of(first, last):
    """An axis is a second long at least."""
    return first, max(last, first + 1)


def place(axis, at, places):
    """The last of the places that has begun at the second: each has its share of the axis's span."""
    begin, end = axis
    return max(it for it in range(places + 1) if it * (end - begin) <= max(at - begin, 0) * places)


def bars_of(group):
    """The bars of a row: (x, width, how many runs)."""
    return [(int(bar.find(SVG + "rect").get("x")), int(bar.find(SVG + "rect").get("width")), int(bar.get("data-runs")))
            for bar in group.findall(SVG + "g")]


def faults_of_svg(text, header, events):
    root = ET.fromstring(text)
    rows = {group.find(SVG + "text").text: group for group in root.findall(SVG + "g") if group.find(SVG + "text") is not None
            and "label" in group.find(SVG + "text").get("class").split()}
    runs, first, last = runs_of(header, events)
    axis = axis_of(first, last)
    for label, told in runs.items():
        if label not in rows:
            if "data-runs" in text or rows:
                yield f"{label} has no row"
            continue
        bars = bars_of(rows[label])
        if sum(bar[2] for bar in bars) != len(told):
            yield f"{label}: {len(told)} runs began, and the bars stand for {sum(bar[2] for bar in bars)}"
        if all(bar[2] == 1 for bar in bars):
            for (x, width, _), (begun, ended) in zip(bars, told):
                # One that lives has a bar to the end of the axis, which is a second long at least.
                begin, end = place(axis, begun, PLACES), place(axis, axis[1] if ended is None else max(ended, begun), PLACES)
                if (x, width) != (LEFT + begin, max(end - begin, 1)):
                    yield f"{label}: a bar stands at {x}, {width} wide; wanted {LEFT + begin}, {max(end - begin, 1)}"
    if "var(" in text:
        yield "a colour is a variable, which viewers that are no browsers paint black"
    for element in root.iter(SVG + "rect"):
        if int(element.get("x", 0)) < 0 or int(element.get("x", 0)) + int(element.get("width")) > 1000 and element.get("class") != "ground":
            yield "a bar stands outside"


class Page(html.parser.HTMLParser):
    def __init__(self):
        super().__init__()
        self.open, self.faults, self.cells, self.is_cell = [], [], [], False

    def handle_starttag(self, tag, attributes):
        if tag == "script" or any(name.startswith("on") or name == "src" for name, _ in attributes):
            self.faults.append(f"the page loads or runs something: {tag}")
        if tag == "tr":
            self.cells.append([])
        if tag in ("td", "th"):
            self.cells[-1].append("")
            self.is_cell = True
        if tag not in VOID:
            self.open.append(tag)

    def handle_endtag(self, tag):
        if tag in VOID:
            return
        if not self.open or self.open.pop() != tag:
            self.faults.append(f"{tag} closes what is not open")
        if tag in ("td", "th"):
            self.is_cell = False

    def handle_data(self, data):
        if self.is_cell:
            self.cells[-1][-1] += data


def faults_of_page(text, table):
    page = Page()
    page.feed(text)
    yield from page.faults
    if page.open:
        yield f"these stay open: {page.open}"
    wanted = [line.split("\t") for line in table.splitlines()]
    at = page.cells.index(wanted[0]) if wanted[0] in page.cells else 0
    if page.cells[at : at + len(wanted)] != wanted:
        yield "its table is not that of runs"
    if "var(" in text or not 0 < text.find("What is failing") < text.find("Coming starts by the clock") < text.find("<svg"):
        yield "its colours are variables, or it does not begin with what is failing and what comes"


def faults_of_names(page, figure):
    """The names that stay in sight as a narrow window scrolls are the labels of the rows, in order."""
    labels = [text.find(SVG + "title").text for text in ET.fromstring(figure).iter(SVG + "text") if "label" in (text.get("class") or "").split()]
    names = [html.unescape(name) for name in re.findall(r'<li(?: class="idle")?><bdi>(.*?)</bdi></li>', page)]
    if names != labels:
        yield f"the names beside the rows are {names}; wanted {labels}"


def width_of(line):
    return sum(2 if unicodedata.east_asian_width(c) in "WF" else 0 if unicodedata.combining(c) else 1 for c in line)


def on_terminal(command, path, columns):
    """What the program writes to a terminal of so many columns."""
    held, given = pty.openpty()
    environment = dict(os.environ, COLUMNS=str(columns))
    running = subprocess.Popen([*command, "picture", "--journal", path], stdout=given, stderr=subprocess.DEVNULL, env=environment)
    os.close(given)
    text = b""
    while True:
        try:
            piece = os.read(held, 65536)
        except OSError:
            break
        if not piece:
            break
        text += piece
    running.wait()
    os.close(held)
    return text.decode().replace("\r\n", "\n")


def faults_of_row(label, told, line, column, columns, axis):
    """The cells of a row that have a block are those in which a run was, each run in one at least."""
    places = columns - column - 1
    wanted = set()
    for begun, ended in told:
        first = min(place(axis, begun, places), places - 1)
        last = place(axis, axis[1] if ended is None else max(ended, begun), places)
        wanted |= set(range(first, max(last, first + 1)))
    filled = {at for at, cell in enumerate(line[column + 1 :]) if cell != " "}
    if filled != wanted:
        yield f"{label}: of {places} places {sorted(filled)} have a block; wanted {sorted(wanted)}"


def faults_of_blocks(text, labels, columns, header, events):
    lines = text.splitlines()
    yield from (f"a line is {width_of(line)} columns wide: {line}" for line in lines if width_of(line) > columns)
    runs, first, last = runs_of(header, events)
    rows = {event["job"] for event in events if "job" in event} | set(labels)
    column = min(max(map(width_of, rows), default=0), columns // 3)
    for label in labels:
        shown = label if width_of(label) <= column else label[: column - 1]
        line = next((line for line in lines[1:] if line.startswith(shown)), None)
        if line is None:
            yield f"{label} has no line"
        elif label in runs and column == max(map(width_of, labels)):
            yield from faults_of_row(label, runs[label], line, column, columns, axis_of(first, last))


def faults_of_refusals(text, name):
    found = re.search(r"not loaded before: refusals (\d+)\.", text)
    if name in ROWLESS and (not found or int(found[1]) != ROWLESS[name]):
        yield f"{ROWLESS[name]} refusals of jobs that were not loaded are wanted, and told: {found and found[1]}"


def faults_of(command, path):
    """What is amiss in the pictures that the command makes of the journal."""
    header, events = events_of(path)
    said = subprocess.run([*command, "picture", "--journal", path], capture_output=True, text=True)
    if header is None:
        if said.returncode != 65 or said.stdout or said.stderr.count("\n") != 1:
            yield f"it is no journal, and the status is {said.returncode}"
        return
    yield from faults_of_svg(said.stdout, header, events)
    page = subprocess.run([*command, "picture", "--html", "--journal", path], capture_output=True, text=True).stdout
    table = subprocess.run([*command, "runs", "--journal", path], capture_output=True, text=True).stdout
    yield from faults_of_page(page, table)
    figure = re.search(r"<svg.*?</svg>", page, re.S)
    yield from faults_of_svg(figure[0], header, events) if figure else ["the page has no picture"]
    yield from faults_of_names(page, figure[0]) if figure else []
    labels = [line.split("\t")[0] for line in table.splitlines()[1:]]
    for columns in (60, 32):
        yield from faults_of_blocks(on_terminal(command, path, columns), labels, columns, header, events)
    yield from faults_of_refusals(said.stdout, os.path.basename(path))
