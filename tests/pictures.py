#!/usr/bin/env python3
"""Draws journals by `jobscope picture` and looks whether the pictures show what the journals say.

    tests/pictures.py [PROGRAM [JOURNAL..]]
    tests/pictures.py --look FOLDER [PROGRAM [JOURNAL..]]

PROGRAM is build/jobscope if none is given, and the journals are those of tests/scenes/scope/journal. What is looked for stands in
tests/scenes/pictures.py, by which the gate looks at three of them (the scene `jobscope_pictures`).

One line a journal, and a count. The status is 1 if a picture is at fault.

With --look nothing is compared: Chromium shows the page of each journal in a window of 1280 columns and in one of 390, light and dark, and
the SVG alone, and each picture goes into the folder as a PNG, to be looked at: no text over another, no text cut off that can't be scrolled
to, each colour readable, the legend whole. Where it may run no script and load nothing, the page has to look the same, which is compared.
"""
import glob
import os
import shutil
import subprocess
import sys
import tempfile

TOP = os.path.join(os.path.dirname(os.path.abspath(__file__)), "..")
sys.dont_write_bytecode = True
sys.path.insert(0, os.path.join(TOP, "tests", "scenes"))
from pictures import faults_of  # noqa: E402

# By this a page runs no script, and loads nothing.
POLICY = """<meta http-equiv="Content-Security-Policy" content="default-src 'none'; style-src 'unsafe-inline'">
"""


def screenshot(source, to, width, is_dark):
    """Chromium's picture of the file, in a window of so many columns."""
    browser = shutil.which("chromium") or shutil.which("chromium-browser") or sys.exit("chromium is not on the PATH")
    with tempfile.TemporaryDirectory() as own:
        subprocess.run(
            [browser, "--headless", "--no-sandbox", "--disable-gpu", "--hide-scrollbars", f"--user-data-dir={own}",
             f"--blink-settings=preferredColorScheme={0 if is_dark else 1}", f"--window-size={width},1800", f"--screenshot={to}",
             f"file://{os.path.abspath(source)}"],
            check=True, capture_output=True, timeout=120)


def look(folder, program, paths):
    os.makedirs(folder, exist_ok=True)
    bad = 0
    for path in paths:
        start = os.path.join(folder, os.path.basename(path).removesuffix(".jsonl"))
        for name, words in ((f"{start}.html", ["--html"]), (f"{start}.svg", [])):
            with open(name, "wb") as file:
                subprocess.run([program, "picture", *words, "--journal", path], stdout=file, stderr=subprocess.DEVNULL)
        if not os.path.getsize(f"{start}.html"):
            continue
        for shade in ("light", "dark"):
            for width in (1280, 390):
                screenshot(f"{start}.html", f"{start}_{width}_{shade}.png", width, shade == "dark")
            screenshot(f"{start}.svg", f"{start}_svg_{shade}.png", 1000, shade == "dark")
        with open(f"{start}.html") as page, open(f"{start}_no_script.html", "w") as file:
            file.write(page.read().replace("<head>\n", "<head>\n" + POLICY, 1))
        screenshot(f"{start}_no_script.html", f"{start}_no_script.png", 1280, False)
        with open(f"{start}_no_script.png", "rb") as one, open(f"{start}_1280_light.png", "rb") as other:
            if one.read() != other.read():
                bad += 1
                print(f"{os.path.basename(path)}: without scripts it looks otherwise")
    print(f"look at {folder}/*.png")
    sys.exit(1 if bad else 0)


def main():
    words = sys.argv[1:]
    folder = words[1] if words[:1] == ["--look"] else None
    words = words[2:] if folder else words
    program = words[0] if words else os.path.join(TOP, "build", "jobscope")
    paths = words[1:] or sorted(glob.glob(os.path.join(TOP, "tests", "scenes", "scope", "journal", "*.jsonl")))
    if folder:
        look(folder, program, paths)
    bad = 0
    for path in paths:
        faults = list(faults_of([program], path))
        bad += bool(faults)
        print(f"{os.path.basename(path)}: {'as wanted' if not faults else '; '.join(faults)}", flush=True)
    print(f"{len(paths) - bad} passed, {bad} failed")
    sys.exit(1 if bad or not paths else 0)


main()
