"""Types the blocks of a page into one shell, line by line, and compares what comes with what the page shows.

    typed_page.py PAGE MARK PROGRAMS FOLDER

What is typed are the indented lines behind a line `<!-- MARK -->`, up to a line `<!-- end -->` or the page's end. What is typed stands behind `$`, with the lines of a document (`<<'END'`) up to its end;
what comes of it stands below. Process ids, clock times and dates may differ: in both they are put as PID, TIME and DATE. A line that ends in `&` is waited
for until all that the page shows of it came. The shell runs in FOLDER with PROGRAMS before the other folders of its PATH. The status is 1 at the first
difference. As a module it gives `type_page`, which answers how many lines were typed, or 0.
"""

import os
import re
import subprocess
import sys

END = "<<typed_page: end>>"


def steps_of(text, mark):
    """What is typed, with what is shown behind it."""
    steps, in_document = [], False
    for part in text.split(f"<!-- {mark} -->")[1:]:
        part = part.split("<!-- end -->")[0]
        # sentences and headings may stand between the lines
        rows = [row for row in part.split("\n") if row.startswith("    ")]
        for row in [it[4:] for it in rows]:
            if in_document:
                steps[-1][0].append(row)
                in_document = row != "END"
            elif row.startswith("$ "):
                steps.append(([row[2:]], []))
                in_document = row.endswith("<<'END'")
            elif steps:
                steps[-1][1].append(row)
    return steps


def by_make_quick(rows):
    """The lines but for what programs of `make quick` say of themselves, which is none of the page's."""
    return [row for row in rows if not row.endswith(": not proved (make quick made it; make build proves it)")]


def plain(rows):
    """The lines without what differs from run to run."""
    forms = [(r"^\d+\t", "PID\t"), (r"(?<=pid = )\d+", "PID"), (r"\b\d{4}-\d\d-\d\d\b( [A-Z][a-z]{2}\b)?", "DATE"), (r"\b\d\d:\d\d:\d\d\b", "TIME"), (r"\b(after|in) \d+\.\d s", r"\1 SPAN"),
             (r"[+-]\d{4}\b", "ZONE")]
    rows = by_make_quick(rows)
    for form, word in forms:
        rows = [re.sub(form, word, row) for row in rows]
    return rows


def came_of(shell, typed, shown):
    if typed[-1].endswith("&"):
        shell.stdin.write("\n".join(typed) + "\n")
        shell.stdin.flush()
        came = []
        while len(came) < len(shown) and (row := shell.stdout.readline()):
            came += by_make_quick([row.rstrip("\n")])
        return came
    shell.stdin.write("\n".join(typed) + f"\necho '{END}'\n")
    shell.stdin.flush()
    came = []
    for row in shell.stdout:
        if row.rstrip("\n").endswith(END):
            rest = row.rstrip("\n")[: -len(END)]
            return came + ([rest] if rest else [])
        came.append(row.rstrip("\n"))
    return [*came, "the shell has ended"]


def type_page(page, mark, programs, folder, variables=(), shell=("bash",)):
    """Types the blocks in a shell with these variables too. Answers how many lines were typed, or 0. The words of `shell` start it, somewhere else too."""
    with open(page, encoding="utf-8") as it:
        steps = steps_of(it.read(), mark)
    environment = {key: value for key, value in os.environ.items() if not key.startswith("JOBD_") and key != "JOBCTL_TIMEOUT"}
    environment.update(variables)
    environment["PATH"] = programs + ":" + environment["PATH"]
    shell = subprocess.Popen(
        list(shell), cwd=folder, env=environment, stdin=subprocess.PIPE, stdout=subprocess.PIPE, stderr=subprocess.STDOUT, text=True)
    # As a shell at a terminal: what runs in the background ignores no signal.
    shell.stdin.write("set -m\n")
    for typed, shown in steps:
        came = came_of(shell, typed, shown)
        if plain(came) != plain(shown):
            print(f"{page}: {typed[0]}\ncame:\n" + "\n".join(came) + "\nshown:\n" + "\n".join(shown), file=sys.stderr)
            shell.kill()
            return 0
    shell.stdin.close()
    try:
        shell.wait(20)
    except subprocess.TimeoutExpired:
        shell.kill()
    return len(steps)


if __name__ == "__main__":
    count = type_page(*sys.argv[1:5])
    print(f"{sys.argv[1]}: {count} lines were typed, and what came is what the page shows" if count else "", end="\n" if count else "")
    sys.exit(0 if count else 1)
