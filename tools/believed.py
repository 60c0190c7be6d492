#!/usr/bin/env python3
"""Counts the definitions that a reader has to believe behind each theorem of docs/PROVED.md.

    tools/believed.py            writes a line for each theorem
    tools/believed.py --check    compares the table of docs/PROVED.md with that; the status is 1 if it differs
    tools/believed.py --write    puts the table right

Counted are the files of crates/NAME/specs/ that the contract of the theorem names, and all that these name, again and again. A line counts unless it is
empty, a comment, or the import of a name. Types that are read off the code (`specs.declared`) are not counted, nor are the definitions of the kit.
"""
import os
import re
import sys

TOP = os.path.dirname(os.path.dirname(os.path.abspath(__file__)))
PAGE = f"{TOP}/docs/PROVED.md"
FRONT, END = "<!-- believed -->\n", "<!-- end -->\n"

# The theorem's number in docs/PROVED.md; the function that carries it; the file that has it.
THEOREMS = [
    ("1", "replay", "replay/src/replaying.rt"),
    ("2a", "the_store_holds_what_the_machine_sets", "launcher_laws/src/laws.rt"),
    ("2b", "a_store_opened_again_has_the_last_settings", "launcher_laws/src/laws.rt"),
    ("2c", "a_replay_writes_what_was_replied", "launcher_laws/src/laws.rt"),
    ("3a", "rounds_are_turns", "round_laws/src/laws.rt"),
    ("3b", "rounds_decide_as_one", "round_laws/src/laws.rt"),
    ("3c", "each_client_is_followed", "round_laws/src/laws.rt"),
    ("3d", "between_turns_are_questions", "round_laws/src/laws.rt"),
    ("3e", "a_due_start_is_ordered_in_its_round", "round_laws/src/laws.rt"),
    ("3f", "each_line_is_a_clients_next", "control_socket/src/laws.rt"),
    ("4", "no_label_has_two_runs", "history_model/src/laws.rt"),
    ("4", "spawn_orders_are_apart", "history_model/src/laws.rt"),
    ("4", "kill_orders_wait", "history_model/src/laws.rt"),
    ("4", "no_order_remains", "history_model/src/laws.rt"),
    ("4", "jobs_do_not_meet", "history_model/src/laws.rt"),
    ("4", "every_wait_is_explained", "history_model/src/laws.rt"),
]

IMPORT = re.compile(r"use Rattle\.(\w+)\.specs\.(?!declared\b)([\w.]+?)(?:\.\{([^}]*)\}| as (\w+))?;?\s*$", re.M)


def read(path):
    with open(path, encoding="utf-8") as file:
        return file.read()


def place_of(crate, module):
    """The file of a module of definitions of this repository, if it is one."""
    path = f"{TOP}/crates/{crate}/specs/{module.replace('.', '/')}.antt"
    return path if os.path.isfile(path) else None


def imports_of(text):
    """The files that a text imports definitions from, with the names that it takes from each."""
    for crate, module, names, other in IMPORT.findall(text):
        path = place_of(crate, module)
        if path:
            taken = {it.split(" as ")[-1].strip() for it in names.split(",")} | ({other} if other else set())
            yield path, taken - {""}


def contract_of(text, name):
    """What stands between the head of a function and its body."""
    found = re.search(rf"\bpub fn {name}\b.*?\n(?:    )?\{{", text, re.S)
    if not found:
        sys.exit(f"believed: no function {name}")
    return found[0]


def behind(name, path):
    """The files of definitions that stand behind a function's contract."""
    text = read(f"{TOP}/crates/{path}")
    words = set(re.findall(r"[\w◌]+", contract_of(text, name)))
    ahead = [file for file, names in imports_of(text) if names & words]
    seen = set()
    while ahead:
        file = ahead.pop()
        if file not in seen:
            seen.add(file)
            ahead += [it for it, _ in imports_of(read(file))]
    return sorted(seen)


def lines_in(path):
    kept = [it.strip() for it in read(path).split("\n")]
    return sum(1 for it in kept if it and not it.startswith("--") and not it.startswith("use "))


def rows():
    for number, name, path in THEOREMS:
        files = behind(name, path)
        yield number, f"{path.split('/', 1)[0]}::{'laws::' if path.endswith('laws.rt') else ''}{name}", len(files), sum(map(lines_in, files))


def table():
    head = "| | Function | Files | Lines |\n|---|---|---|---|\n"
    return head + "".join(f"| {number} | `{name}` | {files} | {lines:,} |\n" for number, name, files, lines in rows())


def main(flag=""):
    if not flag:
        print(table(), end="")
        return 0
    page = read(PAGE)
    before, rest = page.split(FRONT, 1)
    old, after = rest.split(END, 1)
    new = "\n" + table() + "\n"
    if flag == "--write":
        with open(PAGE, "w", encoding="utf-8") as file:
            file.write(before + FRONT + new + END + after)
        return 0
    if old != new:
        print("docs/PROVED.md: the table of definitions is not what tools/believed.py counts", file=sys.stderr)
    return int(old != new)


if __name__ == "__main__":
    sys.exit(main(*sys.argv[1:]) if sys.argv[1:] in ([], ["--check"], ["--write"]) else __doc__)
