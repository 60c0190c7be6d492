#!/usr/bin/env python3
"""Tries the wrong bodies that lie in crates/NAME/must-fail/ of the copy of the tree in which this stands, for tests/wrong_bodies.sh.

    tests/try_bodies.py NAME..

What earlier runs on this machine proved of the crates below is not proved again, and no program is compiled or run. A function's proof takes of the
others their contracts alone. So wrong bodies of different functions are tried at one go, by one check of these functions: a goal that is open
within one of them is open for the wrong body there, whatever stands in the others. So it is with a written answer that no longer proves its goal. (If
a goal is open anywhere else, all are tried alone.) Which edits can be tried so, `Edit.place` says. What no goal refuses there is tried alone: by a
check of its functions, and if that refuses nothing by one of the whole crate. This takes some 3 s of a processor for a wrong body that is tried with
others, and 10 to 60 s for one that is tried alone. RT_JOBS is the number of jobs of a check at one go, and of the checks side by side that try one
body each.

It begins with what tools/check_crate.py kept of the crate, if it did. That the crate as it stands is proved, without which a refusal says nothing, is
taken from an earlier run or checked. With a kit whose rt keeps nothing (13b), tools/check_crate.py tries each alone, over what tools/proofs_kept.py
keeps.
"""
import bisect
import contextlib
import functools
import os
import re
import shutil
import signal
import subprocess
import sys
import tempfile
from concurrent.futures import ThreadPoolExecutor

sys.dont_write_bytecode = True
sys.path.insert(0, os.path.join(os.path.dirname(os.path.dirname(os.path.abspath(__file__))), "tools"))
from kit import TOP, load_rt, rt_keeps

FUNCTION = re.compile(r"(?m)^(?P<head>[^\n]*)\bfn\s+(?P<name>\w+)")
CLAUSE = re.compile(r"\b(?:(?:ensures|requires)\s*\*?\s*(?:\w+\s*)?|ghost\s+\w+\s*[:=]\s*(?:(?:owns|lends)\s*)?)\Z")
IMPL = re.compile(r"(?m)^impl\b(?:<[^{;\n]*?>)?\s+(?:(\w+)[^{;\n]*?\bfor\s+)?(\w+)")
# What no body has: with it an edit changes more than what a function does.
ITEM = re.compile(r"\b(?:fn|ensures|requires|ghost|struct|enum|trait|impl|const|static|use|mod|macro_rules|unsafe)\b|#\[")
OPEN = re.compile(r"(?:note: )?(?:\./)?(src/\S+?):(\d+):\d+: it is not proved that")
ANSWER = re.compile(r"(?:\./)?proofs/\S+/(?:Answers|Invariants|Proof)\.antt:\d+:\d+: error: ")
# An answer to a goal that its tactic does not prove, and one that is refused for what another declaration lacks.
TACTIC = re.compile(r"\S+ error: `[^`]*`: `(?:search|grind|omega)`(?::| found no proof)")
OTHERS = re.compile(r"has no field|is not in scope|has no `|was not admitted|depends? on ")
# A check that came as far as a verdict, of the crate or of the functions that it was asked for.
JUDGED = re.compile(r"logic=|only=\d+ ")
# How many wrong bodies are tried at one go, so that a check needs no more memory than one of the crate.
AT_ONE_GO = 40


def end_of(text, at):
    """Where the braces end within which a text stands at that place."""
    depth = 1
    for mark in re.compile(r"[{}]").finditer(text, at):
        depth += 1 if mark[0] == "{" else -1
        if not depth:
            return mark.start()
    return len(text)


class Function:
    """A function of a source: its name below the crate or that of its module, and where it and its body begin and end."""

    def __init__(self, path, text, found, body, end):
        # a goal at the end of a function has the place of its first attribute
        self.begin = found.start() - len(re.search(r"[^{};]*\Z", text[: found.start()])[0].lstrip())
        self.body, self.end = body, end
        module = [it for it in path[len("src/") : -len(".rt")].split("/") if it not in ("lib", "main", "mod")]
        if not found["head"][:1].isspace():
            self.only, folder = "::".join([*module, found["name"]]), "/".join(module)
        else:
            # the whole module, which names its methods too, or their type at the root
            trait, kind = next(reversed([it.groups() for it in IMPL.finditer(text, 0, found.start())]), ("", ""))
            self.only, folder = "::".join(module) or kind, rf"(?:\w+/)*{kind}{trait or ''}"
        # an error in its written proof, which stands under its module, or that of its type
        self.proof = re.compile(rf"(?:\./)?proofs/{folder}{'/' * bool(folder)}{found['name']}/(?:Answers|Invariants|Proof)\.antt:\d+:\d+: error: ")
        cycle = re.search(r"#\[cycle\((\w+)\)\]\s*(?:[^\n{};]*\n\s*)?\Z", text[: found.start()])
        self.key = ("cycle", cycle[1]) if cycle else (path, self.begin)
        self.is_const = bool(re.search(r"\bconst\b", found["head"]))


def functions(path, text):
    """The functions with a body in a source whose comments and literals are blank."""
    found, at = [], 0
    macros = [(it.start(), end_of(text, it.end())) for it in re.finditer(r"\bmacro_rules!\s*\w+\s*{", text)]
    for it in FUNCTION.finditer(text):
        if it.start("name") < at or any(start < it.start("name") < end for start, end in macros):
            continue
        depth, begun, body = 0, it.end(), None
        for mark in re.compile(r"[(\[{}\])]|;").finditer(text, it.end()):
            if mark[0] == ";" and not depth:
                break
            if mark[0] == "{" and not depth:
                body = None if CLAUSE.search(text[begun : mark.start()]) else mark.end()
            depth += {"(": 1, "[": 1, "{": 1}.get(mark[0], 0) - (mark[0] in ")]}")
            if mark[0] == "}" and not depth:
                begun = mark.end()
                if body:
                    found.append(Function(path, text, it, body, mark.start()))
                    at = mark.end()
                    break
            if depth < 0:
                break
    return found


class Edit:
    """A wrong body, as a file of must-fail/."""

    def __init__(self, trial, file):
        self.file, self.name = file, os.path.basename(file)
        self.texts, self.why = trial.rt.read_edit(file, trial.crate.folder)
        with open(file, encoding="utf-8") as it:
            unread = [line for line in it.read().split("\n") if line and not line.startswith(("file: ", "old: ", "new:", "#"))]
        if unread and not self.why:
            self.why = f"it has a line that is not read: {unread[0].strip()}"
        self.places, self.within = [], []
        if not self.why:
            self.place(trial)

    def place(self, trial):
        """Fills `within` with the functions that the edit changes, if it changes functions alone, and `places` with what is to stand where, if it
        changes their bodies alone."""
        path, old, places, within, are_bodies = "", "", [], [], True
        with open(self.file, encoding="utf-8") as it:
            lines = it.read().split("\n")
        for line in lines:
            if line.startswith("file: "):
                path = line[len("file: ") :].strip()
            elif line.startswith("old: "):
                old = line[len("old: ") :]
            elif line.startswith("new:"):
                new, text = re.sub(r"\A ", "", line[len("new:") :]), trial.text(path)
                if not path.startswith("src/") or text.count(old) != 1:
                    return
                start = text.index(old)
                end = start + len(old)
                one = next((it for it in trial.functions(path) if it.begin <= start and end <= it.end), None)
                if not one:
                    return
                are_bodies = are_bodies and one.body <= start and not one.is_const and not ITEM.search(new)
                places.append((path, start, end, new))
                within.append((path, one))
        self.places, self.within = places if are_bodies else [], within

    def only(self):
        """The flags for a check of its functions alone; none if they can't be named."""
        names = sorted({it.only for _, it in self.within})
        return [word for it in names for word in ("--only", it)] if names and all(names) else []

    def keys(self):
        return {it.key for _, it in self.within}

    def goals(self, trial, lines):
        """The lines that tell of an open goal within its functions, or else of a written answer that is none any more."""
        found = []
        for line in lines:
            at = OPEN.match(line)
            if at and any(path == at[1] and trial.line(path, it.begin) <= int(at[2]) <= trial.line(path, it.end) for path, it in self.within):
                found.append((0, line))
            elif not OTHERS.search(line) and any(it.proof.match(line) for _, it in self.within):
                found.append((1 if TACTIC.match(line) else 2, line))
        return [line for _, line in sorted(found, key=lambda it: it[0])]


class Trial:
    """The tries of one crate's wrong bodies, over what is proved of the crates below it."""

    def __init__(self, rt, crate, is_proved, jobs):
        self.rt, self.crate, self.is_proved, self.jobs = rt, crate, is_proved, jobs
        self.blank = {os.path.relpath(path, crate.folder): text for path, text in rt.rtlib.blanked(crate.folder).items()}
        self.kept = f"{TOP}/kept-{crate.name}"
        if os.path.isdir(f"{TOP}/begun-{crate.name}"):
            rt.linked(f"{TOP}/begun-{crate.name}", self.kept)
        os.makedirs(self.kept, exist_ok=True)
        # rt's own judgement of a try takes what a check of the functions came to, by the folder over which it was made
        self.at_hand, self.checked = {}, rt.checked
        rt.checked = lambda crate, texts, flags, kept: self.at_hand.pop(kept, None) or self.checked(crate, texts, flags, kept)

    @functools.lru_cache(maxsize=None)
    def text(self, path):
        with open(f"{self.crate.folder}/{path}", encoding="utf-8") as it:
            return it.read()

    @functools.lru_cache(maxsize=None)
    def functions(self, path):
        # a blank text has a blank for each byte, so the places are looked up in a text of as many signs
        text = self.text(path)
        blank = self.blank[path]
        if len(blank) != len(text):
            kept = blank.encode()
            blank = "".join(sign if kept.startswith(sign.encode(), at) else " " for sign, at in zip(text, offsets(text)))
        return functions(path, blank)

    @functools.lru_cache(maxsize=None)
    def starts(self, path):
        return [0, *[it.end() for it in re.finditer("\n", self.text(path))]]

    def line(self, path, at):
        return bisect.bisect_right(self.starts(path), at)

    def check(self, texts, jobs, only, kept):
        """What a check of the crate with these texts in the place of its own ended with, and its lines."""
        ran = self.checked(self.crate, texts, ["--jobs", str(jobs), *only], kept)
        if ran.returncode == -signal.SIGKILL and jobs > 1:
            # most likely for memory
            return self.check(texts, 1, only, kept)
        return ran, ran.stdout.rstrip("\n").split("\n")

    def tell(self, edit, said):
        print(f"must-fail {self.crate.name}/{edit.name}: {said}", flush=True)

    def at_one_go(self, edits):
        """Tries edits of different functions, tells of those that an open goal within their functions refuses, and answers the others."""
        changes = {}
        for edit in edits:
            for path, start, end, new in edit.places:
                changes.setdefault(path, []).append((start, end, new))
        texts = {}
        for path, its in changes.items():
            text = self.text(path)
            for start, end, new in sorted(its, reverse=True):
                text = text[:start] + new + text[end:]
            texts[path] = text
        only = [] if any(not it.only() for it in edits) else sorted({word for it in edits for word in it.only()} - {"--only"})
        ran, lines = self.check(texts, self.jobs, [word for it in only for word in ("--only", it)], self.kept)
        if not JUDGED.match(lines[-1]) or self.rt.rtlib.STALE.search(ran.stdout):
            # one of them can't be read, or the check was stopped
            half = len(edits) // 2
            return [*self.at_one_go(edits[:half]), *self.at_one_go(edits[half:])] if half else edits
        goals = {edit: edit.goals(self, lines) for edit in edits}
        told = {it for its in goals.values() for it in its}
        if any((OPEN.match(it) or ANSWER.match(it) and not OTHERS.search(it)) and it not in told for it in lines):
            # an open goal where no wrong body is: then the others' may not be their own either
            return edits
        for edit, its in goals.items():
            if its:
                self.tell(edit, f"refused, as it must be: {its[0][:160]}")
        return [edit for edit, its in goals.items() if not its]

    def alone(self, edit, whole):
        """Tries one edit by a check of its functions or of the whole crate. Answers whether it told what came of it."""
        over = tempfile.mkdtemp(prefix="alone-", dir=TOP)
        try:
            self.rt.linked(self.kept, f"{over}/kept")
            if not whole:
                ran, lines = self.check(edit.texts, 1, edit.only(), f"{over}/kept") if edit.only() else (None, [])
                if not ran or ran.returncode != 1 or not JUDGED.match(lines[-1]):
                    return False
                ran.stdout = "\n".join([*edit.goals(self, lines), *lines, "logic=not-proved"])
                self.at_hand[f"{over}/kept"] = ran
            print(self.rt.must_fail(self.crate, edit.file, ["--jobs", "1"], f"{over}/kept")[1], flush=True)
            return True
        finally:
            shutil.rmtree(over, ignore_errors=True)

    def each_alone(self, edits, whole):
        """Tries these edits one by one, and answers those of which nothing was told."""
        with ThreadPoolExecutor(self.jobs) as pool:
            told = list(pool.map(lambda edit: self.alone(edit, whole), edits))
        return [edit for edit, is_told in zip(edits, told) if not is_told]

    def groups(self, edits):
        """The edits in groups of which each has at most one wrong body of a function."""
        found = []
        for edit in edits:
            group = next((it for it in found if len(it) < AT_ONE_GO and not any(edit.keys() & other.keys() for other in it)), None)
            if group is None:
                found.append(group := [])
            group.append(edit)
        return found

    def run(self):
        edits = [Edit(self, it) for it in self.rt.edits_of(self.crate)[0]]
        for it in edits:
            if it.why:
                self.tell(it, f"BAD EDIT: {it.why}")
        edits = [it for it in edits if not it.why]
        left = [it for it in edits if not it.places]
        for group in self.groups([it for it in edits if it.places]):
            left += self.at_one_go(group)
        left = self.each_alone(left, False)
        if left or not self.is_proved:
            ran, lines = self.check({}, self.jobs, [], self.kept)
            if ran.returncode:
                print("\n".join(lines[-20:]))
                print(f"{self.crate.name} NOT PROVED as it stands, so no refusal says anything")
                return
        self.each_alone(left, True)


def offsets(text):
    at = 0
    for sign in text:
        yield at
        at += len(sign.encode())


def try_over_kept(name):
    """Tries the wrong bodies of one crate, once rt has laid out what is proved of those below it."""
    rt = load_rt("ci", "edits_of", "read_edit", "checked", "must_fail", "linked", "processors", "Crate", "Kept", "rtlib")
    ci, give, edits_of, shown, proved = rt.Crate.ci, rt.Kept.give, rt.edits_of, sys.stdout, []
    number = os.environ.get("RT_JOBS", "")

    def tried(crate, given, tests):
        if crate.name != name or tests:
            return ci(crate, given, tests)
        with contextlib.redirect_stdout(shown):
            rt.edits_of = edits_of
            Trial(rt, crate, any(proved), int(number) if number.isdigit() and int(number) else rt.processors()).run()
        # so that rt takes it for no proof
        return 1

    def kept(store, crate, tests, key):
        found = give(store, crate, tests, key)
        if crate.name == name and not tests:
            proved.append(found)
        return crate.name != name and found

    rt.edits_of = lambda crate: ([], [])
    rt.Crate.ci, rt.Kept.give = tried, kept
    with open(f"{TOP}/build.log", "w+", encoding="utf-8", errors="replace") as log:
        with contextlib.redirect_stdout(log):
            rt.ci(False, [name])
        if not proved:
            log.seek(0)
            print("".join(log.readlines()[-60:]), end="", file=sys.stderr)


def main(names):
    os.chdir(TOP)
    os.environ.pop("CI", None)
    if not rt_keeps():
        return max(subprocess.run([sys.executable, "tools/check_crate.py", it, "--must-fail"]).returncode for it in names)
    for name in names:
        if len(names) > 1:
            subprocess.run([sys.executable, os.path.abspath(__file__), name])
        else:
            try_over_kept(name)
    return 0


if __name__ == "__main__":
    sys.exit(main(sys.argv[1:]) if sys.argv[1:] else __doc__)
