#!/usr/bin/env python3
"""Lists each public function with a clause that no program calls: what it promises is in no program.

    tests/uncalled.py

A promise counts where a program makes the call. Product code is that of all crates but those of TESTS. A law is a contract without a body, so it is
left out. A call is looked for by its name, in the crate that has the function and in those that stand on that crate:

- Within the type that has it, only `self.name(..)` is one: `self.part.name(..)` is a call of the part. In a type that has another method of that name,
  `self.name(..)` is a call of that.
- If `Type::name(..)` is written, the type has to be that of the function, or a parameter.
- A name that a crate only imports or hands on is no call.

Types are not followed: a call of another type's function of the same name counts, so the list may be too short. It is never too long by that.
WHY says of each function that is left why it is there. One line a fault: a function that is neither called nor listed, or one that is listed and
called, or is no more. The status is 1 if there is one.
"""
import os
import re
import sys

TOP = os.path.dirname(os.path.dirname(os.path.abspath(__file__)))
TESTS = {"trials", "try_replay"}

# `crate::function`, or `crate::Type::function`, and why it stands though no program calls it.
ONE_EVENT = "one kind of event alone, as the table is specified; the programs hand in all by `take`, whose contract has these clauses too"
IN_MEMORY = "the edge in memory, over which trials try what is above it"
ASKED_BY_TRIALS = "trials ask it"
WHY = {
    **{
        f"job_table::JobTable::{name}": ONE_EVENT
        for name in "stop kickstart came left spawned spawn_refused term_answered kill_answered wait_refused shutdown saw".split()
    },
    **{f"child_edge::MemoryEdge::{name}": IN_MEMORY for name in ("new", "calls", "failures")},
    "job_core::JobCore::decided": "how often a job was asked: contracts above read it as a field, trials by this call",
    "launcher::Host::into_parts": ASKED_BY_TRIALS,
    "launcher::Journal::cause": ASKED_BY_TRIALS,
    "live_loop::Live::into_host": ASKED_BY_TRIALS,
    "look_out::crossed": "the law that an answer crosses the socket as it was given: it makes the two calls that the programs make",
    "override_store::all_again": "that a store which is opened again has its settings is told by it",
    "override_store::has_one_setting": "a store that is read again after a crash, as trials stop it",
    "override_store::opened": "a store that is never opened anew, on which the laws of `override_store` and the yardstick stand",
    "override_store::opened_again": "a store that is never opened anew, on which the laws of `override_store` and the yardstick stand",
    "round_laws::round": "it ties the laws of rounds to the call that `jobd` makes, `live_loop::round`",
}

COMMENT = re.compile(r"//[^\n]*")
TEXT = re.compile(r'b?"(?:[^"\\]|\\.)*"')
BLOCK = re.compile(r"(?m)^(?:pub(?:\([a-z]+\))? )?(impl|trait|mod)\b([^{;]*)\{")
HEAD = re.compile(r"(?m)^([ \t]*)((?:pub(?:\([a-z]+\))? )?)(?:const )?fn (\w+)")
ENSURES = re.compile(r"^\s*ensures\b", re.M)
TYPE = re.compile(r"(?:\bfor )?\s*(?:<[^{]*?>\s*)?(\w+)(?:<|\s|$)")


def uses_of():
    """The crates of ours that each crate stands on, itself among them. They stand lowest first."""
    uses = {}
    with open(f"{TOP}/crates.txt", encoding="utf-8") as lines:
        for line in lines:
            head, colon, names = line.partition(":")
            if colon and not line.startswith("#"):
                own = head.split()[0]
                uses[own] = {own}.union(*(uses.get(it, set()) for it in names.split()))
    return uses


def parts_of(text):
    """Of each struct of the text the type of each field, without what it stands in."""
    for it in re.finditer(r"(?m)^(?:pub(?:\([a-z]+\))? )?struct (\w+)[^{;]*\{(.*?)^\}", text, re.S):
        for field, kind in re.findall(r"(?m)^    (?:pub(?:\([a-z]+\))? )?(\w+): ([^\n]*)", it[2]):
            yield it[1], field, set(re.findall(r"\b[A-Z]\w*", kind))


def bare(text):
    """Without comments and what stands in texts, at the same places."""
    blank = lambda it: re.sub(r"[^\n]", " ", it[0])
    return COMMENT.sub(blank, TEXT.sub(blank, text))


def body_of(text, start):
    """Where the body of the function whose head begins there begins and ends, in code that is laid out: at the brace at the head's margin."""
    margin = re.match(r"[ \t]*", text[start:])[0]
    end = re.compile(rf"(?m)^{margin}\}}").search(text, start)
    last = end.end() if end else len(text)
    first = re.compile(rf"(?m)^{margin}\{{|\{{[ \t]*$|\{{[^{{}}\n]*\}}$").search(text, start, last)
    own = re.compile(rf"(?m)^{margin}\{{").search(text, start, last)
    one = own or first
    if one is None:
        return last, last
    line = re.compile(r"[^\n]*").match(text, one.start())
    return one.start(), line.end() if line[0].rstrip().endswith("}") else last


def owner_of(text, at):
    """The type whose impl the place is in, if it is in one; and whether that is a trait's."""
    last = None
    for it in BLOCK.finditer(text, 0, at):
        last = it
    if last is None or re.search(r"(?m)^\}", text[last.end() : at]):
        return None, False
    what = re.sub(r"<[^<>]*>", "", re.sub(r"<[^<>]*>", "", last[2].split(" where")[0]))
    own = what.split(" for ")[-1].split()
    return (re.sub(r"\W.*", "", own[0]) if own else None), "trait" if last[1] == "trait" else " for " in what


def functions():
    """Each function of product code: its crate, type, name, file, line, body, and whether it is public and has a clause."""
    found, parts = [], {}
    for crate in sorted(os.listdir(f"{TOP}/crates")):
        for at, _, names in os.walk(f"{TOP}/crates/{crate}/src"):
            for name in sorted(names):
                if not name.endswith(".rt"):
                    continue
                path = f"{at}/{name}"
                with open(path, encoding="utf-8") as it:
                    text = bare(it.read())
                for kind, field, kinds in parts_of(text):
                    parts[crate, kind, field] = kinds
                for head in HEAD.finditer(text):
                    first, last = body_of(text, head.start())
                    owner, of_trait = owner_of(text, head.start())
                    if of_trait == "trait":
                        first = last
                    has_clause = ENSURES.search(text, head.end(), first) is not None
                    is_law = text[first:last].strip() in ("{}", "{\n}") or name == "laws.rt"
                    is_public = head[2].strip() == "pub" and not of_trait and has_clause and not is_law
                    line = text.count("\n", 0, head.start()) + 1
                    found.append((crate, owner, head[3], os.path.relpath(path, TOP), line, text[first:last], is_public))
    return found, parts


def calls_in(found):
    """Of each name the calls: the crate and the function that it is made in, and what stands before it."""
    calls = {}
    call = re.compile(r"((?:\b\w+(?:::<[^>]*>)?::)|\bself\s*\.\s*(?:\w+\s*\.\s*)?|\.)?\b([a-z_]\w*)(?=\(|::<|\s*[,)])")
    for crate, owner, _, path, line, body, _ in found:
        for it in call.finditer(body):
            if it[1] or body[it.end() : it.end() + 1] == "(" or body[it.end() : it.end() + 3] == "::<":
                before = re.sub(r"\s", "", it[1] or "")
                calls.setdefault(it[2], []).append((crate, owner, (path, line), before))
    return calls


def is_called(crate, owner, name, place, calls, uses, owners, parts):
    for by, within, where, before in calls.get(name, ()):
        is_own = (by, within) == (crate, owner)
        if by in TESTS or crate not in uses.get(by, ()) or where == place:
            continue
        of = re.sub(r"(?:::<[^>]*>)?::$", "", before) if before.endswith("::") else ""
        if of and of[0].isupper() and len(of) > 1 and of != owner and not (is_own and of == "Self"):
            continue
        kinds = parts.get((by, within, before[len("self.") : -1])) if before.startswith("self.") else None
        if before == "." and is_own or kinds and owner not in kinds and any(len(it) > 1 for it in kinds):
            continue
        if before == "self." and not is_own and (by, within) in owners.get(name, ()):
            continue
        return True
    return False


def main():
    (found, parts), uses = functions(), uses_of()
    calls, owners = calls_in(found), {}
    for crate, owner, name, *_ in found:
        owners.setdefault(name, set()).add((crate, owner))
    faults, listed, seen = [], 0, set()
    for crate, owner, name, path, line, _, is_public in found:
        if crate in TESTS or not is_public:
            continue
        whole = "::".join(it for it in (crate, owner, name) if it)
        called = is_called(crate, owner, name, (path, line), calls, uses, owners, parts)
        if whole in WHY:
            seen.add(whole)
            listed += 1
            if called:
                faults.append(f"{path}:{line}: {whole} is called, and WHY lists it")
        elif not called:
            faults.append(f"{path}:{line}: no program calls {whole}, which has a clause")
    faults += [f"tests/uncalled.py: WHY lists {it}, and there is no such function" for it in sorted(set(WHY) - seen)]
    print("\n".join([*faults, f"{listed} listed as uncalled, {len(faults)} faults"]))
    return 1 if faults else 0


if __name__ == "__main__":
    sys.exit(main())
