#!/usr/bin/env python3
"""Tells where the time of a crate's check went, module by module.

    bench/modules.py CRATE [NUMBER]

First: `rm -r crates/CRATE/out/incremental; python3 tools/check_crate.py CRATE`. The check keeps what it proved as files in out/incremental,
one for each module, written as it goes. So the time between two files is what the later one took, by the clock. The NUMBER (25) dearest
modules are listed, then what each kind of module took together, and how large its files are. Seconds grow with what else the machine does; sizes
don't, and those of the Lts go with their time (their correlation was 0.8 to 0.9 in each sixth of a check of child_edge). So compare forms of a function by size. If the crate's library was built too (`rt lib`), a line of an Lts ends with
how many values are let go within the function, part by part: each is a step, on each way out (docs/CHEAP_TO_PROVE.md).

    F.Lts        the steps of the function F: grows with its calls, and with each way out that lets values go
    F.Proof      the proof that F meets its clauses; F.Answers, what was written of it
    F.Tie        what joins F's types with those of the functions that it calls
    XLemmas      a file of lemmas. One that takes more than seconds has a term whose type the prover computes at length: state that
                 step as a lemma of its own, with its type written out
    the crate    what it stands on, loaded

A check of several jobs writes modules side by side, and tells nothing here. The progress lines of `rt check` tell less: they count the
modules of a function's callers to the function that is checked first.
"""
import collections
import json
import os
import sys

TOP = os.path.dirname(os.path.dirname(os.path.abspath(__file__)))

# The last parts of a module's name that are a kind of their own.
KINDS = ("Answers", "Code", "Kinds", "Layout", "Lts", "Proof", "Reads", "Statement", "Tie")


def modules_of(crate):
    """The modules that the last check of the crate wrote, with the moment of each, in order."""
    found = []
    for folder, _, files in os.walk(f"{TOP}/crates/{crate}/out/incremental"):
        states = [(os.stat(f"{folder}/{it}"), it.removesuffix(".oantt")) for it in files if it.endswith(".oantt")]
        found += [(state.st_mtime, name, state.st_size / 1e6) for state, name in states]
    return sorted(found)


def let_go_in(crate):
    """How many values each function of the crate lets go, by the name of its module."""
    path = f"{TOP}/crates/{crate}/out/rlib/{crate}.rlib/toolchain/mir.json"
    if not os.path.isfile(path):
        return {}
    with open(path, encoding="utf-8") as it:
        functions = json.load(it)
    prefix = f"{crate}::"
    named = {name.removeprefix(prefix).replace("::", "."): json.dumps(code.get("body")) for name, code in functions}
    return {f"Rattle-{crate}-proofs.{name}.Lts": text.count('::drop"') for name, text in named.items()}


def kind_of(module, crate):
    name = module.removesuffix(".decls")
    last = name.rpartition(".")[2]
    if name == f"Rattle-{crate}":
        return "the crate"
    if name.startswith(f"Rattle-{crate}-specs"):
        return "specs"
    return last if last in KINDS else "lemmas" if last.endswith("Lemmas") else "others"


def main(crate, number="25"):
    modules = modules_of(crate)
    if len(modules) < 2:
        sys.exit(f"crates/{crate}/out/incremental has no modules: check the crate first, with --jobs 1")
    spent = [(later - earlier, name, size) for (earlier, *_), (later, name, size) in zip(modules, modules[1:])]
    let_go = let_go_in(crate)
    for seconds, name, size in sorted(spent, reverse=True)[: int(number)]:
        count = let_go.get(name.removesuffix(".decls"), 0)
        print(f"{seconds:8.1f} {size:6.2f} MB {name}{f', {count} let go' if count else ''}")
    sums, sizes = collections.Counter(), collections.Counter()
    for seconds, name, size in spent:
        sums[kind_of(name, crate)] += seconds
        sizes[kind_of(name, crate)] += size
    kinds = ", ".join(f"{kind} {s:.1f} ({sizes[kind]:.1f} MB)" for kind, s in sums.most_common())
    print(f"{sum(sums.values()):8.1f} in all, {len(modules)} modules: {kinds}")


if __name__ == "__main__":
    main(*sys.argv[1:])
