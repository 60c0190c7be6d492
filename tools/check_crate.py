#!/usr/bin/env python3
"""Checks one crate of this tree over what `rt ci` or `make build` proved of the crates below, and keeps its work for the next check.

    tools/check_crate.py NAME [FLAG..]
    tools/check_crate.py NAME --must-fail [FILE.edit..]

What is not proved yet of the crates below is proved first, and kept: by rt, if it keeps what it proved, else by proofs_kept.py. `rt check` does not take
that: it makes each library below anew, which can last an hour. Flags go to the check, as `--only path::of::function` or `--jobs 2`; without them all of the crate is checked, by one job. What was
proved is kept in crates/NAME/out/incremental, so a second check does only what changed, and bench/modules.py tells what was dear in a first one.
A program is checked and not compiled. What rt says of the crates below stands in build/check.log. The status is that of the check.

With --must-fail, which a kit whose rt keeps nothing needs (else `rt must-fail NAME`), it tries the wrong bodies of crates/NAME/must-fail/, or those of the
files, which the prover has to refuse; the status is 1 if one is not.
"""
import contextlib
import os
import sys

sys.dont_write_bytecode = True
import kit
from proofs_kept import Proofs


def words_of(crate, kept, flags):
    jobs = [] if "--jobs" in flags else ["--jobs", "1"]
    return [*crate.words([*jobs, *flags], keeps=False), "--incremental", kept, "--progress"]


def check_over_ours(name, kept, flags):
    """Checks the crate, or tries its wrong bodies, over what proofs_kept.py keeps."""
    proofs = Proofs()
    crate = proofs.crates[name]
    lacking = proofs.prove_all([it.name for it in crate.below()], shown=lambda *_, **__: None)
    if lacking:
        print(f"not proved: {' '.join(lacking)}; what was said of them stands in build/", file=sys.stderr)
        return 1
    if flags[:1] == ("--must-fail",):
        edits = list(flags[1:]) or proofs.rt.edits_of(crate)[0]
        tried = proofs.rt.must_fail_all(crate, edits, ["--jobs", "1"])
        print("\n".join(text for _, text in tried))
        return int(not all(refused for refused, _ in tried))
    return crate.call(proofs.rt.rtlib.RATTLE, "check", *words_of(crate, kept, flags))


def main(name, *flags):
    kit.below(name)
    os.chdir(kit.TOP)
    os.environ.pop("CI", None)
    os.makedirs("build", exist_ok=True)
    kept = f"{kit.TOP}/crates/{name}/out/incremental"
    os.makedirs(os.path.dirname(kept), exist_ok=True)
    if not kit.rt_keeps():
        return check_over_ours(name, kept, flags)
    rt = kit.load_rt("ci", "edits_of", "Crate", "Kept", "rtlib")
    ci, give = rt.Crate.ci, rt.Kept.give
    shown, answer = sys.stdout, []

    def check(crate, given, tests):
        if crate.name != name or tests:
            return ci(crate, given, tests)
        # rt reads crate.out again, which a pipe can't do
        aside, crate.out = crate.out, shown
        answer.append(crate.call(rt.rtlib.RATTLE, "check", *words_of(crate, kept, flags)))
        crate.out = aside
        # so that rt takes it for no proof from nothing
        return 1

    rt.edits_of = lambda crate: ([], [])
    rt.Crate.ci = check
    rt.Kept.give = lambda store, crate, tests, key: crate.name != name and give(store, crate, tests, key)
    with open("build/check.log", "w+", encoding="utf-8", errors="replace") as log:
        with contextlib.redirect_stdout(log):
            rt.ci(False, [name])
        if not answer:
            log.seek(0)
            print("".join(log.readlines()[-60:]), end="", file=sys.stderr)
    return answer[0] if answer else 1


if __name__ == "__main__":
    sys.exit(main(*sys.argv[1:]) if sys.argv[1:] else __doc__)
