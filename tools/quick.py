#!/usr/bin/env python3
"""Makes the three programs of this tree without any proof, for who only wants to look: build/quick/jobd, with jobctl and jobscope as links to it.

    tools/quick.py [--unchecked]

Each says at its start, on standard error, that it is not proved. Some of what a proof would have shown is looked at while they run: the requirements of
calls that `rt try` can look at, and in the crates of this tree sums that wrap, casts that lose bits, zero divisors. Such a fault ends the program
(SIGILL). With --unchecked nothing is looked at; then a fault may do anything. A clock line takes 1.3 times the instructions of the proved
program, and 1.05 times without checks.

`rt try` compiles without a proof, with all that it looks at while it runs, and so slowly that nobody could use it. It is called here in a folder that is
laid out as the kit is, with the kit's own files but for two: a `clang` that keeps the module which rt hands it and then fails, so that rt
ends there, and a `rattle` that does nothing (rt asks it for a hint beside). In the module's text four things are changed (quick_module.py): the filling of
each local with bytes of no meaning goes; what the kit's LLVM backend checks of its own work, as the alignment of a place, goes; a requirement that is
not met ends the program, where it was a call; and the functions get the words on inlining that stand in the kit's sources, as a proved build
gives them. Then the kit's clang compiles it as it does a proved program, in two halves side by side, and the kit's linker makes the program of it.

This rests on what no page of the kit promises: see docs/KIT_LIMITS.md. Where the kit's rt behaves otherwise the script says what it missed, and nothing
is left in build/quick. Nothing is written in the tree but build/quick.
"""
import os
import re
import resource
import shutil
import subprocess
import sys
import tempfile
import time

sys.dont_write_bytecode = True
import quick_module

TOP = os.path.dirname(os.path.dirname(os.path.abspath(__file__)))
PROGRAM = "jobd_program"
NAMES = ("jobd", "jobctl", "jobscope")
TARGET = "x86_64-unknown-linux-gnu"
# A line of progress so often, in seconds.
OFTEN = 10
# What the proved build gives clang beside its level.
FLAGS = "-ffunction-sections -fdata-sections -mllvm -no-x86-call-frame-opt -mllvm -sink-common-insts=false -Xclang -fmerge-functions".split()
CLANG = """#!/bin/sh
# rt calls clang for an empty module first, to see whether it works, and then for the program, with a sanitizer.
case " $* " in
*" -fsanitize="*) mv module.bc '{module}' && echo 'quick: the module is kept' >&2; exit 1 ;;
*) exec '{kit}/toolchain/bin/clang' "$@" ;;
esac
"""
# Runs before main. A launcher starts its look-out under a name of its own, which says nothing.
SAID = r"""
extern long write(int, const void *, unsigned long);
extern int strcmp(const char *, const char *);
extern unsigned long strlen(const char *);
extern char *getenv(const char *);
__attribute__((constructor)) static void say(int count, char **words) {
    static const char text[] = ": not proved (make quick made it; make build proves it)\n";
    const char *name = count > 0 ? words[0] : "jobd";
    for (const char *at = name; *at; at++)
        if (*at == '/')
            name = at + 1;
    if (strcmp(name, "jobd-look-out") != 0 && !getenv("QUICK_IS_QUIET")) {
        write(2, name, strlen(name));
        write(2, text, sizeof text - 1);
    }
}
"""


class OtherKit(SystemExit):
    """rt does not do what the script rests on: with this kit nothing can be compiled so. It ends a script as SystemExit does, and has the reason."""


class Clock:
    """Says every ten seconds what is being done, and at the end of each part what it took."""

    def __init__(self):
        self.start = self.shown = time.monotonic()

    def say(self, text):
        self.shown = time.monotonic()
        print(f"quick: {self.shown - self.start:4.0f} s  {text}", flush=True)

    def run(self, what, *commands, may_fail=False, **how):
        """Runs processes side by side to their ends, and gives what they wrote. Ends the script if one failed."""
        self.say(what)
        before = used()
        with tempfile.TemporaryFile("w+", encoding="utf-8", errors="replace") as said:
            ran = [subprocess.Popen(words, stdin=subprocess.DEVNULL, stdout=said, stderr=subprocess.STDOUT, **how) for words in commands]
            try:
                for one in ran:
                    self.wait(one, what)
            finally:
                for one in ran:
                    if one.poll() is None:
                        # so that rt ends what it started, too
                        one.terminate()
                    one.wait()
            said.seek(0)
            text = said.read()
        self.say(f"  {used() - before:.0f} processor seconds")
        if any(one.returncode for one in ran) and not may_fail:
            sys.exit(f"{text[-4000:]}quick: this failed: {what}")
        return text

    def wait(self, one, what):
        while True:
            try:
                one.wait(max(0.1, self.shown + OFTEN - time.monotonic()))
                return
            except subprocess.TimeoutExpired:
                self.say(f"{what} ..")


def used():
    return sum(it.ru_utime + it.ru_stime for it in map(resource.getrusage, (resource.RUSAGE_SELF, resource.RUSAGE_CHILDREN)))


def kit_folder():
    """The kit's folder, by the page that `rt doc` names."""
    if not shutil.which("rt"):
        sys.exit("rt is not on the PATH: install the Rattle kit (README, From source)")
    return os.path.dirname(subprocess.run(["rt", "doc"], check=True, capture_output=True, text=True).stdout.strip())


def put(path, text, mode=0o644):
    with open(path, "w", encoding="utf-8") as out:
        out.write(text)
    os.chmod(path, mode)


def lay_out(kit, folder, module):
    """Lays out a folder as the kit is, of links to it. rt finds its kit by the place of its own file, so its two files are copied."""
    os.makedirs(f"{folder}/bin")
    os.makedirs(f"{folder}/toolchain/bin")
    put(f"{folder}/toolchain/bin/clang", CLANG.format(kit=kit, module=module), 0o755)
    put(f"{folder}/bin/rattle", "#!/bin/sh\nexit 0\n", 0o755)
    for name in ("rt", "rtlib.py"):
        shutil.copy(f"{kit}/bin/{name}", f"{folder}/bin/{name}")
    for below in ("", "bin/", "toolchain/", "toolchain/bin/"):
        for name in os.listdir(f"{kit}/{below}"):
            if not os.path.lexists(f"{folder}/{below}{name}"):
                os.symlink(f"{kit}/{below}{name}", f"{folder}/{below}{name}")


def module_of(clock, kit, clang, room, program, top):
    """The program's module as text, with all that a try looks at, as the path of a file. A source that does not compile ends the script."""
    module, text = f"{room}/module.bc", f"{room}/module.ll"
    lay_out(kit, f"{room}/kit", module)
    said = clock.run("the sources are read and compiled to one module", [f"{room}/kit/bin/rt", "try"], may_fail=True,
                     cwd=f"{top}/crates/{program}", env={**os.environ, "TMPDIR": room})
    if not os.path.isfile(module):
        why = f"{said[-4000:]}quick: rt try made no module"
        raise SystemExit(why) if re.search(r": error\[", said) else OtherKit(why)
    clock.run("the module is written as text", [*clang, "-S", "-emit-llvm", "-Xclang", "-disable-llvm-passes", "-O2", "-x", "ir", module, "-o", text])
    return text


def halves_of(clock, kit, text, room, is_checked, top):
    """The module's text, loosened and in two, as the paths of files."""
    clock.say("what a try looks at is taken out, and the module is cut in two")
    before = used()
    libraries = {it: f"{kit}/rattle/{it}/src" for it in os.listdir(f"{kit}/rattle") if os.path.isdir(f"{kit}/rattle/{it}/src")}
    own = {it: f"{top}/crates/{it}/src" for it in os.listdir(f"{top}/crates")}
    try:
        with open(text, "rb") as it:
            loose = quick_module.loosened(it.read(), quick_module.hints_of({**libraries, **own}), own, is_checked)
    except quick_module.OtherForm as why:
        raise OtherKit(str(why)) from why
    paths = [f"{room}/rest.ll", f"{room}/store.ll"]
    for path, half in zip(paths, quick_module.in_two(loose)):
        with open(path, "wb") as out:
            out.write(half)
    clock.say(f"  {used() - before:.0f} processor seconds")
    return paths


def build(clock, program, path, is_checked, top=TOP, level="-O2"):
    """Makes the program of this crate of the tree at `top`, at the path. `level` is clang's, and decides how quick the program is."""
    kit = kit_folder()
    clang = [f"{kit}/toolchain/bin/clang", f"--target={TARGET}", "--no-default-config"]
    with tempfile.TemporaryDirectory(prefix="quick-") as room:
        halves = halves_of(clock, kit, module_of(clock, kit, clang, room, program, top), room, is_checked, top)
        compiled = [f"{path}.o" for path in halves]
        clock.run("clang compiles both halves", *([*clang, level, *FLAGS, "-fPIE", "-c", "-x", "ir", *it] for it in zip(halves, ["-o"] * 2, compiled)))
        put(f"{room}/said.c", SAID)
        clock.run("the line that says that it is not proved", [*clang, "-O1", "-ffreestanding", "-fPIE", "-c", f"{room}/said.c", "-o", f"{room}/said.o"])
        os.makedirs(os.path.dirname(path), exist_ok=True)
        link = [f"{kit}/bin/rattle-link", "--target", TARGET, "--toolchain", f"{kit}/toolchain", "-o", path, *compiled, f"{room}/said.o"]
        clock.run("it is linked", [*link, f"{kit}/c/libos_c.a", f"{kit}/c/liblibc_c.a"])


def main(words):
    if words not in ([], ["--unchecked"]):
        sys.exit(__doc__)
    clock, out = Clock(), f"{TOP}/build/quick"
    shutil.rmtree(out, ignore_errors=True)
    build(clock, PROGRAM, f"{out}/jobd", not words)
    # Hard links: the gate of kit 13b stops at a symbolic one in any folder here.
    for name in NAMES[1:]:
        os.link(f"{out}/jobd", f"{out}/{name}")
    clock.say(f"build/quick has {', '.join(NAMES)}, which are not proved; {used() / 60:.1f} processor minutes")
    return 0


if __name__ == "__main__":
    sys.exit(main(sys.argv[1:]))
