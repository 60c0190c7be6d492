"""rt's own functions, for the scripts of this tree that prove otherwise than its commands do, and what their processes take."""
import importlib.machinery
import importlib.util
import os
import re
import shutil
import subprocess
import sys
import threading

sys.dont_write_bytecode = True

TOP = os.path.dirname(os.path.dirname(os.path.abspath(__file__)))


def load_rt(*needed):
    """rt as a module. Ends the script if this kit's rt lacks one of the functions that are needed."""
    path = shutil.which("rt") or sys.exit("rt is not on the PATH")
    loader = importlib.machinery.SourceFileLoader("rt_main", os.path.realpath(path))
    module = importlib.util.module_from_spec(importlib.util.spec_from_loader("rt_main", loader))
    loader.exec_module(module)
    for name in needed:
        if not hasattr(module, name):
            sys.exit(f"rt of this kit has no {name}, which {os.path.basename(sys.argv[0])} calls")
    return module


def rt_keeps():
    """Whether this kit's rt keeps what it proved, and proves crates by name."""
    return hasattr(load_rt(), "Kept")


def below(name):
    """The crate and all crates of this tree that it stands on. Ends the script if there is no such crate."""
    with open(f"{TOP}/crates.txt", encoding="utf-8") as it:
        lines = {found[1]: found[2].split() for line in it if (found := re.match(r"([a-z0-9_]+)[^:#]*:(.*)", line))}
    if name not in lines:
        sys.exit(f"crates.txt has no crate {name}")
    found, new = set(), {name}
    while new:
        found |= new
        new = {it for one in new for it in lines[one] if it in lines} - found
    return found


def crate_in(words):
    """The crate that the words of a process name, or nothing."""
    return words[words.index("--crate-name") + 1] if "--crate-name" in words else ""


class Timed(subprocess.Popen):
    """A process whose processor time, its children's included, is put down once it was waited for, under what `place` says of it."""

    spent = {}
    guard = threading.Lock()

    def __init__(self, args, *others, **how):
        words = [it for it in args if isinstance(it, str)] if isinstance(args, list) else [str(args)]
        self.at = self.place(words, how.get("cwd"))
        super().__init__(args, *others, **how)

    @staticmethod
    def place(words, _folder):
        return crate_in(words)

    def note(self, used):
        with self.guard:
            self.spent[self.at] = self.spent.get(self.at, 0.0) + used.ru_utime + used.ru_stime

    def _try_wait(self, wait_flags):
        try:
            found, status, used = os.wait4(self.pid, wait_flags)
        except ChildProcessError:
            return self.pid, 0
        if found == self.pid:
            self.note(used)
        return found, status

    def _internal_poll(self, _deadstate=None, **_others):
        if self.returncode is None and self._waitpid_lock.acquire(False):
            try:
                if self.returncode is None:
                    found, status = self._try_wait(os.WNOHANG)
                    if found == self.pid:
                        self._handle_exitstatus(status)
            finally:
                self._waitpid_lock.release()
        return self.returncode
