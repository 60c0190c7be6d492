#!/usr/bin/env python3
"""Definitions made at random that a load refuses: does `jobscope check` name each of their faults, the first one first, and each at its place?

    random_definitions.py [COUNT] [--seed SEED] [--jobscope WORDS] [-v]

Of each of COUNT definitions (20,000 if absent) `check` names the fault for which a load refuses it (`error`), and the further ones (`also`). The script
finds the first fault by a reader of its own, which follows the table of keys in docs/DEFINITIONS.md in the order of `read_def`. It mends that fault alone
and checks the file again, until no fault is left. Each time the first line has to name the fault that the reader finds, and an earlier check must have
printed this line too, as `also`. At the place that a line names the file has to have a value as the line says. Some keys are spelled with escapes. WORDS
start jobscope (build/quick/jobscope if absent), or a program that takes the paths of the files alone, if the last word is `-`. The exit status is 1 if a
fault is not named so; -v prints each of them, else the first five are printed.
"""
import argparse
import collections
import json
import os
import random
import re
import shlex
import subprocess
import sys
import tempfile

TOP = os.path.dirname(os.path.dirname(os.path.abspath(__file__)))
AT_ONCE = 500
CONDITIONS = ("Crashed", "PathState", "SuccessfulExit")
PARTS = {"Day": (1, 31), "Hour": (0, 23), "Minute": (0, 59), "Month": (1, 12), "Weekday": (0, 7)}
FLAGS_BEFORE = ("RunAtLoad", "LaunchOnlyOnce", "Disabled", "OnDemand")
PATHS = ("WorkingDirectory", "StandardInPath", "StandardOutPath", "StandardErrorPath")
REFUSED = ("UserName", "GroupName", "RootDirectory")
ADDRESS = {"SockServiceName": 7007}


def size(text):
    return len(text.encode())


def is_text(value, low, high):
    return isinstance(value, str) and low <= size(value) <= high and "\0" not in value


def is_whole(value, low, high):
    return isinstance(value, int) and not isinstance(value, bool) and low <= value <= high


def is_number_in(text, digits, low, high):
    return re.fullmatch(f"[0-9]{{1,{digits}}}", text, re.A) is not None and low <= int(text) <= high


def listed(value):
    return value if isinstance(value, list) else [value]


def setter(holder, key, value):
    """What puts the value there."""
    def put():
        holder[key] = value
    return put


def cutter(items, count):
    """What leaves so many of the members, the first by their place or their name."""
    def cut():
        if isinstance(items, list):
            del items[count:]
        else:
            for name in sorted(items)[count:]:
                del items[name]
    return cut


def renamer(members, name, new, value):
    def rename():
        del members[name]
        members[new] = value
    return rename


class Reader:
    """The faults of a definition in the order of a load, each with the front of its line and with what mends it. Whoever takes the first and mends it has
    to ask anew."""

    def __init__(self, definition):
        self.all = definition

    def label(self):
        of = self.all
        if "Label" not in of:
            yield "Label is missing", setter(of, "Label", "a")
        elif not is_text(of["Label"], 1, 255) or re.search(r"[/\x00-\x1f\x7f]", of["Label"]):
            yield "Label is ", setter(of, "Label", "a")

    def program(self):
        if "Program" in self.all and not is_text(self.all["Program"], 1, 4096):
            yield "Program is ", setter(self.all, "Program", "/bin/sh")

    def arguments(self):
        of, key = self.all, "ProgramArguments"
        if key not in of:
            if "Program" not in of:
                yield f"{key} is missing", setter(of, key, ["/bin/sh"])
            return
        words = of[key]
        if not isinstance(words, list):
            yield f"{key} is ", setter(of, key, ["/bin/sh"])
            return
        if len(words) > 256:
            yield f"{key} is an array of {len(words)}", cutter(words, 256)
        if not words and "Program" not in of:
            yield f"{key} is empty", setter(of, key, ["/bin/sh"])
        for at, word in enumerate(words):
            if not is_text(word, 1 if at == 0 and "Program" not in of else 0, 4096):
                yield f"{key}: member {at + 1} is ", setter(words, at, "x")

    def flag(self, key):
        if key in self.all and not isinstance(self.all[key], bool):
            yield f"{key} is ", setter(self.all, key, True)

    def number(self, key, low, high):
        if key in self.all and not is_whole(self.all[key], low, high):
            yield f"{key} is ", setter(self.all, key, low)

    def keep_alive(self):
        of = self.all.get("KeepAlive", True)
        if not isinstance(of, (bool, dict)):
            yield "KeepAlive is ", setter(self.all, "KeepAlive", True)
        if not isinstance(of, dict):
            return
        for key in CONDITIONS:
            if key not in of:
                continue
            found = of[key]
            if key != "PathState":
                if not isinstance(found, bool):
                    yield f"KeepAlive: {key} is ", setter(of, key, True)
                continue
            if not isinstance(found, dict):
                yield f"KeepAlive: {key} is ", setter(of, key, {})
                continue
            if len(found) > 64:
                yield f"KeepAlive: {key} is an object of {len(found)}", cutter(found, 64)
            for path in sorted(found):
                front = f"KeepAlive: {key}: {path} is "
                if not is_text(path, 1, 1024):
                    yield front, renamer(found, path, f"/mended/{len(found)}/{size(path)}", found[path])
                elif not isinstance(found[path], bool):
                    yield front, setter(found, path, False)

    def before(self, key):
        """How many paths a load counted before those of the key."""
        conditions = self.all.get("KeepAlive")
        states = conditions.get("PathState", {}) if isinstance(conditions, dict) else {}
        return len(states) + (len(self.all.get("WatchPaths", [])) if key == "QueueDirectories" else 0)

    def paths(self, key):
        of = self.all
        if key not in of:
            return
        if not isinstance(of[key], list):
            yield f"{key} is ", setter(of, key, [])
            return
        room = 64 - self.before(key)
        if len(of[key]) > room:
            yield f"{key} is an array of {len(of[key])}", cutter(of[key], room)
        for at, path in enumerate(of[key]):
            if not is_text(path, 1, 1024):
                yield f"{key}: member {at + 1} is ", setter(of[key], at, "/x")

    def calendar(self):
        key = "StartCalendarInterval"
        if key not in self.all:
            return
        found = self.all[key]
        if len(listed(found)) > 64:
            yield f"{key} is an array of {len(found)}", cutter(found, 64)
        for at, entry in enumerate(listed(found)):
            if not isinstance(entry, dict):
                if isinstance(found, list):
                    yield f"{key}: member {at + 1} is ", setter(found, at, {"Hour": 1})
                else:
                    yield f"{key} is ", setter(self.all, key, {"Hour": 1})
                continue
            for part, (low, high) in PARTS.items():
                if part in entry and not is_whole(entry[part], low, high):
                    yield f"{key}: {part} is ", setter(entry, part, low)

    def variables(self):
        key = "EnvironmentVariables"
        if key not in self.all:
            return
        of = self.all[key]
        if not isinstance(of, dict):
            yield f"{key} is ", setter(self.all, key, {})
            return
        if len(of) > 128:
            yield f"{key} is an object of {len(of)}", cutter(of, 128)
        for name in sorted(of):
            if not is_text(name, 1, 255) or "=" in name:
                yield f"{key}: {name} is ", renamer(of, name, f"MENDED{len(of)}_{size(name)}", "x")
            elif isinstance(of[name], str) and not is_text(of[name], 0, 4096):
                yield f"{key}: {name} is ", setter(of, name, "x")

    def path(self, key):
        if key in self.all and not is_text(self.all[key], 1, 1024):
            yield f"{key} is ", setter(self.all, key, "/x")

    def sockets(self):
        key = "Sockets"
        if key not in self.all:
            return
        of = self.all[key]
        if not isinstance(of, dict):
            yield f"{key} is ", setter(self.all, key, {"Mended": dict(ADDRESS)})
            return
        places = self.places(of)
        if len(places) > 8:
            def cut():
                for name, at in reversed(places[8:]):
                    if isinstance(of[name], list):
                        del of[name][at]
                    else:
                        del of[name]
            yield f"{key} is an object of {len(places)} sockets", cut
        for name, at in places:
            holder, index = (of[name], at) if isinstance(of[name], list) else (of, name)
            yield from self.socket(f"{key}: {name}", holder, index)

    @staticmethod
    def places(sockets):
        return [(name, at) for name in sorted(sockets) for at in range(len(listed(sockets[name])))]

    @staticmethod
    def socket(front, holder, index):
        of = holder[index]
        if not isinstance(of, dict):
            yield f"{front} is ", setter(holder, index, dict(ADDRESS))
            return
        if "SecureSocketWithKey" in of:
            yield f"{front}: SecureSocketWithKey is ", lambda: of.pop("SecureSocketWithKey")
        for key, suits, right in (
            ("SockType", lambda it: it == "stream", "stream"),
            ("SockPassive", lambda it: it is True, True),
            ("SockFamily", lambda it: it in ("IPv4", "Unix"), "IPv4"),
            ("SockProtocol", lambda it: it == "TCP", "TCP"),
            ("SockPathName", lambda it: is_text(it, 1, 107), "/s"),
            ("SockNodeName", is_host, "localhost"),
            ("SockServiceName", is_port, 7007),
        ):
            if key in of and not suits(of[key]):
                yield f"{front}: {key} is ", setter(of, key, right)
        if "SockPathName" not in of and "SockServiceName" not in of:
            yield f"{front} is ", setter(of, "SockServiceName", 7007)

    def inetd(self):
        key = "inetdCompatibility"
        sockets = self.all.get("Sockets")
        has_sockets = isinstance(sockets, dict) and bool(self.places(sockets))
        right = {"Wait": False}
        if key not in self.all:
            if has_sockets:
                yield f"{key} is missing", setter(self.all, key, right)
            return
        of = self.all[key]
        if not isinstance(of, dict) or (has_sockets and "Wait" not in of):
            yield f"{key} is ", setter(self.all, key, right)
        elif "Wait" in of and not (of["Wait"] is False or (of["Wait"] is True and not has_sockets)):
            yield f"{key}: Wait is ", setter(of, "Wait", False)

    def refused(self, key):
        if key in self.all:
            yield f"{key}: ", lambda: self.all.pop(key)

    def faults(self):
        yield from self.label()
        yield from self.program()
        yield from self.arguments()
        for key in FLAGS_BEFORE:
            yield from self.flag(key)
        yield from self.keep_alive()
        yield from self.paths("WatchPaths")
        yield from self.paths("QueueDirectories")
        yield from self.number("StartInterval", 1, 31_536_000)
        yield from self.calendar()
        yield from self.number("ThrottleInterval", 0, 86_400)
        yield from self.number("ExitTimeOut", 0, 86_400)
        yield from self.variables()
        for key in PATHS:
            yield from self.path(key)
        yield from self.sockets()
        yield from self.inetd()
        for key in REFUSED:
            yield from self.refused(key)


def is_host(value):
    if not isinstance(value, str):
        return False
    parts = value.split(".")
    return value == "localhost" or (len(parts) == 4 and all(is_number_in(part, 3, 0, 255) for part in parts))


def is_port(value):
    return is_number_in(value, 5, 1, 65_535) if isinstance(value, str) else is_whole(value, 1, 65_535)


class Maker:
    """Makes one definition at random. Each value is right, or wrong in kind, length, range or form."""

    def __init__(self, chance):
        self.chance = chance

    def other(self):
        return self.chance.choice((None, 5, -1, 1.5, 2**64, "x", "", [], {}, ["x"], {"x": 1}, True, False))

    def wrong(self, right):
        return self.other() if self.chance.random() < 0.3 else right

    def text(self, low, high):
        return self.chance.choice(("x", "x", "/x y", "x" * high, "x" * high, "x" * (high + 1), "a\0b", "" if low else "z", "é" * (high // 2 + 1)))

    def number(self, low, high):
        return self.chance.choice((low, high, low - 1, high + 1, low + 1, float(low), str(low)))

    def count(self):
        return self.chance.choice((0, 1, 1, 2, 3, 24, 33, 63, 64, 65, 70))

    def flag(self):
        return self.wrong(self.chance.choice((True, False)))

    def keep_alive(self):
        made = {}
        for key in self.chance.sample(CONDITIONS, self.chance.choice((1, 2, 3))):
            made[key] = self.flag()
        if "PathState" in made:
            paths = {f"/p{n}": self.chance.random() < 0.98 or self.other() for n in range(self.count())}
            if self.chance.random() < 0.3:
                paths[self.text(1, 1024)] = True
            made["PathState"] = self.wrong(paths)
        return self.wrong(made)

    def paths(self):
        return self.wrong([self.text(1, 1024) if self.chance.random() < 0.03 else f"/p{n}" for n in range(self.count())])

    def arguments(self):
        count = self.chance.choice((0, 1, 2, 3, 256, 257, 300))
        return self.wrong([self.text(0, 4096) if self.chance.random() < 3 / (count + 3) else "x" for _ in range(count)])

    def entry(self):
        return self.wrong({part: self.wrong(self.number(*PARTS[part])) for part in self.chance.sample(list(PARTS), self.chance.choice((0, 1, 2)))})

    def calendar(self):
        if self.chance.random() < 0.4:
            return self.entry()
        return [self.entry() if n < 3 else {"Hour": n % 24} for n in range(self.count())]

    def variables(self):
        made = {f"V{n}": self.wrong("x") for n in range(self.chance.choice((0, 1, 2, 3, 127, 128, 129, 140)))}
        for _ in range(self.chance.choice((0, 1, 2))):
            made[self.chance.choice((self.text(1, 255), "a=b", "W"))] = self.text(0, 4096)
        return self.wrong(made)

    def socket(self):
        made = {}
        if self.chance.random() < 0.8:
            made["SockServiceName"] = self.wrong(self.chance.choice((1, 65_535, "80", "00080", "0", "000080", 65_536, 0, "http", "65536", " 80")))
        if self.chance.random() < 0.3:
            made["SockPathName"] = self.wrong(self.text(1, 107))
        if self.chance.random() < 0.3:
            made["SockNodeName"] = self.wrong(self.chance.choice(("localhost", "127.0.0.1", "256.0.0.1", "1.2.3", "1.2.3.4.5", "::1", "01.2.3.004", "1..2.3")))
        for key, values in (("SockType", ("stream", "dgram")), ("SockPassive", (True, False)), ("SockFamily", ("IPv4", "Unix", "IPv6")), ("SockProtocol", ("TCP", "UDP")),
                            ("SecureSocketWithKey", ("K",))):
            if self.chance.random() < 0.12:
                made[key] = self.wrong(self.chance.choice(values))
        return self.wrong(made)

    def sockets(self):
        made = {}
        for n in range(self.chance.choice((0, 1, 1, 2, 3, 9))):
            made[f"S{n}"] = self.chance.choice((self.socket, lambda: [self.socket() for _ in range(self.chance.choice((0, 1, 2, 4, 9)))]))()
        return self.wrong(made)

    def definition(self):
        makers = {
            "Label": lambda: self.wrong(self.chance.choice(("a", "a", "org.example.a", "a/b", "a\tb", "x" * 255, "x" * 256, ""))),
            "Program": lambda: self.wrong(self.text(1, 4096)), "ProgramArguments": self.arguments, "KeepAlive": self.keep_alive, "WatchPaths": self.paths,
            "QueueDirectories": self.paths, "StartInterval": lambda: self.wrong(self.number(1, 31_536_000)), "StartCalendarInterval": self.calendar,
            "ThrottleInterval": lambda: self.wrong(self.number(0, 86_400)), "ExitTimeOut": lambda: self.wrong(self.number(0, 86_400)),
            "EnvironmentVariables": self.variables, "Sockets": self.sockets, "inetdCompatibility": lambda: self.wrong({"Wait": self.flag()} if self.chance.random() < 0.8 else {}),
            **{key: self.flag for key in FLAGS_BEFORE}, **{key: lambda: self.wrong(self.text(1, 1024)) for key in PATHS}, **{key: self.other for key in REFUSED},
        }
        made = {}
        for key, make in makers.items():
            often = 0.85 if key in ("Label", "Program", "ProgramArguments") else 0.05 if key in REFUSED else 0.25
            if self.chance.random() < often:
                made[key] = make()
        return made


def written(value, chance):
    """A value as JSON on one line. One key in eight is spelled with escapes."""
    if isinstance(value, dict):
        return "{" + ", ".join(f"{key_written(key, chance)}: {written(of, chance)}" for key, of in value.items()) + "}"
    if isinstance(value, list):
        return "[" + ", ".join(written(of, chance) for of in value) + "]"
    return json.dumps(value)


def key_written(key, chance):
    if chance.random() < 0.875 or len(key) > 40:
        return json.dumps(key)
    return '"' + "".join(f"\\u{ord(it):04x}" if ord(it) < 0x10000 and chance.random() < 0.5 else json.dumps(it)[1:-1] for it in key) + '"'


def is_there(text, column, told):
    """Whether the text has at the column a value as the line says. Lines on a key that is absent or not to be there say nothing of a value."""
    found = re.search(r" is (.*), expected ", told, re.S)
    if not found:
        return True
    shown, begin = found[1], text[column - 1:]
    for words, sign in (("an array of ", "["), ("an object of ", "{"), ("a string of ", '"'), ("an empty string", '""'), ('"', '"')):
        if shown.startswith(words):
            return begin.startswith(sign)
    return begin[:1] not in ('"', "[", "{", "") and json.JSONDecoder().raw_decode(begin)[0] == json.loads(shown)


def checked(words, definitions, chance):
    """Of each definition the lines that a check prints, as (severity, text, whether the place is right)."""
    texts = [written(definition, chance) for definition in definitions]
    with tempfile.TemporaryDirectory() as folder:
        for n, text in enumerate(texts):
            with open(os.path.join(folder, f"{n}.json"), "w", encoding="utf-8") as file:
                file.write(text)
        front = words[:-1] if words[-1] == "-" else [*words, "check", "--utc"]
        ran = subprocess.run([*front, *[f"{n}.json" for n in range(len(definitions))]], cwd=folder, capture_output=True, timeout=600)
    if ran.returncode not in (0, 1):
        sys.exit(f"random_definitions: status {ran.returncode}: {ran.stderr[:300]}")
    lines = [[] for _ in definitions]
    for line in ran.stdout.decode().split("\n"):
        if found := re.match(r"([0-9]+)\.json(?::1:([0-9]+))?(?: \([^()]*\))?: (error|also): (.*)", line):
            n, column = int(found[1]), int(found[2] or 0)
            lines[n].append((found[3], found[4], is_there(texts[n], column, found[4])))
    return lines


def shown(text):
    """A text as the program shows one of others."""
    return re.sub(r"[\x00-\x1f\x7f]", "\ufffd", text)


def sizeless(text):
    """A line without the number of an object's keys, since mending a key may take it away."""
    return re.sub(r" is an object of [0-9]+, ", " is an object, ", text)


def silent(words, definitions, counts, chance):
    """The faults that no check named, or not first, or not at their place: of each the definition and what was wrong."""
    named = [None] * len(definitions)
    left = list(range(len(definitions)))
    while left:
        lines = checked(words, [definitions[n] for n in left], chance)
        going = []
        for n, told in zip(left, lines):
            fault = next(Reader(definitions[n]).faults(), None)
            errors = [text for severity, text, _ in told if severity == "error"]
            for _, text, _ in (it for it in told if not it[2]):
                yield definitions[n], f"another place: {text}"
            if fault is None:
                if errors:
                    yield definitions[n], f"refused, and no rule says why: {errors}"
                continue
            front, mend = fault
            counts[front.split(" ")[0].rstrip(":")] += 1
            if [text.startswith(shown(front)) for text in errors] != [True]:
                yield definitions[n], f"a load refuses it by {front!r}, and the check says {errors}"
            elif named[n] is not None and sizeless(errors[0]) not in named[n]:
                yield definitions[n], f"no earlier check named: {errors[0]}"
            named[n] = {sizeless(text) for _, text, _ in told} | (named[n] or set())
            mend()
            going.append(n)
        left = going


def main():
    given = argparse.ArgumentParser()
    given.add_argument("count", type=int, nargs="?", default=20000)
    given.add_argument("--seed", type=int, default=7)
    given.add_argument("--jobscope", type=shlex.split, default=[os.path.join(TOP, "build", "quick", "jobscope")])
    given.add_argument("-v", action="store_true")
    given = given.parse_args()
    chance = random.Random(given.seed)
    maker = Maker(chance)
    counts, faults = collections.Counter(), []
    for at in range(0, given.count, AT_ONCE):
        definitions = [maker.definition() for _ in range(min(AT_ONCE, given.count - at))]
        faults += [(json.dumps(definition)[:600], why) for definition, why in silent(given.jobscope, definitions, counts, chance)]
    for definition, why in faults if given.v else faults[:5]:
        print(f"{why}\n  {definition}", file=sys.stderr)
    print(f"{given.count} definitions with {sum(counts.values())} faults, {len(faults)} not named: {dict(counts)}")
    return int(bool(faults))


if __name__ == "__main__":
    sys.exit(main())
