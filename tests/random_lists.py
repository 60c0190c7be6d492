#!/usr/bin/env python3
"""Property lists made at random, each as `jobscope plist` has it beside what python's `plistlib` reads.

    random_lists.py [COUNT] [--seed SEED] [--jobscope WORDS] [LIST..]

COUNT lists (3,000 where absent) are written as XML with entities, CDATA sections, comments, empty elements, blanks and line ends of all
kinds, and a part of them is damaged after that. Both have to take a list and mean the same, or both have to refuse it; where the program is
stricter on purpose, `STRICTER` names it. The lists that are named are read beside. Status 1 if one differs; it is then shown.
"""
import argparse
import json
import os
import plistlib
import random
import re
import shlex
import subprocess
import sys
import tempfile

LETTERS = "ab <>&\"';]-\t\n\r\x7f\x85é中\U0001f600\u2028"
HEAD = ('<?xml version="1.0" encoding="UTF-8"?>\n<!DOCTYPE plist PUBLIC "-//Apple//DTD PLIST 1.0//EN" '
        '"http://www.apple.com/DTDs/PropertyList-1.0.dtd">\n')
NAMES = {"<": "lt", ">": "gt", "&": "amp", '"': "quot", "'": "apos"}
AT_ONCE = 250


class Writer:
    """Writes one list at random."""

    def __init__(self, chance):
        self.chance = chance

    def blanks(self):
        it = "".join(self.chance.choice(" \t\n\r") for _ in range(self.chance.choice((0, 0, 1, 3))))
        return it + (self.chance.choice(("<!-- <a> & -->", "<?x y?>")) if self.chance.random() < 0.05 else "")

    def letter(self, letter):
        kind = self.chance.random()
        if letter in NAMES and kind < 0.5:
            return f"&{NAMES[letter]};"
        if letter in "<&\r" or letter == ">" or kind < 0.1:
            return f"&#{ord(letter)};" if kind < 0.75 else f"&#x{ord(letter):x};"
        return letter

    def text(self):
        letters = [self.chance.choice(LETTERS) for _ in range(self.chance.choice((0, 1, 3, 9)))]
        text, shown = "".join(letters), ""
        for part in re.findall(r".{1,4}", text, re.S):
            if self.chance.random() < 0.2 and "]]>" not in part and "\r" not in part:
                shown += f"<![CDATA[{part}]]>"
            else:
                shown += "".join(map(self.letter, part))
            if self.chance.random() < 0.05:
                shown += "<!-- &amp; -->"
        if self.chance.random() < 0.1:
            shown += self.chance.choice(("&amp;lt;", "&amp;amp;", "&#38;lt;", "\r\n", "\r"))
        return shown

    def integer(self):
        number = self.chance.choice((0, 1, -1, 60, 2**31, 2**63 - 1, -2**63, 2**64 - 1, self.chance.randrange(-10**6, 10**6)))
        shown = self.chance.choice((str(number), str(number), f"{number:04d}", f"+{number}" if number >= 0 else str(number)))
        if number >= 0 and self.chance.random() < 0.2:
            shown = hex(number)
        return shown

    def real(self):
        number = self.chance.choice((0.0, 1.5, -2.0, 0.1, 1e20, 1e-7, -2.5e300, 5e-324, self.chance.uniform(-1e6, 1e6)))
        return self.chance.choice((repr(number), f" {number} ", f"{number:.17g}", f"{number:e}"))

    def element(self, name, inner):
        close = self.chance.choice(("", "", " "))
        if not inner and self.chance.random() < 0.5:
            return f"<{name}{close}/>"
        return f"<{name}{close}>{inner}</{name}{close}>"

    def value(self, depth):
        kind = self.chance.choice(("dict", "array", "string", "integer", "real", "true", "false") if depth else ("string", "integer", "real", "true", "false"))
        if kind == "dict":
            inner = "".join(f"{self.blanks()}{self.element('key', self.text())}{self.blanks()}{self.value(depth - 1)}"
                            for _ in range(self.chance.choice((0, 1, 2, 4)))) + self.blanks()
        elif kind == "array":
            inner = "".join(self.blanks() + self.value(depth - 1) for _ in range(self.chance.choice((0, 1, 3)))) + self.blanks()
        elif kind == "integer":
            return f"<integer>{self.integer()}</integer>"
        elif kind == "real":
            return f"<real>{self.real()}</real>"
        else:
            inner = self.text() if kind == "string" else ""
        return self.element(kind, inner)

    def top(self):
        """A dictionary, as a definition is, or now and then another value."""
        if self.chance.random() < 0.1:
            return self.value(4)
        return self.element("dict", "".join(f"{self.element('key', self.text())}{self.blanks()}{self.value(3)}" for _ in range(self.chance.choice((1, 2, 4)))))

    def list(self):
        head = self.chance.choice((HEAD, HEAD, HEAD.replace("\n", "\r\n"), "", "\ufeff"))
        version = self.chance.choice((' version="1.0"', "", " "))
        text = f"{head}<plist{version}>{self.blanks()}{self.top()}{self.blanks()}</plist>{self.blanks()}"
        if self.chance.random() < 0.4:
            text = self.damaged(text)
        return text.encode()

    def damaged(self, text):
        at = self.chance.randrange(len(text))
        kind = self.chance.randrange(6)
        if kind == 0:
            return text[:at] + text[at + 1:]
        if kind == 1:
            return text[:at] + self.chance.choice(("<", ">", "&", "/", ";", "\x01", "x", "&nbsp;", "&#0;", "<real>1.5</real>", "<key>k</key>")) + text[at:]
        if kind == 2:
            return text[:at]
        marks = list(re.finditer(r"<[^<>]*>", text))
        first, second = self.chance.choice(marks), self.chance.choice(marks)
        if kind == 3:
            return text[:first.start()] + text[first.end():]
        if kind == 4:
            return text[:first.start()] + second[0] + text[first.end():]
        return text.replace("<integer>", f"<integer>{self.chance.choice(('', '-', '0x', '18446744073709551616', '1.0', '1_0', '--1'))}", 1)


def meant(data):
    """The value that plistlib reads, or None if it refuses the list."""
    try:
        return (plistlib.loads(data, fmt=plistlib.FMT_XML),)
    except Exception:
        return None


# What the program refuses and plistlib takes, by the words of the refusal.
STRICTER = [
    ("has no place in a definition", "a date or bytes"),
    ("its value is not a <dict>", "a value that is no dictionary"),
    ("has no number of 64 bits", "a real that JSON has not, or in a form of python's own, as 1_0"),
    ("<plist> has no value in it", "an empty <plist>"),
    ("there is text between elements", "a text between elements"),
    ("has an attribute that no property list has", "an attribute"),
    ("comes after the list's value", "more than one value, of which plistlib takes the last"),
    ("comes before <plist>", "no <plist> around the value"),
    ("has no integer from", "an integer past 64 bits, or in a form of python's own, as 1_0"),
    ("is not an element of a property list", "an element that plistlib passes over"),
    ("<?xml ..?> is not first", "another version of XML"),
    ("is not closed before the next element", "an element within a text"),
    ("has a text in it", "a text in <true> or <false>"),
    ("the last <key> of a <dict> has no value", "an empty key without a value, which plistlib takes for none"),
    ("<key> is where a value is expected", "an empty key without a value, which plistlib takes for none"),
    ("is not an XML entity", "an entity that nothing defines, which plistlib passes over"),
]


def left_out(data, value, why):
    """Why the two may differ here; None if they may not."""
    text = data.decode(errors="replace")
    if value is not None:
        return next((named for words, named in STRICTER if words in why), None)
    if "<!DOCTYPE" in text and HEAD[HEAD.index("<!"):].strip() not in text.replace("\r", ""):
        return "a DOCTYPE line whose words are no XML: they are passed over"
    if any(not re.fullmatch(r"[A-Za-z_:][\w.:-]*(\s.*)?", it, re.S) for it in re.findall(r"<\?(.*?)\?>", text, re.S)):
        return "an instruction whose words are no XML: they are passed over"
    if re.search(r"<integer\s*>\s*[-+]0x", text):
        return "a sign before 0x, which Apple's reader takes"
    return None


def written(words, folder, count):
    """For each list of the folder the JSON that the program writes, or None; and why lists were refused, by their numbers."""
    into = os.path.join(folder, "into")
    os.mkdir(into)
    paths = [os.path.join(folder, f"{n}.plist") for n in range(count)]
    ran = subprocess.run([*words, "plist", "--into", into, *paths], capture_output=True, text=True, timeout=600)
    if ran.returncode not in (0, 1):
        sys.exit(f"random_lists: status {ran.returncode}: {ran.stderr[:300]}")
    found = []
    for n in range(count):
        path = os.path.join(into, f"{n}.json")
        found.append(open(path, encoding="utf-8").read() if os.path.exists(path) else None)
    told = dict(re.findall(r"/([0-9]+)\.plist(?::[0-9]+)?: error: (.*)", ran.stderr))
    return found, told


def differing(words, lists):
    with tempfile.TemporaryDirectory() as folder:
        for n, data in enumerate(lists):
            with open(os.path.join(folder, f"{n}.plist"), "wb") as it:
                it.write(data)
        found, told = written(words, folder, len(lists))
    for n, (data, text) in enumerate(zip(lists, found)):
        value = meant(data)
        own = None if text is None else (json.loads(text),)
        if own is not None:
            counts["taken"] += 1
        if json.dumps(own) != json.dumps(value, default=str):
            if why := left_out(data, value, told.get(str(n), '')):
                counts[why] = counts.get(why, 0) + 1
            else:
                yield data, value, own


counts = {"taken": 0}


def main():
    words = argparse.ArgumentParser()
    words.add_argument("count", type=int, nargs="?", default=3000)
    words.add_argument("--seed", type=int, default=7)
    words.add_argument("--jobscope", type=shlex.split, default=["build/jobscope"])
    words.add_argument("--list", action="append", default=[])
    given = words.parse_args()
    writer = Writer(random.Random(given.seed))
    lists = [open(path, "rb").read() for path in given.list] + [writer.list() for _ in range(given.count)]
    faults = []
    for at in range(0, len(lists), AT_ONCE):
        faults += differing(given.jobscope, lists[at:at + AT_ONCE])
    for data, value, own in faults[:5]:
        print(f"differs:\n{data!r}\nplistlib: {value}\njobscope: {own}\n", file=sys.stderr)
    print(f"{len(lists)} lists, {len(faults)} differ; {counts}")
    return 1 if faults else 0


if __name__ == "__main__":
    sys.exit(main())
