#!/usr/bin/env python3
"""The cases of `jobscope plist` (tests/scenes/scope/plist/cases) beside python's plistlib: no program of ours runs.

What a case writes of a list is what plistlib reads of it, and each list that a case refuses plistlib refuses too, but for what `STRICTER` of random_lists.py names. The
name of a service under SockServiceName is the port that the system's own table has (getservbyname). The line of a fault is the one at which a reader over expat, which
stands here, finds the first thing that the DTD of property lists (PropertyList-1.0.dtd), a definition or XML does not allow; the text that a case names is in that line.
Status 1 if one differs. It is run by hand.
"""
import json
import os
import re
import socket
import sys
import xml.parsers.expat

sys.dont_write_bytecode = True
from random_lists import STRICTER, meant

FOLDER = os.path.join(os.path.dirname(os.path.abspath(__file__)), "scenes", "scope", "plist")


def cases():
    text = open(f"{FOLDER}/cases", encoding="utf-8").read()
    for case in re.split(r"^=== ", text, flags=re.M)[1:]:
        parts, rows = {}, None
        name, _, rest = case.partition("\n")
        for row in rest.splitlines():
            head = re.fullmatch(r"--- (\w+)", row)
            if head:
                rows = parts[head[1]] = []
            else:
                rows.append(row)
        yield name, parts


def with_ports(value):
    """The value with the ports of services that have a name."""
    if isinstance(value, list):
        return [with_ports(it) for it in value]
    if not isinstance(value, dict):
        return value
    made = {key: with_ports(it) for key, it in value.items()}
    if isinstance(made.get("SockServiceName"), str):
        try:
            made["SockServiceName"] = str(socket.getservbyname(made["SockServiceName"]))
        except OSError:
            pass
    return made


class Wrong(Exception):
    """Where a list is wrong."""


class Reader:
    """Finds the line of the first fault of a list, by the DTD: plist has one value; a dict has pairs of a key and a value; key, string, integer and real have text alone, true and
    false none; and by what a definition can have: no date and no data, numbers of 64 bits, a dict at the top."""
    TEXTS = ("key", "string", "integer", "real")

    def __init__(self):
        self.open, self.text, self.is_begun, self.count = [], "", False, 0
        self.expat = xml.parsers.expat.ParserCreate()
        self.expat.StartElementHandler, self.expat.EndElementHandler, self.expat.CharacterDataHandler = self.start, self.end, self.characters
        self.expat.XmlDeclHandler, self.expat.StartDoctypeDeclHandler = self.declared, self.doctype
        # an entity that the DTD may define, which is not read
        self.expat.SkippedEntityHandler = lambda _name, _is_parameter: self.wrong()

    def wrong(self):
        raise Wrong(self.expat.CurrentLineNumber)

    def declared(self, version, encoding, _):
        if version != "1.0" or encoding not in (None, "UTF-8"):
            self.wrong()

    def doctype(self, _name, _system, _public, has_own):
        if has_own:
            self.wrong()

    def start(self, name, attributes):
        within = self.open[-1] if self.open else None
        if within is None:
            if name != "plist":
                self.wrong()
        elif name not in ("dict", "array", "true", "false", *self.TEXTS) or attributes or within[0] in (*self.TEXTS, "true", "false"):
            self.wrong()
        elif within[0] == "dict":
            if (name == "key") != (within[1] % 2 == 0):
                self.wrong()
        elif name == "key" or (within[0] == "plist" and within[1]):
            self.wrong()
        if within:
            within[1] += 1
        self.open.append([name, 0])
        self.text, self.count = "", self.count + 1
        if sum(it[0] in ("dict", "array") for it in self.open) > 127:
            self.wrong()

    def end(self, name):
        if (name == "dict" and self.open[-1][1] % 2) or (name == "plist" and not self.open[-1][1]):
            self.wrong()
        if name == "integer" and not (re.fullmatch(r"\s*[-+]?(\d+|0x[0-9A-Fa-f]+)\s*", self.text) and -2**63 <= int(self.text, 0) < 2**64):
            self.wrong()
        if name == "real" and not re.fullmatch(r"\s*[-+]?(\d+\.?\d*|\.\d+)([eE][-+]?\d+)?\s*", self.text):
            self.wrong()
        self.open.pop()

    def characters(self, text):
        within = self.open[-1][0] if self.open else None
        if within in self.TEXTS:
            self.text += text
        elif text.strip(" \t\r\n"):
            self.wrong()


def line_of_fault(data):
    """The line of a list's first fault, or nothing if it has none."""
    reader = Reader()
    try:
        data.decode()
        reader.expat.Parse(data, True)
    except UnicodeDecodeError as fault:
        return data[:fault.start].count(b"\n") + 1
    except Wrong as fault:
        return fault.args[0]
    except xml.parsers.expat.ExpatError as fault:
        return fault.lineno
    return None


def texts(rows):
    text, at = "\n".join(rows).strip(), 0
    while at < len(text):
        value, at = json.JSONDecoder().raw_decode(text, at)
        yield value
        at += len(text[at:]) - len(text[at:].lstrip())


def main():
    faults, taken, refused, looked = [], 0, 0, 0
    for name, parts in cases():
        made = texts(parts.get("output", []))
        told = {it[1]: (it[2], it[3]) for it in (re.match(r"([\w.]+?)(?::(\d+))?: error: (.*)", row) for row in parts.get("error", [])) if it}
        for path in parts["words"][1:]:
            if not os.path.isfile(f"{FOLDER}/{path}"):
                continue
            data = open(f"{FOLDER}/{path}", "rb").read()
            # Apple's reader takes blanks around 0x1F (CFPropertyList.c: S*(-?)S*0[xX][0-9a-fA-F]+), plistlib around decimals alone.
            value = meant(re.sub(rb"<integer>[ ]*(0x[0-9A-Fa-f]+)[ ]*<", rb"<integer>\1<", data))
            if path in told:
                refused += 1
                line, why = told[path]
                if value is not None and not any(words in why for words, _ in [*STRICTER, ("more than 127", "as serde_json's depth")]):
                    faults.append(f"{name}: {path} is refused, and plistlib reads it")
                is_of_all = any(words in why for words in ("its value is not a <dict>", "it is a binary property list", "it ends before </plist>"))
                wanted = line_of_fault(data)
                if line is not None and not (is_of_all and wanted in (None, 1)) and int(line) != wanted or line is None and wanted is not None:
                    faults.append(f"{name}: {path}: the fault is in line {wanted}, and the case says {line}: {why}")
                looked += line is not None
                entity = re.match(r"(&[^; ]*;) is no entity", why)
                if entity and entity[1] not in data.decode(errors="replace").split("\n")[int(line) - 1]:
                    faults.append(f"{name}: {path}: line {line} has no {entity[1]}")
                continue
            taken += 1
            if line_of_fault(data) is not None:
                faults.append(f"{name}: {path}: taken, with a fault in line {line_of_fault(data)}")
            own = next(made, None)
            if value is None or json.dumps(with_ports(value[0])) != json.dumps(own):
                faults.append(f"{name}: {path}: plistlib reads {value}, the case has {own}")
    print("\n".join(faults))
    print(f"{taken} lists that are taken, {refused} that are refused, {looked} with a line: {len(faults)} differ")
    return 1 if faults or not taken or not refused else 0


if __name__ == "__main__":
    sys.exit(main())
